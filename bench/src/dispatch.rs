//! The dispatcher on a list from its opening, and the turns that it wrote, performed from the same
//! opening by both sides.

use std::time::Duration;

use second::depot::Second;

use crate::clock::timed;
use crate::input::Input;
use crate::lists::{Lists, accepted, same};
use crate::measure::Bench;

/// What a lent list holds where nothing is written: no party's number.
const UNWRITTEN: u8 = 255;

/// A dispatched list: its steps, how many there may be, and the median times of dispatching, of
/// advancing by the same steps, and of that on the plain side.
pub struct Dispatched {
    pub steps: usize,
    pub bound: usize,
    pub dispatch: Duration,
    pub advance: Duration,
    pub plain: Duration,
}

impl Bench {
    /// The three by turns, each in one call from the same opening.
    pub fn dispatch(&self, input: &Input) -> Result<Dispatched, String> {
        let opened = Lists::opened(&self.proved, input)?;
        let bound = opened.steps_needed(&self.proved, input)?;
        let mut lent = vec![UNWRITTEN; bound];
        let steps = opened.clone().dispatch(&self.proved, input, &mut lent)?;
        let schedule = lent[..steps].to_vec();
        let [dispatch, advance, plain] = self.medians(steps, |times| {
            lent[..steps].fill(UNWRITTEN);
            self.dispatch_once(input, &opened, &mut lent, times)?;
            written(&lent[..steps], &schedule)
        })?;
        written(&lent, &schedule)?; // behind it once only: a long list takes the place of others in the cache
        Ok(Dispatched {
            steps,
            bound,
            dispatch,
            advance,
            plain,
        })
    }

    /// Adds the times of the three.
    fn dispatch_once(
        &self,
        input: &Input,
        opened: &Lists,
        lent: &mut [u8],
        times: &mut [Duration; 3],
    ) -> Result<(), String> {
        let [mut dispatched, mut advanced, mut plain] = [opened; 3].map(Lists::clone);
        let (time, steps) = timed(|| dispatched.dispatch(&self.proved, input, lent));
        times[0] += time;
        let schedule = &lent[..steps?];
        let (time, answer) = timed(|| advanced.advance(&self.proved, input, schedule));
        times[1] += time;
        accepted("advance, proved", answer)?;
        let (time, answer) = timed(|| plain.advance(&Second, input, schedule));
        times[2] += time;
        accepted("advance, plain", answer)?;
        same(&dispatched, &advanced)?;
        same(&advanced, &plain)
    }
}

/// An error unless a lent list holds the schedule and is unwritten behind it.
fn written(lent: &[u8], schedule: &[u8]) -> Result<(), String> {
    let (first, rest) = lent.split_at(schedule.len());
    if first != schedule || rest.iter().any(|byte| *byte != UNWRITTEN) {
        return Err("the dispatcher wrote another schedule than before, or more".to_string());
    }
    Ok(())
}

#[cfg(test)]
mod tests {
    use std::path::PathBuf;

    use super::*;
    use crate::archive::Archive;
    use crate::input::{Kinds, Order};
    use second::run::Settings;

    fn list(count: usize) -> Input {
        let settings = Settings {
            size: 8,
            workers: 4,
            room: 4096,
        };
        Input::new(
            settings,
            Kinds::InsertsAndReads,
            count,
            Order::RoundRobin,
            1_000_000,
        )
    }

    /// The bound of document 02, and lists that end as any other turns end them: every answer given,
    /// the same store. An insert takes nine turns, a read eight.
    #[test]
    fn a_list_is_dispatched_to_its_end() {
        let proved = &Archive {
            program: PathBuf::new(), // the program is not run here
        };
        let input = list(20);
        let mut dispatched = Lists::opened(&Second, &input).expect("it is opened");
        let mut advanced = dispatched.clone();
        assert!(input.done);
        assert_eq!(advanced.advance(&Second, &input, &input.schedule), 0);
        assert_eq!(
            dispatched.steps_needed(proved, &input),
            Ok((20 + 4) * (3 * 8 + 6))
        );
        let mut lent = vec![UNWRITTEN; 720];
        assert_eq!(
            dispatched.dispatch(proved, &input, &mut lent),
            Ok(2 * 9 + 18 * 8)
        );
        assert_eq!(dispatched.answers, advanced.answers);
        assert_eq!(dispatched.keys, advanced.keys);
        assert_eq!(dispatched.chutes, advanced.chutes);
        assert_eq!(dispatched.steps_needed(proved, &input), Ok(4 * (3 * 8 + 6)));
    }

    #[test]
    fn another_schedule_is_found() {
        let mut lent = [0, 0, 1, UNWRITTEN];
        assert_eq!(written(&lent, &[0, 0, 1]), Ok(()));
        assert!(written(&lent, &[0, 0, 2]).is_err());
        assert!(written(&lent, &[0, 0]).is_err());
        lent[3] = 0;
        assert!(written(&lent, &[0, 0, 1]).is_err());
    }
}
