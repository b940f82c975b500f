//! Document 02, A.14: the dispatcher's schedule of a full list, performed from opening, beside plain
//! Rust "with the same records, turns and store" on the same bytes; and beside threads.

use std::time::{Duration, Instant};

use second::depot::Second;
use second::serial::Entries;

use crate::input::Input;
use crate::lists::{Lists, accepted};
use crate::measure::{Bench, StepTimes, median};
use crate::threads;

/// Median times of a full list.
pub struct Full {
    pub steps: usize,
    /// Performing the schedule.
    pub dealt: StepTimes,
    /// Opening and dispatching, on the wall's clock.
    pub dispatched: Duration,
}

impl Bench {
    /// The dispatcher's schedule from opening.
    pub fn full(&self, input: &Input) -> Result<Full, String> {
        let mut lists = Lists::opened(&self.proved, input)?;
        let mut lent = vec![0; lists.steps_needed(&self.proved, input)?];
        let steps = lists.dispatch(&self.proved, input, &mut lent)?;
        lent.truncate(steps);
        let dealt = Input::given(input.settings, input.commands.clone(), lent);
        Ok(Full {
            steps,
            dealt: self.steps(&dealt)?,
            dispatched: self.dispatched(input, steps)?,
        })
    }

    /// The wall's time of an opening and a dispatch.
    fn dispatched(&self, input: &Input, steps: usize) -> Result<Duration, String> {
        let mut times = Vec::new();
        for _ in 0..self.runs {
            let mut lists = Lists::opened(&Second, input)?;
            let mut lent = vec![0; lists.steps_needed(&self.proved, input)?];
            let before = Instant::now();
            accepted("open", lists.open(&self.proved, input))?;
            let made = lists.dispatch(&self.proved, input, &mut lent)?;
            times.push(before.elapsed());
            if made != steps {
                return Err("the dispatcher made another number of steps".to_string());
            }
        }
        Ok(median(times))
    }

    /// The wall's time of threads on the same list, the commands read outside of it.
    pub fn threads(&self, input: &Input, workers: usize) -> Result<Duration, String> {
        let mut run = input.opened();
        let size = usize::from(input.settings.size);
        let mut times = Vec::new();
        while !run.is_finished() {
            (0..=run.largest).for_each(|party| {
                run.turn(party);
            });
        }
        let entries: Entries = run.store.entries().collect();
        for _ in 0..self.runs {
            let (time, answers, store) =
                threads::carry_out(&run.commands, size, workers, input.settings.room);
            if answers != run.answers || !store.entries().eq(entries.clone()) {
                return Err("the threads answer otherwise".to_string());
            }
            times.push(time);
        }
        Ok(median(times))
    }
}
