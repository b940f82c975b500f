//! Checkpoints and openings from an image, with a full store of the largest room.

use second::bytes;
use second::command::{self, Kind};
use second::depot::{Depot, Second};
use second::generate::images::{Draft, entries};
use second::identifier::NONE;
use second::image;
use second::random::Random;
use second::run::Settings;
use second::store::Store;

use crate::clock::timed;
use crate::input::Input;
use crate::lists::{Lists, accepted, same};
use crate::measure::{Bench, Times, median};

/// Checkpoints that are written in one call.
pub const MANY: usize = 100;
const ROOM: u16 = 4096;
/// The turns that serve a command alone: two of the loader and seven of the worker.
const ALONE: [u8; 9] = [0, 0, 1, 1, 1, 1, 1, 1, 1];
/// Those of them before the writing turn.
const BEFORE: usize = 5;
/// Calls of which a run has the mean, where lists are set back between them.
const CALLS: u32 = 20;

/// An image of a full store, its records in order or in any order.
pub fn source(in_order: bool) -> Vec<u8> {
    let random = &mut Random::new(2026);
    let entries = entries(random, ROOM.into());
    if !in_order {
        return Draft::shuffled(random, ROOM, &entries, 1).bytes();
    }
    let mut store = Store::new(ROOM);
    store.keys = entries.iter().map(|it| it.0).collect();
    store.chutes = entries.iter().map(|it| it.1).collect();
    store.used = ROOM;
    let mut bytes = Vec::new();
    image::write(&store, 1, &mut bytes);
    bytes
}

/// A list of nothing but checkpoints, or of nothing but worker changes in their places, with the turns
/// that serve them one after the other.
pub fn list(kind: Kind) -> Input {
    let last = if kind == Kind::Workers { 1 } else { 0 };
    let settings = Settings {
        size: 150,
        workers: 64,
        room: ROOM,
    };
    let commands = command::encode(kind.number(), &NONE, last).repeat(MANY);
    Input::given(settings, commands, ALONE.repeat(MANY))
}

impl Bench {
    /// One call that serves the whole list, from a full store.
    pub fn served(&self, input: &Input) -> Result<Times, String> {
        let lists = opened(input)?;
        self.set_back(&lists, |lists, depot| {
            lists.advance(depot, input, &input.schedule)
        })
    }

    /// One call of nothing but the writing turn of the first command, from a full store.
    pub fn writing(&self, input: &Input) -> Result<Times, String> {
        let mut lists = opened(input)?;
        let before = &ALONE[..BEFORE];
        accepted("advance", lists.advance(&Second, input, before))?;
        self.set_back(&lists, |lists, depot| {
            lists.advance(depot, input, &ALONE[BEFORE..=BEFORE])
        })
    }

    /// One opening from an image; the first finds lists in which no byte is 0.
    pub fn open_from(&self, input: &Input, source: &[u8]) -> Result<Times, String> {
        let mut lists = opened(input)?;
        lists.fill(1);
        self.call(
            input,
            &lists,
            |lists, depot, input| lists.open_from(depot, input, source),
            |lists, depot, input| lists.open_from(depot, input, source),
        )
    }

    /// A call, each time on lists as they were at first; setting them back is outside the clock.
    fn set_back(
        &self,
        first: &Lists,
        call: impl Fn(&mut Lists, &dyn Depot) -> u64,
    ) -> Result<Times, String> {
        let sides: [&dyn Depot; 2] = [&self.proved, &Second];
        let mut lists = [first.clone(), first.clone()];
        let mut times = [const { Vec::new() }; 2];
        for _ in 0..self.runs {
            for (side, (lists, times)) in sides.iter().zip(lists.iter_mut().zip(&mut times)) {
                let mut sum = std::time::Duration::ZERO;
                for _ in 0..CALLS {
                    lists.clone_from(first);
                    let (time, answer) = timed(|| call(lists, *side));
                    accepted("advance", answer)?;
                    sum += time;
                }
                times.push(sum / CALLS);
            }
            same(&lists[0], &lists[1])?;
        }
        let [proved, plain] = times.map(median);
        Ok(Times { proved, plain })
    }
}

/// Lists of an input with a full store, its image behind them.
fn opened(input: &Input) -> Result<Lists, String> {
    let mut lists = Lists::opened(&Second, input)?;
    accepted("open_from", lists.open_from(&Second, input, &source(true)))?;
    let used = [lists.state[bytes::USED], lists.state[bytes::USED + 1]];
    match u16::from_be_bytes(used) {
        ROOM => Ok(lists),
        used => Err(format!("{used} entries in the store")),
    }
}

#[cfg(test)]
mod tests {
    use super::*;

    /// Both orders are images of the same full store.
    #[test]
    fn both_sources_have_the_same_entries() {
        let [first, second] = [true, false].map(source);
        assert_ne!(first, second);
        assert_eq!(image::read(&first), image::read(&second));
        assert_eq!(image::read(&first).map(|store| store.used), Ok(ROOM));
    }

    /// The turns serve every command, and the image is that of the last checkpoint.
    #[test]
    fn the_list_is_served_by_its_turns() {
        for (kind, place) in [(Kind::Checkpoint, MANY as u64), (Kind::Workers, 0)] {
            let input = list(kind);
            let mut lists = opened(&input).expect("it is opened");
            assert_eq!(lists.advance(&Second, &input, &input.schedule), 0);
            assert_eq!(lists.answers, [3, 232].repeat(MANY));
            assert_eq!(image::place(&lists.image), place);
        }
    }

    /// The single turn is the one that writes.
    #[test]
    fn the_sixth_turn_writes_the_image() {
        let input = list(Kind::Checkpoint);
        let mut lists = opened(&input).expect("it is opened");
        assert_eq!(lists.advance(&Second, &input, &ALONE[..BEFORE]), 0);
        assert_eq!(image::place(&lists.image), 0);
        assert_eq!(lists.advance(&Second, &input, &ALONE[BEFORE..=BEFORE]), 0);
        assert_eq!(image::place(&lists.image), 1);
    }
}
