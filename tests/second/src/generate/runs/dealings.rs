//! Whole runs of lists with a form: keys for their items, and the ways in which they are dealt.

use std::mem;

use super::openings::Opening;
use super::{apart, feed, moment, reports, schedules};
use crate::command::Kind;
use crate::generate::commands::with_key;
use crate::generate::random_key;
use crate::host::Host;
use crate::identifier::LARGEST_KEY;
use crate::play::{Difference, Play};
use crate::random::Random;
use crate::run::Run;
use crate::script::Step;

/// How many ways of dealing there are.
pub const WAYS: u64 = 4;

/// Turns with which a run is brought to its end, at the most.
const MOST: usize = 20_000;
/// Calls of a run that is held against the serial run after each, at the most.
const CALLS: usize = 150;

pub type Played = Result<(), Difference>;

/// A command's kind, and its item by the place of its key in the list's keys.
pub type Entry = (Kind, usize);

/// A change to the lists that are handed back behind a worker's turn, with what was seen there, and
/// the turns dealt then.
pub type Change<T> = fn(u8, T, &mut Random, &mut Play) -> Played;

/// How the runs of a sort are dealt.
pub struct Dealing<T: 'static> {
    /// Turns to the end of a run, or as many as are allowed.
    pub to_the_end: fn(&mut Random, &Host, usize) -> Vec<u8>,
    /// What is seen of a party behind its turn, and the changes that are made where it is.
    pub seen: fn(&Run, u8) -> Option<T>,
    pub changes: &'static [Change<T>],
}

impl<T: Copy> Dealing<T> {
    /// Opens and deals in the way of a number.
    pub fn play(&self, opening: Opening, way: u64, random: &mut Random, play: &mut Play) -> Played {
        let input = opening.input(&[]);
        opening.open(play)?;
        match way % WAYS {
            0 => self.call_by_call(random, play)?,
            1 => in_any_order(random, play)?,
            2 => self.also_by_the_program(input, random, play)?,
            _ => self.with_changes(random, play)?,
        }
        reports(play)?;
        play.take(Step::Serial)?;
        Ok(())
    }

    /// To the end, held against the serial run after each call; a short run has a call for each
    /// turn.
    fn call_by_call(&self, random: &mut Random, play: &mut Play) -> Played {
        let schedule = (self.to_the_end)(random, play.host(), MOST);
        for piece in schedule.chunks(schedule.len() / CALLS + 1) {
            play.take(Step::Advance(piece.to_vec()))?;
            play.take(Step::Serial)?;
        }
        Ok(())
    }

    /// To the end by calls and by the program; its input is given up to the turns.
    fn also_by_the_program(
        &self,
        mut input: Vec<u8>,
        random: &mut Random,
        play: &mut Play,
    ) -> Played {
        let schedule = (self.to_the_end)(random, play.host(), MOST);
        feed(random, play, &schedule)?;
        input.extend(schedule);
        play.take(Step::Program(input))?;
        Ok(())
    }

    /// To the end; behind each turn after which something is seen of its party, the lists are
    /// perhaps judged, and handed over with each of the changes, on a copy.
    fn with_changes(&self, random: &mut Random, play: &mut Play) -> Played {
        let Some(mut run) = play.host().run() else {
            return Ok(());
        };
        let mut piece = Vec::new();
        for party in (self.to_the_end)(random, play.host(), MOST) {
            run.turn(party);
            piece.push(party);
            if let Some(seen) = (self.seen)(&run, party) {
                play.take(Step::Advance(mem::take(&mut piece)))?;
                moment(random, play)?;
                for change in self.changes {
                    apart(play, |play| change(party, seen, random, play))?;
                }
            }
        }
        play.take(Step::Advance(piece))?;
        Ok(())
    }
}

/// Turns of any sort, in most cases to the end.
fn in_any_order(random: &mut Random, play: &mut Play) -> Played {
    let schedule = schedules::any(random, play.host());
    feed(random, play, &schedule)
}

/// A list of such commands; chutes are any that are right.
pub fn commands(entries: &[Entry], keys: &[u64], random: &mut Random) -> Vec<u8> {
    let parts = entries.iter();
    parts
        .flat_map(|(kind, item)| with_key(random, *kind, keys[*item]))
        .collect()
}

/// Different keys, neighbours and the two ends among them.
pub fn keys(random: &mut Random, count: usize) -> Vec<u64> {
    let near = random.below(LARGEST_KEY);
    let mut keys = Vec::new();
    while keys.len() < count {
        let far = random_key(random);
        let key = random.pick(&[0, LARGEST_KEY, near, near + 1, far, far]);
        if !keys.contains(&key) {
            keys.push(key);
        }
    }
    keys
}

/// What the tests of such runs look at.
#[cfg(test)]
pub mod testing {
    use super::*;
    use crate::depot::Second;
    use crate::generate::runs;
    use crate::met::Met;
    use crate::met::images::Scene;

    /// The steps of a run, and how it stands after them.
    pub struct Done {
        pub steps: Vec<Step>,
        pub run: Run,
        pub met: Met,
    }

    /// Plays the run of an index on the second program alone.
    pub fn done(seed: u64, index: u64) -> Done {
        let mut play = Play::new(&Second);
        let outcome = runs::play(seed, index, &mut play);
        outcome.expect("the second program is itself");
        Done {
            run: play.host().run().expect("the run goes on"),
            steps: play.steps,
            met: play.met,
        }
    }

    /// Plays so many runs, from the first index on.
    pub fn played(first: u64, count: u64) -> Vec<Done> {
        let indexes = first..first + count;
        indexes.map(|index| done(1, index)).collect()
    }

    /// What all these runs met, which is printed.
    pub fn met(played: &[Done]) -> Met {
        let mut met = Met::default();
        played.iter().for_each(|done| met += &done.met);
        println!("{}", met.lines().join("\n"));
        met
    }

    /// Asserts that these runs met each scene so often at least.
    pub fn assert_scenes(played: &[Done], scenes: &[(Scene, u64)]) {
        let met = met(played);
        for (scene, least) in scenes {
            let count = met.images.count(*scene);
            assert!(count >= *least, "{scene:?}: {count}");
        }
    }

    /// What is noted of the turns that the steps of a run deal. To note a turn is to make it; the
    /// last argument is whether it is on a copy, which may have been changed.
    pub fn noted<T>(steps: &[Step], note: fn(&mut Run, u8, bool) -> Option<T>) -> Vec<T> {
        let mut host = Host::default();
        let mut notes = Vec::new();
        let mut apart = false;
        for step in steps {
            match step {
                Step::Keep => apart = true,
                Step::Restore => apart = false,
                Step::Advance(schedule) => {
                    notes.extend(noted_turns(host.run(), schedule, apart, note));
                }
                _ => {}
            }
            host.take(&Second, step);
        }
        notes
    }

    /// What is noted of the turns of one call on a run; none where it is refused.
    fn noted_turns<T>(
        run: Option<Run>,
        schedule: &[u8],
        apart: bool,
        note: fn(&mut Run, u8, bool) -> Option<T>,
    ) -> Vec<T> {
        match run {
            Some(mut run) if schedule.iter().all(|it| *it <= run.largest) => {
                let turns = schedule.iter();
                turns
                    .filter_map(|party| note(&mut run, *party, apart))
                    .collect()
            }
            _ => Vec::new(),
        }
    }

    /// Asserts that nine runs of ten come to their end.
    pub fn assert_nearly_all_finish(played: &[Done]) {
        let finished = played.iter().filter(|done| done.run.is_finished());
        assert!(10 * finished.count() > 9 * played.len());
    }

    /// Asserts that a seed gives the same runs again and another gives others.
    pub fn assert_made_from_the_seed(first: u64, count: u64) {
        for index in (first..first + count).step_by(31) {
            let steps = done(1, index).steps;
            assert!(done(1, index).steps == steps);
            assert!(done(2, index).steps != steps);
        }
    }
}
