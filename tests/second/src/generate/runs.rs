//! Compared runs of the whole depot, made from a seed: openings, schedules of every sort fed whole
//! and in pieces, with judgements by the serial run and refused calls between them, items announced
//! again, reads beside other commands, commands that pass inserts and deletes, worker counts that
//! change, checkpoints, runs that are opened from the images of others, dispatches, handed-back lists
//! that were changed, those with commands that opening refuses among them, and the program.

mod announcements;
mod changes;
mod checkpoints;
mod dealings;
#[cfg(test)]
mod dispatchers;
mod dispatches;
#[cfg(test)]
mod flaws;
mod limits;
pub(super) mod openings;
mod passes;
pub(super) mod programs;
mod reads;
mod schedules;
#[cfg(test)]
mod services;
mod shifts;
mod swaps;
#[cfg(test)]
mod tables;
mod untested;

use super::Sort;
use crate::calls::{COUNTS, STATUSES};
use crate::play::{Difference, Play};
use crate::random::Random;
use crate::script::{List, Step};
use openings::Opening;

/// How many runs are always compared, whatever the seed adds to them.
pub const FIXED: u64 = UNTESTED + untested::COUNT;
/// Where those with items announced again begin, those with reads beside other commands, those with
/// commands that pass inserts and deletes, those with worker counts that change, those with
/// checkpoints, those that are swapped for another, those that are dispatched and those with lists that
/// no opening accepted.
const ANNOUNCEMENTS: u64 = limits::COUNT + LONG;
const READS: u64 = ANNOUNCEMENTS + announcements::COUNT;
const PASSES: u64 = READS + reads::COUNT;
const SHIFTS: u64 = PASSES + passes::COUNT;
const CHECKPOINTS: u64 = SHIFTS + shifts::COUNT;
const SWAPS: u64 = CHECKPOINTS + checkpoints::COUNT;
const DISPATCHES: u64 = SWAPS + swaps::COUNT;
const UNTESTED: u64 = DISPATCHES + dispatches::COUNT;
/// Long runs among them.
const LONG: u64 = 14;
/// Random runs come in rounds of this many kinds.
const ROUND: u64 = 23;
/// The last of them is an input of the program.
const PROGRAM: u64 = ROUND - 1;
/// Schedules up to this length may be fed turn by turn.
const SHORT: usize = 300;
/// Of how many calls in the middle of a dealing one is followed by a judgement.
const MOMENTS: u64 = 3;

/// What the run of an index is.
pub fn sort(index: u64) -> Sort {
    match index.checked_sub(FIXED) {
        Some(index) if index % ROUND == PROGRAM => Sort::Programs,
        None if index >= UNTESTED => Sort::Untested,
        None if index >= DISPATCHES => Sort::Dispatches,
        None if index >= SWAPS => Sort::Swaps,
        None if index >= CHECKPOINTS => Sort::Checkpoints,
        None if index >= SHIFTS => Sort::Shifts,
        None if index >= PASSES => Sort::Passes,
        None if index >= READS => Sort::Reads,
        None if index >= ANNOUNCEMENTS => Sort::Announcements,
        _ => Sort::Runs,
    }
}

/// Plays the run of an index from 0 on.
pub fn play(seed: u64, index: u64, play: &mut Play) -> Result<(), Difference> {
    let random = &mut Random::new(Random::new(seed ^ index.rotate_left(32)).number());
    if index < limits::COUNT {
        return limits::play(index, random, play);
    }
    if index < ANNOUNCEMENTS {
        return long_run(index - limits::COUNT, random, play);
    }
    if index < READS {
        return announcements::play(index - ANNOUNCEMENTS, random, play);
    }
    if index < PASSES {
        return reads::play(index - READS, random, play);
    }
    if index < SHIFTS {
        return passes::play(index - PASSES, random, play);
    }
    if index < CHECKPOINTS {
        return shifts::play(index - SHIFTS, random, play);
    }
    if index < SWAPS {
        return checkpoints::play(index - CHECKPOINTS, random, play);
    }
    if index < DISPATCHES {
        return swaps::play(index - SWAPS, random, play);
    }
    if index < UNTESTED {
        return dispatches::play(index - DISPATCHES, random, play);
    }
    if index < FIXED {
        return untested::play(index - UNTESTED, random, play);
    }
    let index = index - FIXED;
    match index % ROUND {
        0..=15 => whole_run(random, play),
        16 => wide_run(random, play),
        kind @ 17..=18 => changes::bytes(index / ROUND * 2 + kind - 17, random, play),
        19 => changes::settings(random, play),
        20 => openings::refused(random, play),
        21 => turn_by_turn(random, play),
        PROGRAM.. => programs::play(random, play),
    }
}

/// Opens, which is accepted, and makes turns up to some point or to the end.
fn whole_run(random: &mut Random, play: &mut Play) -> Result<(), Difference> {
    Opening::any(random).open(play)?;
    let schedule = schedules::any(random, play.host());
    feed(random, play, &schedule)?;
    play.take(Step::Serial)?;
    Ok(())
}

/// A large graph that is filled, so that every word of the sets is used.
fn wide_run(random: &mut Random, play: &mut Play) -> Result<(), Difference> {
    Opening::wide(random).open(play)?;
    let schedule = schedules::filled(random, play.host());
    feed_in_pieces(random, play, &schedule)?;
    reports(play)?;
    play.take(Step::Serial)?;
    Ok(())
}

/// A small run to its end, one call a turn, held against the serial run after each.
fn turn_by_turn(random: &mut Random, play: &mut Play) -> Result<(), Difference> {
    Opening::small(random).open(play)?;
    let schedule = schedules::to_the_end(random, play.host(), SHORT);
    for party in schedule {
        play.take(Step::Advance(vec![party]))?;
        play.take(Step::Serial)?;
    }
    reports(play)
}

/// Many commands; the number chooses how many and how they are fed.
fn long_run(number: u64, random: &mut Random, play: &mut Play) -> Result<(), Difference> {
    Opening::long(number, random).open(play)?;
    let schedule = schedules::to_the_end(random, play.host(), 3_000_000);
    if number.is_multiple_of(2) {
        play.take(Step::Advance(schedule))?;
    } else {
        feed_in_pieces(random, play, &schedule)?;
    }
    reports(play)?;
    play.take(Step::Serial)?;
    Ok(())
}

/// Feeds a schedule whole, in two parts with a judgement between them, in pieces or turn by turn.
fn feed(random: &mut Random, play: &mut Play, schedule: &[u8]) -> Result<(), Difference> {
    match random.below(4) {
        0 => {
            play.take(Step::Advance(schedule.to_vec()))?;
        }
        1 => {
            let at = random.below(schedule.len() as u64 + 1) as usize;
            play.take(Step::Advance(schedule[..at].to_vec()))?;
            play.take(Step::Serial)?;
            play.take(Step::Advance(schedule[at..].to_vec()))?;
        }
        2 if schedule.len() <= SHORT => {
            for party in schedule {
                play.take(Step::Advance(vec![*party]))?;
                moment(random, play)?;
            }
        }
        _ => feed_in_pieces(random, play, schedule)?,
    }
    Ok(())
}

/// Feeds a schedule in some ten pieces with other calls between them.
fn feed_in_pieces(random: &mut Random, play: &mut Play, schedule: &[u8]) -> Result<(), Difference> {
    let longest = schedule.len() / 5 + 1;
    let mut rest = schedule;
    while !rest.is_empty() {
        let length = rest.len().min(random.below(longest as u64 + 1) as usize);
        let (piece, later) = rest.split_at(length);
        play.take(Step::Advance(piece.to_vec()))?;
        rest = later;
        moment(random, play)?;
        interlude(random, play)?;
    }
    Ok(())
}

/// Holds the lists, which are as the calls left them, against the serial run behind some calls.
fn moment(random: &mut Random, play: &mut Play) -> Result<(), Difference> {
    if random.below(MOMENTS) == 0 {
        play.take(Step::Serial)?;
    }
    Ok(())
}

/// A call that leaves the run as it is: an empty dealing, a report, a refused call or, on a copy, a
/// dispatch.
fn interlude(random: &mut Random, play: &mut Play) -> Result<(), Difference> {
    let length = |random: &mut Random, right: usize| random.pick(&[right, right - 1, right + 1, 0]);
    let step = match random.below(8) {
        0 => Step::Advance(vec![]),
        1 => Step::PendingCounts(length(random, COUNTS)),
        2 => Step::WorkerStatus(length(random, 2 * STATUSES)),
        3 => Step::Advance(schedules::refused(random, play.host())),
        4 => return apart(play, |play| wrong_length(random, play)),
        5 => return apart(play, |play| openings::refused(random, play)),
        6 => return apart(play, |play| changes::one_byte(random, play)),
        _ => return apart(play, |play| dispatches::dispatch(random, play)),
    };
    play.take(step)?;
    Ok(())
}

/// Plays on a copy of the lists, and goes on with the lists as they were.
fn apart(
    play: &mut Play,
    part: impl FnOnce(&mut Play) -> Result<(), Difference>,
) -> Result<(), Difference> {
    play.take(Step::Keep)?;
    part(play)?;
    play.take(Step::Restore)?;
    Ok(())
}

/// Hands one list over in a wrong length.
fn wrong_length(random: &mut Random, play: &mut Play) -> Result<(), Difference> {
    let list = random.pick(&List::HANDED);
    let length = play.host().list(list).len() as i64;
    let by = random.pick(&[-16, -8, -2, -1, 1, 2, 8, 16, -length]);
    play.take(Step::Resize(list, (length + by).max(0) as usize))?;
    play.take(Step::Advance(vec![0, random.byte()]))?;
    reports(play)
}

/// Both reports.
fn reports(play: &mut Play) -> Result<(), Difference> {
    play.take(Step::PendingCounts(COUNTS))?;
    play.take(Step::WorkerStatus(2 * STATUSES))?;
    Ok(())
}

#[cfg(test)]
mod tests {
    use std::cell::RefCell;
    use std::collections::BTreeMap;

    use super::*;
    use crate::bytes::Lists;
    use crate::calls::{Given, LentLists};
    use crate::depot::{Depot, Second};
    use crate::generate::{counts, images};

    /// The second program, which counts how often each call gives each refusal number.
    #[derive(Default)]
    struct Counting {
        counts: RefCell<BTreeMap<(&'static str, u64), usize>>,
        /// Which accepted dealing writes wrong answers, counted from 1.
        wrong_after: Option<usize>,
    }

    impl Counting {
        fn count(&self, call: &'static str, answer: u64) -> u64 {
            *self
                .counts
                .borrow_mut()
                .entry((call, answer % 256))
                .or_default() += 1;
            answer
        }

        fn met(&self, call: &'static str) -> Vec<u64> {
            let counts = self.counts.borrow();
            let numbers = counts.keys().filter(|(name, _)| *name == call);
            numbers.map(|(_, number)| *number).collect()
        }
    }

    impl Depot for Counting {
        fn open(&self, lent: &mut LentLists, given: Given) -> u64 {
            let call = given.source.map_or("open", |_| "open_from");
            self.count(call, Second.open(lent, given))
        }

        fn advance(&self, lent: &mut LentLists, commands: &[u8], schedule: &[u8]) -> u64 {
            let answer = self.count("advance", Second.advance(lent, commands, schedule));
            let calls = self.counts.borrow()[&("advance", answer)];
            if self.wrong_after == Some(calls) {
                lent.answers.fill(3);
            }
            answer
        }

        fn dispatch(
            &self,
            lent: &mut LentLists,
            commands: &[u8],
            schedule: &mut [u8],
            count: &mut [u8],
        ) -> u64 {
            let answer = Second.dispatch(lent, commands, schedule, count);
            self.count("dispatch", answer)
        }

        fn steps_needed(&self, lists: Lists, count: &mut [u8]) -> u64 {
            self.count("steps_needed", Second.steps_needed(lists, count))
        }

        fn pending_counts(&self, lists: Lists, counts: &mut [u8]) -> u64 {
            self.count("pending_counts", Second.pending_counts(lists, counts))
        }

        fn worker_status(&self, lists: Lists, status: &mut [u8]) -> u64 {
            self.count("worker_status", Second.worker_status(lists, status))
        }

        fn read_identifier(&self, text: &[u8], key: &mut [u8]) -> u64 {
            Second.read_identifier(text, key)
        }

        fn write_identifier(&self, key: u64, text: &mut [u8]) -> u64 {
            Second.write_identifier(key, text)
        }

        fn rounds_needed(&self, commands: &[u8], rounds: &mut [u8], count: &mut [u8]) -> u64 {
            Second.rounds_needed(commands, rounds, count)
        }

        fn program(&self, input: &[u8]) -> Vec<u8> {
            let output = Second.program(input);
            let text = String::from_utf8_lossy(&output);
            let number = text.strip_prefix("refused ").map_or("0", str::trim_end);
            self.count("program", number.parse().expect("a refusal number"));
            output
        }
    }

    #[test]
    fn every_call_meets_each_of_its_refusals() {
        let depot = Counting::default();
        let dispatches = DISPATCHES + dispatches::MANY..UNTESTED;
        let indexes = (0..limits::COUNT).chain(dispatches);
        for index in indexes.chain(FIXED..FIXED + 4000) {
            play(1, index, &mut Play::new(&depot)).expect("the second program is itself");
        }
        // Random openings seldom meet refusal 14 and those of images.
        let random = &mut Random::new(1);
        let changes = counts::cases(random).into_iter().flat_map(|it| it.1);
        let openings = changes.chain(images::with_commands(random));
        for case in programs::limits(random).into_iter().chain(openings) {
            let played = Play::new(&depot).take_all(case);
            played.expect("the second program is itself");
        }
        assert_eq!(
            depot.met("open"),
            [0, 1, 2, 3, 4, 5, 6, 7, 8, 9, 10, 13, 14]
        );
        assert_eq!(
            depot.met("open_from"),
            [0, 1, 2, 3, 4, 5, 6, 7, 8, 9, 10, 13, 14, 15, 16]
        );
        assert_eq!(depot.met("advance"), [0, 6, 11, 12]);
        assert_eq!(depot.met("dispatch"), [0, 6, 12]);
        assert_eq!(depot.met("steps_needed"), [0, 6, 12]);
        assert_eq!(depot.met("pending_counts"), [0, 6, 12]);
        assert_eq!(depot.met("worker_status"), [0, 6, 12]);
        assert_eq!(
            depot.met("program"),
            [0, 1, 2, 3, 4, 5, 7, 8, 9, 10, 11, 13, 14]
        );
    }

    /// Each answer that there is, sets in each of their words, full chains, and more than half of
    /// the runs to the end.
    #[test]
    fn runs_meet_every_answer_and_large_sets() {
        let mut answers = BTreeMap::<u16, usize>::new();
        let mut words = [0; 3];
        let mut longest = 0;
        let (mut runs, mut finished) = (0, 0);
        for index in (FIXED..FIXED + 2000).filter(|index| (index - FIXED) % ROUND <= 16) {
            let mut playing = Play::new(&Second);
            play(1, index, &mut playing).expect("the second program is itself");
            let run = playing.host().run().expect("the run goes on");
            for answer in &run.answers {
                let kind = if (1..=512).contains(answer) {
                    512
                } else {
                    *answer
                };
                *answers.entry(kind).or_default() += 1;
            }
            for set in run.records.set {
                words = [0, 1, 2].map(|word| words[word] + set[word].count_ones());
            }
            longest = longest.max(run.chain().count());
            runs += 1;
            finished += usize::from(run.is_finished());
        }
        let kinds: Vec<u16> = answers.keys().copied().collect();
        assert_eq!(kinds, [0, 512, 1000, 1002, 1003, 1004], "{answers:?}");
        assert!(answers.values().all(|count| *count > 300), "{answers:?}");
        assert!(words.iter().all(|members| *members > 500), "{words:?}");
        assert!(longest >= 129, "{longest}");
        assert!(2 * finished > runs, "{finished} of {runs}");
    }

    /// A depot that writes wrong answers once is seen, and its steps show it again.
    #[test]
    fn a_wrong_answer_is_seen_and_replayed() {
        let wrong = || Counting {
            wrong_after: Some(3),
            ..Counting::default()
        };
        let depot = wrong();
        let mut playing = Play::new(&depot);
        let index = (FIXED..).find(|index| play(1, *index, &mut playing).is_err());
        assert!(index < Some(FIXED + 30));
        let lines: Vec<String> = playing.steps.iter().map(Step::to_string).collect();
        let steps = lines.iter().map(|line| Step::parse(line).expect("a step"));
        let again = wrong();
        let difference = Play::new(&again).take_all(steps).expect_err("it is wrong");
        assert!(difference.contains("of answers is 771"), "{difference}");
    }
}
