//! Dispatchers with one flaw each in what document 02's A.6 asks for. They are played on both sides,
//! so that nothing but the judgements of A.6 itself can tell, and against the second program, which
//! alone tells those that test in another order.

use super::{DISPATCHES, FIXED, dispatches, play};
use crate::bytes::{self, Lists};
use crate::calls::{LentLists, TURN_COUNT};
use crate::depot::altered::Altered;
use crate::depot::{Depot, Second};
use crate::dispatch::turns_needed;
use crate::play::{Difference, Play, dispatches::number};
use crate::run::{Party, Run};

#[derive(Clone, Copy, Debug, PartialEq, Eq)]
enum Flaw {
    /// One turn more is reported than is written.
    OneMore,
    /// One turn fewer is reported.
    OneFewer,
    /// The low byte of the number stands first.
    LowFirst,
    /// The last turn, in which a worker ends its clearing, is left out.
    StillClearing,
    /// The loader gets no turn once it is idle.
    NeverLoads,
    /// Nobody but the loader and worker 1 gets turns.
    OnlyTwo,
    /// The byte behind the turns is written.
    BytePast,
    /// The last byte of the list is written.
    LastByte,
    /// The first turn is written as another party's.
    OtherTurn,
    /// The last checkpoint of the dispatch does not write the image.
    NoImage,
    /// It goes on with waits past the bound.
    PastTheBound,
    /// It goes on, and a run at its end ends with a worker that searches.
    Searches,
    /// A refused call writes 0 turns.
    RefusedCounts,
    /// The bound is told, and tested, without the workers.
    WithoutWorkers,
    /// The bound is told without the records that are not returned.
    WithoutRecords,
    /// A short list is refused before a run that is out of range.
    ShortFirst,
    /// A list of the bound is refused.
    ExactRefused,
    /// A longer list is refused.
    LongerRefused,
    /// A list for the number that is longer is accepted.
    LongCount,
    /// A run that is out of range is refused before the length of the number's list.
    RunFirst,
    /// None: at its end the loader waits for a turn, if the list has a byte for it.
    OneWait,
}

/// The second program with a flaw.
struct Flawed(Flaw);

/// The lists of a run, to be put back.
struct Kept([Vec<u8>; 5]);

impl Kept {
    fn of(lent: &LentLists) -> Kept {
        let lists = [
            &lent.state,
            &lent.keys,
            &lent.chutes,
            &lent.answers,
            &lent.image,
        ];
        Kept(lists.map(|list| list.to_vec()))
    }

    fn put(&self, lent: &mut LentLists) {
        lent.state.copy_from_slice(&self.0[0]);
        lent.keys.copy_from_slice(&self.0[1]);
        lent.chutes.copy_from_slice(&self.0[2]);
        lent.answers.copy_from_slice(&self.0[3]);
        lent.image.copy_from_slice(&self.0[4]);
    }
}

/// The bound without some part.
fn less(run: &Run, parts: u64) -> u64 {
    turns_needed(run) - parts * (3 * u64::from(run.settings.size) + 6)
}

impl Flawed {
    /// Which turns it gives, where the second program gives these.
    fn turns(&self, mut run: Run, turns: &[u8], length: usize) -> Vec<u8> {
        let bound = turns_needed(&run) as usize;
        match self.0 {
            Flaw::StillClearing => turns[..turns.len().saturating_sub(1)].to_vec(),
            Flaw::NeverLoads => {
                let loads = |party: &u8| {
                    let idle = *party == 0 && run.parties[0] == Party::Idle;
                    run.turn(*party);
                    idle
                };
                let cut = turns.iter().position(loads).unwrap_or(turns.len());
                turns[..cut].to_vec()
            }
            Flaw::OnlyTwo => turns.iter().copied().filter(|it| *it < 2).collect(),
            Flaw::PastTheBound if length > bound => {
                let mut longer = turns.to_vec();
                longer.resize(bound + 1, 0);
                longer
            }
            Flaw::OneWait if turns.len() < bound => [turns, &[0]].concat(),
            Flaw::Searches if turns.len() < length => [turns, &[1]].concat(),
            _ => turns.to_vec(),
        }
    }

    /// Spoils what an accepted dispatch, which is done, has written.
    fn spoil(&self, before: &Kept, lent: &mut LentLists, schedule: &mut [u8], count: &mut [u8]) {
        let used = number(count).unwrap_or(0);
        let behind = used as usize;
        match self.0 {
            Flaw::OneMore => count.copy_from_slice(&(used + 1).to_be_bytes()),
            Flaw::OneFewer if used > 0 => count.copy_from_slice(&(used - 1).to_be_bytes()),
            Flaw::LowFirst => count.reverse(),
            Flaw::BytePast if behind < schedule.len() => schedule[behind] ^= 1,
            Flaw::LastByte if behind < schedule.len() => schedule[schedule.len() - 1] ^= 1,
            Flaw::OtherTurn if used > 0 => schedule[0] ^= 1,
            Flaw::NoImage => lent.image.copy_from_slice(&before.0[4]),
            _ => {}
        }
    }

    /// An answer of the second program as the flaw has it, for lists of these lengths.
    fn answer(&self, run: &Result<Run, u64>, answer: u64, length: usize, count: usize) -> u64 {
        let bound = run.as_ref().map_or(0, turns_needed) as usize;
        match self.0 {
            Flaw::ShortFirst if answer == 12 && length < 9 => 6,
            Flaw::ExactRefused if answer == 0 && length == bound => 6,
            Flaw::LongerRefused if answer == 0 && length > bound => 6,
            Flaw::RunFirst if answer == 6 && count != TURN_COUNT => {
                run.as_ref().err().copied().unwrap_or(6)
            }
            _ => answer,
        }
    }

    /// Dispatches as the second program, also with lists that it refuses and the flaw does not.
    fn dispatch_all(
        &self,
        run: &Result<Run, u64>,
        lent: &mut LentLists,
        commands: &[u8],
        schedule: &mut [u8],
        count: &mut [u8],
    ) -> u64 {
        let length = schedule.len();
        match (self.0, run) {
            (Flaw::WithoutWorkers, Ok(run)) if less(run, run.largest.into()) <= length as u64 => {
                let mut longer = schedule.to_vec();
                longer.resize(length + turns_needed(run) as usize, 0);
                let answer = Second.dispatch(lent, commands, &mut longer, count);
                schedule.copy_from_slice(&longer[..length]);
                answer
            }
            (Flaw::LongCount, _) if count.len() > TURN_COUNT => {
                Second.dispatch(lent, commands, schedule, &mut count[..TURN_COUNT])
            }
            _ => Second.dispatch(lent, commands, schedule, count),
        }
    }
}

impl Altered for Flawed {
    fn dispatch(
        &self,
        lent: &mut LentLists,
        commands: &[u8],
        schedule: &mut [u8],
        count: &mut [u8],
    ) -> u64 {
        let before = Kept::of(lent);
        let run = bytes::read_with_image(lent.handed(commands), lent.image);
        let run = run.map_err(|refusal| refusal.number());
        let contents = schedule.to_vec();
        let answer = self.dispatch_all(&run, lent, commands, schedule, count);
        let flawed = self.answer(&run, answer, contents.len(), count.len());
        let (0, Ok(run), Some(used)) = (flawed, run, number(&count[..TURN_COUNT.min(count.len())]))
        else {
            before.put(lent);
            schedule.copy_from_slice(&contents);
            if self.0 == Flaw::RefusedCounts {
                count.fill(0);
            }
            return flawed;
        };
        let right = schedule[..used as usize].to_vec();
        let turns = self.turns(run, &right, contents.len());
        if turns != right {
            before.put(lent);
            Second.advance(lent, commands, &turns);
            schedule.copy_from_slice(&contents);
            schedule[..turns.len()].copy_from_slice(&turns);
            count.copy_from_slice(&(turns.len() as u64).to_be_bytes());
        }
        self.spoil(&before, lent, schedule, count);
        0
    }

    fn steps_needed(&self, lists: Lists, count: &mut [u8]) -> u64 {
        let answer = Second.steps_needed(lists, count);
        if let (0, Ok(run)) = (answer, bytes::read(lists)) {
            let records = run.records.place.iter().filter(|place| **place != 0);
            let parts = match self.0 {
                Flaw::WithoutWorkers => run.largest.into(),
                Flaw::WithoutRecords => records.count() as u64,
                _ => 0,
            };
            count.copy_from_slice(&less(&run, parts).to_be_bytes());
        }
        answer
    }
}

/// What is told of a depot in the runs that are dispatched, first.
fn told<'a>(play_of: impl Fn() -> Play<'a>) -> Option<Difference> {
    let mut indexes = DISPATCHES + dispatches::MANY..FIXED;
    indexes.find_map(|index| play(1, index, &mut play_of()).err())
}

/// Each flaw, and words of what tells it without the second program.
const ALONE: [(Flaw, &[&str]); 18] = [
    (Flaw::OneMore, &["the written turns"]),
    (Flaw::OneFewer, &["behind the", "is written"]),
    (Flaw::LowFirst, &["turns in a list of"]),
    (Flaw::StillClearing, &["behind the dispatch", "is not"]),
    (
        Flaw::NeverLoads,
        &["behind the dispatch command", "is not removed"],
    ),
    (Flaw::OnlyTwo, &["behind the dispatch", "is not"]),
    (Flaw::BytePast, &["byte 0 behind the", "is written"]),
    (Flaw::LastByte, &["behind the", "is written"]),
    (Flaw::OtherTurn, &["the written turns"]),
    (Flaw::NoImage, &["by hand, leave another image"]),
    (Flaw::PastTheBound, &["the dispatch uses", "turns of"]),
    (Flaw::Searches, &["behind the dispatch party 1 is not idle"]),
    (
        Flaw::RefusedCounts,
        &["the refused dispatch writes into out"],
    ),
    (Flaw::WithoutWorkers, &["turns are said to be enough"]),
    (Flaw::WithoutRecords, &["turns are said to be enough"]),
    (Flaw::ExactRefused, &["refused 6 with", "8 for the number"]),
    (Flaw::LongerRefused, &["refused 6 with", "8 for the number"]),
    (Flaw::LongCount, &["accepted with", "9 for the number"]),
];

#[test]
fn a_wrong_dispatch_is_told_by_document_02_alone() {
    for (flaw, words) in ALONE {
        let depot = Flawed(flaw);
        let told = told(|| Play::alone(&depot));
        let told = told.unwrap_or_else(|| panic!("{flaw:?}"));
        println!("{flaw:?}: {told}");
        assert!(words.iter().all(|it| told.contains(it)), "{flaw:?}: {told}");
    }
}

/// Refusals are told by the second program, and so is every other flaw.
#[test]
fn every_flaw_of_a_dispatch_is_told_by_the_second_program() {
    let refusals = [
        (
            Flaw::ShortFirst,
            "refused 6; by the second program refused 12",
        ),
        (
            Flaw::ExactRefused,
            "refused 6; by the second program accepted",
        ),
        (
            Flaw::LongerRefused,
            "refused 6; by the second program accepted",
        ),
        (Flaw::LongCount, "accepted; by the second program refused 6"),
        (
            Flaw::RunFirst,
            "refused 12; by the second program refused 6",
        ),
        (Flaw::WithoutWorkers, "of out is"),
        (Flaw::WithoutRecords, "of out is"),
    ];
    let others = ALONE.map(|(flaw, _)| (flaw, ""));
    for (flaw, words) in refusals.into_iter().chain(others) {
        let depot = Flawed(flaw);
        let told = told(|| Play::new(&depot));
        let told = told.unwrap_or_else(|| panic!("{flaw:?}"));
        println!("{flaw:?}: {told}");
        assert!(told.contains(words), "{flaw:?}: {told}");
    }
}

/// Other turns than the second program's that do all that A.6 asks for are told by it alone.
#[test]
fn another_right_choice_of_turns_is_no_wrong_dispatch() {
    let depot = Flawed(Flaw::OneWait);
    assert_eq!(told(|| Play::alone(&depot)), None);
    let told = told(|| Play::new(&depot)).expect("the bytes differ");
    assert!(told.contains("of schedule is 0"), "{told}");
}
