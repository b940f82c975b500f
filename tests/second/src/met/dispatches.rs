//! How often the compared inputs meet what document 02's A.6 brings: dispatches from every sort of
//! moment, with lists of every length and refused for each reason; and how near the turns that one
//! used came to the bound.

use crate::bytes::{CHAIN, LOCK_COUPLED, SIZE, STATE};
use crate::calls::TURN_COUNT;
use crate::command::Kind;
use crate::dispatch::turns_needed;
use crate::host::Host;
use crate::play::dispatches::number;
use crate::run::{Party, Run};
use crate::script::{Dispatch, List};

named! {
    /// A dispatch, or a question for its bound.
    Sort:
    Opening "dispatches from the opening",
    Middle "dispatches from the middle",
    End "dispatches at the end",
    Loading "dispatches with the loader in the chain",
    Searching "dispatches with a searching worker",
    SearchingAbove "dispatches with one above the count in force",
    Holding "dispatches with a holding worker",
    LookedUp "dispatches with a looked-up worker",
    Written "dispatches with a written worker",
    Walking "dispatches with a walking worker",
    Clearing "dispatches with a clearing worker",
    SeveralStates "dispatches with workers in four states or more",
    FullChain "dispatches with no record free",
    FromEntries "dispatches of runs opened from entries",
    Changes "dispatches that write a worker change",
    Checkpoints "dispatches that write a checkpoint",
    Most "dispatches of 4096 commands",
    Largest "dispatches of the largest settings",
    Exact "dispatches with a list of the bound",
    Longer "dispatches with a longer list",
    Unreached "dispatches of changed runs",
    UpToTheBound "dispatches of changed runs that the bound ends",
    HandedLength "dispatches refused 6 for a list handed back",
    CountLength "dispatches refused 6 for the number's list",
    OneShort "dispatches refused 6 for a list one short of the bound",
    Short "dispatches refused 6 for a shorter list",
    Empty "dispatches refused 6 for an empty list",
    LengthFirst "dispatches refused 6 with a run of no chain",
    OutOfRange "dispatches refused 12",
    OutOfRangeEmpty "dispatches refused 12 with an empty list",
    Needed "bounds told",
    NeededLength "bounds refused 6",
    NeededOutOfRange "bounds refused 12",
}

/// Counts of all that is named above, and the largest ratio.
#[derive(Clone, Debug, PartialEq, Eq)]
pub struct Dispatches {
    counts: [u64; Sort::ALL.len()],
    nearest: Option<Nearest>,
}

/// A dispatch of a run that dealings reach, and how many turns it used.
#[derive(Clone, Debug, PartialEq, Eq)]
struct Nearest {
    used: u64,
    bound: u64,
    /// Of which run.
    words: String,
}

impl Nearest {
    fn ratio(&self) -> f64 {
        self.used as f64 / self.bound as f64
    }
}

impl Default for Dispatches {
    fn default() -> Dispatches {
        Dispatches {
            counts: [0; Sort::ALL.len()],
            nearest: None,
        }
    }
}

impl Dispatches {
    /// All met so often, for tests.
    #[cfg(test)]
    pub fn met(times: u64) -> Dispatches {
        Dispatches {
            counts: [times; Sort::ALL.len()],
            nearest: None,
        }
    }

    pub fn add(&mut self, other: &Dispatches) {
        let counts = self.counts.iter_mut().zip(other.counts);
        counts.for_each(|(count, more)| *count += more);
        self.meet(other.nearest.clone());
    }

    /// A line for each, with how often it was met.
    pub fn lines(&self) -> impl Iterator<Item = String> {
        let counts = Sort::ALL.iter().zip(self.counts);
        counts.map(|(met, count)| format!("{}: {count}", met.name()))
    }

    /// The largest ratio of turns used to the bound, and where it was met.
    pub fn nearest(&self) -> String {
        let told = self.nearest.as_ref().map_or("none".to_string(), |it| {
            let Nearest { used, bound, words } = it;
            format!("{:.4}, {used} of {bound}, {words}", it.ratio())
        });
        format!("largest ratio of turns used to the bound: {told}")
    }

    pub fn lacks_any(&self) -> bool {
        self.counts.contains(&0)
    }

    pub fn count(&self, met: Sort) -> u64 {
        self.counts[met as usize]
    }

    fn note(&mut self, met: Sort, holds: bool) {
        self.counts[met as usize] += u64::from(holds);
    }

    /// Keeps the one of the larger ratio, the first of equal ones.
    fn meet(&mut self, other: Option<Nearest>) {
        let ratio = |it: &Option<Nearest>| it.as_ref().map_or(-1.0, Nearest::ratio);
        if ratio(&other) > ratio(&self.nearest) {
            self.nearest = other;
        }
    }

    /// Notes a question for the bound with its answer.
    pub fn note_needed(&mut self, answer: u64) {
        self.note(Sort::Needed, answer == 0);
        self.note(Sort::NeededLength, answer == 6);
        self.note(Sort::NeededOutOfRange, answer == 12);
    }

    /// Notes a dispatch with its answer, by the lists before and after it.
    pub fn note_dispatch(&mut self, before: &Host, after: &Host, lent: Dispatch, answer: u64) {
        let run = before.run();
        match (answer, run) {
            (0, Some(run)) => self.note_accepted(before, after, lent, &run),
            (12, _) => {
                self.note(Sort::OutOfRange, true);
                self.note(Sort::OutOfRangeEmpty, lent.length == 0);
            }
            (_, run) => self.note_length(before, lent, run),
        }
    }

    /// Notes a dispatch that is refused 6, by the list that is at fault.
    fn note_length(&mut self, before: &Host, lent: Dispatch, run: Option<Run>) {
        let state = before.list(List::State);
        let no_chain = state.len() == STATE && state[CHAIN] != LOCK_COUPLED;
        self.note(Sort::LengthFirst, no_chain);
        if lent.count != TURN_COUNT {
            return self.note(Sort::CountLength, true);
        }
        let room = run.as_ref().map(|run| usize::from(run.settings.room));
        let image = before.list(List::Image).len();
        match run.filter(|_| room.is_some_and(|room| 16 * (room + 1) == image)) {
            None => self.note(Sort::HandedLength, true),
            Some(run) => {
                let one_short = lent.length as u64 + 1 == turns_needed(&run);
                self.note(Sort::OneShort, one_short);
                self.note(Sort::Empty, lent.length == 0);
                self.note(Sort::Short, !one_short && lent.length > 0);
            }
        }
    }

    fn note_accepted(&mut self, before: &Host, after: &Host, lent: Dispatch, run: &Run) {
        let bound = turns_needed(run);
        let used = number(after.list(List::Out)).unwrap_or(0);
        self.note(Sort::Exact, lent.length as u64 == bound);
        self.note(Sort::Longer, lent.length as u64 > bound);
        if !before.is_reached() {
            self.note(Sort::Unreached, true);
            return self.note(Sort::UpToTheBound, used == bound);
        }
        let begun = run.loaded > 0 || run.parties.iter().any(|party| *party != Party::Idle);
        let from = match (begun, run.is_finished()) {
            (_, true) => Sort::End,
            (false, _) => Sort::Opening,
            (true, _) => Sort::Middle,
        };
        self.note(from, true);
        self.note(Sort::FromEntries, !before.entries().is_empty());
        self.note(Sort::FullChain, run.records.free == 0);
        let size = before.list(List::State)[SIZE];
        self.note(Sort::Most, run.commands.len() == 4096);
        let settings = (size, run.largest, run.settings.room);
        self.note(Sort::Largest, settings == (150, 64, 4096));
        self.note_parties(run);
        self.note_written(run, after);
        self.meet(Some(Nearest {
            used,
            bound,
            words: format!(
                "{}, graph size {size}, largest worker count {}, {} commands",
                from.name().trim_start_matches("dispatches "),
                run.largest,
                run.commands.len()
            ),
        }));
    }

    /// Notes in which states the parties are.
    fn note_parties(&mut self, run: &Run) {
        let workers = &run.parties[1..=usize::from(run.largest)];
        let any = |so: fn(&Party) -> bool| workers.iter().any(so);
        let states = [
            (
                Sort::Searching,
                any(|it| matches!(it, Party::Searching { .. })),
            ),
            (Sort::Holding, any(|it| matches!(it, Party::Holding { .. }))),
            (
                Sort::LookedUp,
                any(|it| matches!(it, Party::LookedUp { .. })),
            ),
            (Sort::Written, any(|it| matches!(it, Party::Written { .. }))),
            (Sort::Walking, any(|it| matches!(it, Party::Walking { .. }))),
            (
                Sort::Clearing,
                any(|it| matches!(it, Party::Clearing { .. })),
            ),
        ];
        states
            .iter()
            .for_each(|(met, holds)| self.note(*met, *holds));
        let several = states.iter().filter(|(_, holds)| *holds).count() >= 4;
        self.note(Sort::SeveralStates, several);
        self.note(Sort::Loading, run.parties[0] != Party::Idle);
        let above = workers.iter().skip(run.in_force.into());
        let mut above = above.filter(|it| matches!(it, Party::Searching { .. }));
        self.note(Sort::SearchingAbove, above.next().is_some());
    }

    /// Notes which kinds it writes.
    fn note_written(&mut self, run: &Run, after: &Host) {
        let Some(later) = after.run() else { return };
        let answers = run.answers.iter().zip(&later.answers).zip(&run.commands);
        let written: Vec<Kind> = answers
            .filter(|((before, after), _)| before != after)
            .map(|(_, command)| command.kind)
            .collect();
        self.note(Sort::Changes, written.contains(&Kind::Workers));
        self.note(Sort::Checkpoints, written.contains(&Kind::Checkpoint));
    }
}

#[cfg(test)]
mod tests {
    use super::*;

    /// Nothing is met at first; one missing count of many is seen; of two ratios the larger is told.
    #[test]
    fn what_is_never_met_is_told() {
        assert!(Dispatches::default().lacks_any());
        let dispatches = Dispatches::met(2);
        assert!(!dispatches.lacks_any());
        for index in 0..Sort::ALL.len() {
            assert_eq!(Sort::ALL[index] as usize, index);
            let mut other = dispatches.clone();
            other.counts[index] = 0;
            assert!(other.lacks_any());
        }
        let words = "largest ratio of turns used to the bound";
        assert_eq!(dispatches.nearest(), format!("{words}: none"));
        let of = |used, bound| Dispatches {
            nearest: Some(Nearest {
                used,
                bound,
                words: "somewhere".to_string(),
            }),
            ..Dispatches::met(1)
        };
        let mut sum = dispatches.clone();
        for (used, bound) in [(9, 18), (8, 9), (17, 36)] {
            sum.add(&of(used, bound));
        }
        assert_eq!(sum.nearest(), format!("{words}: 0.8889, 8 of 9, somewhere"));
        assert_eq!(sum.count(Sort::Empty), 5);
        let lines: Vec<String> = sum.lines().collect();
        assert_eq!(lines.len(), Sort::ALL.len());
        assert_eq!(lines[2], "dispatches at the end: 5");
    }
}
