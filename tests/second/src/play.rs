//! Takes each step of a run with the second program and with the code that it judges, and tells
//! the first difference between them, or from what serial runs give, in words. What a dispatch must
//! do is held against it too, in `dispatches`, and what rounds must be, in `rounds`.

pub mod dispatches;
pub mod rounds;

use crate::bytes::{
    CHAIN, COUNT, EXECUTING, FREE, IN_FORCE, KEY, LARGEST, LOADED, LOCKED, NEXT, NUMBER, PARTY,
    PARTY_BYTES, PLACE, ROOM, SETS, SIZE, USED, WORKERS,
};
use crate::command::{self, Kind};
use crate::depot::{Depot, Second};
use crate::host::{GUARD, Host};
use crate::image;
use crate::met::Met;
use crate::refusal::answer_words;
use crate::run::{Party, Run};
use crate::script::{Dispatch, List, Step};
use crate::serial::{self, Entries, written};
use crate::store::Store;

/// What differs, in words.
pub type Difference = String;

/// Two callers, one of each side, that take the same steps.
pub struct Play<'a> {
    second: &'a dyn Depot,
    judged: &'a dyn Depot,
    expected: Host,
    found: Host,
    /// The steps so far.
    pub steps: Vec<Step>,
    /// What they met.
    pub met: Met,
}

impl<'a> Play<'a> {
    pub fn new(judged: &'a dyn Depot) -> Play<'a> {
        Play {
            second: &Second,
            judged,
            expected: Host::default(),
            found: Host::default(),
            steps: Vec::new(),
            met: Met::default(),
        }
    }

    /// A depot on both sides, so that nothing but serial runs can tell what is wrong with it.
    #[cfg(test)]
    pub fn alone(depot: &'a dyn Depot) -> Play<'a> {
        Play {
            second: depot,
            ..Play::new(depot)
        }
    }

    /// The second program's caller.
    pub fn host(&self) -> &Host {
        &self.expected
    }

    /// Takes a step on both sides; the answer, if nothing differs.
    pub fn take(&mut self, step: Step) -> Result<u64, Difference> {
        let expected = self.take_expected(&step);
        let before = matches!(step, Step::Dispatch(_)).then(|| self.found.clone());
        let found = self.found.take(self.judged, &step);
        let different = if expected != found {
            Some(answers_differ(expected, found))
        } else if self.expected.memory() != self.found.memory() {
            Some(self.lists_differ(&step))
        } else {
            match (&step, &before) {
                (Step::Serial, _) => self.serial_differs(),
                (Step::Unbroken(commands), _) => self.unbroken_differs(commands),
                (Step::Dispatch(lent), Some(before)) => self.dispatch_differs(before, *lent, found),
                (Step::StepsNeeded(_), _) if found == 0 => dispatches::needed_differs(&self.found),
                (Step::RoundsNeeded(plan), _) => {
                    rounds::differs(self.judged, &self.found, plan, found)
                }
                _ => None,
            }
        };
        self.steps.push(step);
        match different {
            None => Ok(expected),
            Some(words) => Err(format!("step {}: {words}", self.steps.len())),
        }
    }

    /// Takes a step on the second program's side, and notes what it meets. Only a call on lists as
    /// they stood before it can be noted, and a judgement, which leaves them as they are.
    fn take_expected(&mut self, step: &Step) -> u64 {
        let noted = matches!(
            step,
            Step::Lend(_)
                | Step::Open(_)
                | Step::Advance(_)
                | Step::Dispatch(_)
                | Step::WorkerStatus(_)
        );
        let before = noted.then(|| self.expected.clone());
        let answer = self.expected.take(self.second, step);
        match (step, before) {
            (Step::Dispatch(lent), Some(before)) => {
                let after = &self.expected;
                let dispatches = &mut self.met.dispatches;
                dispatches.note_dispatch(&before, after, *lent, answer);
                if answer == 0 {
                    self.met.untested.note_dispatch(&before, after);
                }
            }
            (_, Some(before)) => self.met.note_step(&before, step, answer),
            (Step::RoundsNeeded(plan), None) => {
                self.met.rounds.note(plan, &self.expected, answer);
            }
            (Step::Serial | Step::StepsNeeded(_), None) => {
                self.met.note_step(&self.expected, step, answer);
            }
            _ => {}
        }
        answer
    }

    /// How the judged side's dispatch differs from what document 02's A.6 asks for, and what it leaves
    /// of a run that dealings reach from what serial runs give.
    fn dispatch_differs(&self, before: &Host, lent: Dispatch, answer: u64) -> Option<Difference> {
        dispatches::differs(before, &self.found, lent, answer).or_else(|| {
            let judged = answer == 0 && before.is_reached();
            judged.then(|| self.serial_differs()).flatten()
        })
    }

    /// Takes all steps up to the first that differs; the last answer, if none does.
    pub fn take_all(&mut self, steps: impl IntoIterator<Item = Step>) -> Result<u64, Difference> {
        let mut steps = steps.into_iter();
        steps.try_fold(0, |_, step| self.take(step))
    }

    fn lists_differ(&self, step: &Step) -> Difference {
        let pairs = self.expected.memory().iter().zip(self.found.memory());
        for (list, (expected, found)) in List::ALL.into_iter().zip(pairs) {
            let printed = matches!(step, Step::Program(_));
            if list == List::Out && expected != found && printed {
                return format!(
                    "the program prints {:?}, the second program {:?}",
                    String::from_utf8_lossy(self.found.list(list)),
                    String::from_utf8_lossy(self.expected.list(list))
                );
            }
            let differing = (0..found.len()).find(|index| found[*index] != expected[*index]);
            if let Some(index) = differing {
                return bytes_differ(list, index, expected, found);
            }
        }
        "the lists differ in length".to_string()
    }

    /// How the judged side's lists differ from what serial runs give, if they do: the answers from
    /// those of the whole list, the table from that of the written commands alone, and the image
    /// from that of the last written checkpoint.
    fn serial_differs(&self) -> Option<Difference> {
        let Some(run) = self.found.run() else {
            return Some("the lists are no run".to_string());
        };
        let (entries, room) = (self.found.entries(), run.settings.room);
        let outcome = serial::run_from(entries.clone(), room.into(), &run.commands);
        let table = serial::table_of(entries, room, &run.commands, written(&run.answers));
        answer_differs(&run, &outcome.answers)
            .or_else(|| table_differs(&run.store, &table))
            .or_else(|| self.image_differs(&run))
    }

    /// How they differ from what serial runs give of a whole list, of which the run has the last
    /// commands. Each answer is that of the same command there; the table is that of the commands
    /// before the run and of those that it has written.
    fn unbroken_differs(&self, commands: &[u8]) -> Option<Difference> {
        let whole = command::read_list(commands).ok();
        let (Some(run), Some(whole)) = (self.found.run(), whole) else {
            return Some("the lists are no run".to_string());
        };
        let before = whole.len().checked_sub(run.commands.len());
        let Some(before) = before.filter(|it| whole[*it..] == run.commands) else {
            return Some("the run has not the last commands of the list".to_string());
        };
        let room = run.settings.room;
        let outcome = serial::run(room.into(), &whole);
        let written = written(&run.answers);
        let chosen = |place: usize| place <= before || written(place - before);
        let table = serial::table_of(&Entries::new(), room, &whole, chosen);
        let answers = &outcome.answers[before..];
        answer_differs(&run, answers).or_else(|| table_differs(&run.store, &table))
    }

    /// How the judged side's image differs from what the commands before the last checkpoint that is
    /// written leave, with its place; from zeros where none is.
    fn image_differs(&self, run: &Run) -> Option<Difference> {
        let written = written(&run.answers);
        let checkpoint =
            |place: &usize| run.commands[place - 1].kind == Kind::Checkpoint && written(*place);
        let place = (1..=run.commands.len()).rfind(checkpoint).unwrap_or(0);
        let entries = self.found.entries();
        let right = serial::image(entries, run.settings.room, &run.commands, place);
        let same = self.found.list(List::Image) == right;
        (!same).then(|| format!("the image is not the serial run's before place {place}"))
    }
}

/// How the answers of a run differ from the right ones, and from 0 before the writing turn.
fn answer_differs(run: &Run, right: &[u16]) -> Option<Difference> {
    let unwritten = unwritten(run);
    let pairs = run.answers.iter().zip(right);
    for (place, (answer, right)) in (1..).zip(pairs) {
        let written = place <= run.loaded && !unwritten.contains(&place);
        if !written && *answer != 0 {
            return Some(format!(
                "answer {place} is {answer} before its writing turn"
            ));
        }
        if written && answer != right {
            return Some(format!(
                "answer {place} is {answer}, of the serial run {right}"
            ));
        }
    }
    None
}

/// The places of the loaded commands whose writing turn is to come: they have records, of which no
/// worker is written or removes them.
fn unwritten(run: &Run) -> Vec<u16> {
    let records = 1..=run.settings.size;
    let writers = run.parties.iter().filter(|party| {
        matches!(
            party,
            Party::Written { .. } | Party::Walking { .. } | Party::Clearing { .. }
        )
    });
    let written: Vec<u8> = writers.filter_map(|party| party.own()).collect();
    let open = records.filter(|record| !written.contains(record));
    open.map(|record| run.records.place[usize::from(record)])
        .collect()
}

/// How a table differs from that of the written commands alone.
fn table_differs(table: &Store, right: &Store) -> Option<Difference> {
    let alone = "of the written commands alone";
    if table.used != right.used {
        let (used, right) = (table.used, right.used);
        return Some(format!("the table uses {used} places, {alone} {right}"));
    }
    let entry = |store: &Store, index: usize| (store.keys[index], store.chutes[index]);
    let mut places = 0..right.keys.len();
    let index = places.find(|index| entry(table, *index) != entry(right, *index))?;
    let place = index + 1;
    let [found, right] = [table, right].map(|store| {
        let (key, chute) = entry(store, index);
        format!("key {key} with chute {chute}")
    });
    Some(format!(
        "entry {place} of the table is {found}, {alone} {right}"
    ))
}

fn answers_differ(expected: u64, found: u64) -> Difference {
    format!(
        "{}; by the second program {}",
        answer_words(found),
        answer_words(expected)
    )
}

/// How the memory of a list differs, first at an index.
fn bytes_differ(list: List, index: usize, expected: &[u8], found: &[u8]) -> Difference {
    let name = list.name();
    let end = expected.len() - GUARD.len();
    let (what, from, width) = match index.checked_sub(GUARD.len()) {
        None => (format!("byte {index} of the guard before {name}"), index, 1),
        Some(_) if index >= end => {
            let beyond = index - end;
            (format!("byte {beyond} of the guard after {name}"), index, 1)
        }
        Some(offset) => {
            let width = entry_width(list);
            let what = match list {
                List::State => format!("state byte {offset} ({})", field(offset)),
                List::Image => format!(
                    "byte {} of record {} of the image",
                    offset % image::RECORD,
                    offset / image::RECORD
                ),
                _ => format!("entry {} of {name}", offset / width + 1),
            };
            (what, index - offset % width, width)
        }
    };
    let number = |bytes: &[u8]| {
        let bytes = &bytes[from..from + width];
        bytes
            .iter()
            .fold(0, |number, byte| number * 256 + u64::from(*byte))
    };
    let (expected, found) = (number(expected), number(found));
    format!("{what} is {found}, of the second program {expected}")
}

/// Bytes of an entry.
fn entry_width(list: List) -> usize {
    match list {
        List::Keys => KEY,
        List::Chutes | List::Answers | List::Rounds => NUMBER,
        List::State | List::Image | List::Commands | List::Source => 1,
        List::Schedule | List::Planned | List::Out => 1,
    }
}

/// Which field a byte of the state belongs to.
fn field(offset: usize) -> String {
    match offset {
        CHAIN => "chain".to_string(),
        SIZE => "graph size".to_string(),
        WORKERS => "workers".to_string(),
        LARGEST => "largest worker count".to_string(),
        ROOM..COUNT => "room".to_string(),
        COUNT..LOADED => "command count".to_string(),
        LOADED..USED => "commands loaded".to_string(),
        USED..FREE => "store places used".to_string(),
        FREE => "first unused record".to_string(),
        IN_FORCE => "worker count in force".to_string(),
        NEXT..PLACE => format!("next of record {}", offset - NEXT),
        PLACE..EXECUTING => format!("place of record {}", (offset - PLACE) / 2),
        EXECUTING..LOCKED => format!("state of record {}", offset - EXECUTING),
        LOCKED..SETS => format!("lock of record {}", offset - LOCKED),
        SETS..PARTY => format!("set of record {}", (offset - SETS) / 24),
        _ => format!("party {}", (offset - PARTY) / PARTY_BYTES),
    }
}

#[cfg(test)]
mod tests {
    use super::*;
    use crate::bytes::{Lists, STATE};
    use crate::calls::{Given, LentLists};
    use crate::command::LENGTH;
    use crate::script::{Open, Plan};
    use crate::text::input::{EXAMPLE, HEADER};

    /// The second program with some bits of its answers turned round.
    struct Turned(u64);

    impl Depot for Turned {
        fn open(&self, lent: &mut LentLists, given: Given) -> u64 {
            Second.open(lent, given) ^ self.0
        }

        fn advance(&self, lent: &mut LentLists, commands: &[u8], schedule: &[u8]) -> u64 {
            Second.advance(lent, commands, schedule) ^ self.0
        }

        fn dispatch(
            &self,
            lent: &mut LentLists,
            commands: &[u8],
            schedule: &mut [u8],
            count: &mut [u8],
        ) -> u64 {
            Second.dispatch(lent, commands, schedule, count) ^ self.0
        }

        fn steps_needed(&self, lists: Lists, count: &mut [u8]) -> u64 {
            Second.steps_needed(lists, count) ^ self.0
        }

        fn pending_counts(&self, lists: Lists, counts: &mut [u8]) -> u64 {
            Second.pending_counts(lists, counts) ^ self.0
        }

        fn worker_status(&self, lists: Lists, status: &mut [u8]) -> u64 {
            Second.worker_status(lists, status) ^ self.0
        }

        fn read_identifier(&self, text: &[u8], key: &mut [u8]) -> u64 {
            Second.read_identifier(text, key) ^ self.0
        }

        fn write_identifier(&self, key: u64, text: &mut [u8]) -> u64 {
            Second.write_identifier(key, text) ^ self.0
        }

        fn rounds_needed(&self, commands: &[u8], rounds: &mut [u8], count: &mut [u8]) -> u64 {
            Second.rounds_needed(commands, rounds, count) ^ self.0
        }

        fn program(&self, input: &[u8]) -> Vec<u8> {
            Second.program(input)
        }
    }

    /// Each call once; the lists are no run, so that most are refused.
    fn calls() -> [Step; 10] {
        let open = |source: Option<Vec<u8>>| {
            Step::Open(Open {
                settings: [1; 3],
                commands: vec![],
                source,
            })
        };
        [
            open(None),
            Step::Advance(vec![]),
            Step::Dispatch(Dispatch {
                length: 0,
                seed: 0,
                count: 8,
            }),
            Step::StepsNeeded(8),
            Step::PendingCounts(150),
            Step::WorkerStatus(128),
            Step::ReadIdentifier(b"AAx00000000AA".to_vec(), 8),
            Step::WriteIdentifier(0, 13),
            open(Some(vec![0; 32])),
            Step::RoundsNeeded(Plan {
                commands: vec![],
                length: 1,
                seed: 0,
                count: 8,
            }),
        ]
    }

    /// No bit of an answer is left out.
    #[test]
    fn every_bit_of_an_answer_is_compared() {
        for call in calls() {
            for bit in 0..64 {
                let turned = Turned(1 << bit);
                assert!(Play::new(&turned).take(call.clone()).is_err(), "{call}");
            }
            assert!(Play::new(&Turned(0)).take(call).is_ok());
        }
    }

    #[test]
    fn another_character_is_told() {
        let words = Play::new(&Turned(1 << 32)).take(calls()[6].clone());
        let expected = "step 1: refused 13, character 2; \
                        by the second program refused 13, character 3";
        assert_eq!(words, Err(expected.to_string()));
    }

    /// The last commands of document 01's example, opened from an image or an empty store, with the
    /// first so many of its turns.
    fn example(count: usize, source: Option<Vec<u8>>, turns: usize) -> Play<'static> {
        let (commands, schedule) = EXAMPLE[HEADER..].split_at(2 * LENGTH);
        let mut play = Play::new(&Second);
        let steps = [
            Step::Lend([
                STATE,
                4 * KEY,
                4 * NUMBER,
                count * NUMBER,
                5 * image::RECORD,
            ]),
            Step::Open(Open {
                settings: [2, 1, 4],
                commands: commands[(2 - count) * LENGTH..].to_vec(),
                source,
            }),
            Step::Advance(schedule[..turns].to_vec()),
        ];
        assert_eq!(play.take_all(steps), Ok(0));
        play
    }

    /// What a judgement tells behind a change of one byte on both sides, and nothing before it.
    fn told(mut play: Play, judgement: Step, list: List, offset: usize, bits: u8) -> Difference {
        assert_eq!(play.take(judgement.clone()), Ok(0));
        let change = Step::Change { list, offset, bits };
        assert_eq!(play.take(change), Ok(0));
        play.take(judgement).expect_err("it is told")
    }

    /// Document 02, A.10, at the moment of document 01's case (l), whose insert alone is written:
    /// an entry, how many there are, and a place past them.
    #[test]
    fn a_wrong_table_is_told_in_the_middle_of_a_run() {
        let told = |list, offset| told(example(2, None, 9), Step::Serial, list, offset, 1);
        assert_eq!(
            told(List::Chutes, 1),
            "step 6: entry 1 of the table is key 0 with chute 6, \
             of the written commands alone key 0 with chute 7"
        );
        assert_eq!(
            told(List::State, USED + 1),
            "step 6: the table uses 0 places, of the written commands alone 1"
        );
        assert_eq!(
            told(List::Keys, 2 * KEY - 1),
            "step 6: entry 2 of the table is key 1 with chute 0, \
             of the written commands alone key 0 with chute 0"
        );
    }

    /// The same before the insert's writing turn and, with the answers as they should be, at the
    /// end.
    #[test]
    fn a_wrong_table_is_told_at_every_turn() {
        for turns in 0..=19 {
            let words = told(example(2, None, turns), Step::Serial, List::Chutes, 7, 1);
            assert!(words.contains("entry 4 of the table"), "{words}");
        }
    }

    /// A run with the read alone, from an image with the insert's entry, against the whole list.
    #[test]
    fn a_wrong_table_behind_a_swap_is_told() {
        let mut source = image::zeros(4);
        source[1] = 1;
        source[image::RECORD + image::CHUTE + 1] = 7;
        let whole = EXAMPLE[HEADER..][..2 * LENGTH].to_vec();
        for turns in [0, 2, 19] {
            let play = || example(1, Some(source.clone()), turns);
            for judgement in [Step::Serial, Step::Unbroken(whole.clone())] {
                let words = told(play(), judgement, List::Chutes, 1, 1);
                assert!(words.contains("is key 0 with chute 6, of"), "{words}");
            }
        }
    }

    /// Demand 3: "Each answer is 0 before its command's writing turn, and from that turn on the one
    /// that running the whole list of commands one after another gives." The read of the example is
    /// written at turn 16, and removed at the last; then a worker may search.
    #[test]
    fn an_answer_before_or_behind_its_writing_turn_is_told() {
        for turns in 0..=20 {
            let mut play = example(2, None, turns.min(19));
            assert_eq!(play.take(Step::Advance(vec![1; turns / 20])), Ok(0));
            let words = told(play, Step::Serial, List::Answers, 3, 7);
            let right = match turns {
                ..16 => "step 7: answer 2 is 7 before its writing turn",
                _ => "step 7: answer 2 is 0, of the serial run 7",
            };
            assert_eq!(words, right, "{turns}");
        }
    }
}
