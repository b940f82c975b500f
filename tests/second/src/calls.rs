//! The public calls on numbers and byte lists, as C makes them: the answer is the refusal number,
//! 256 times the place of the refused command and 2^32 times the first faulty character of its
//! identifier, added up; 0 where the call is accepted. A refused call writes nothing.

use crate::bytes::{self, Lists, MOST_COMMANDS};
use crate::command;
use crate::dispatch;
use crate::identifier;
use crate::image;
use crate::refusal::{Fault, Refusal};
use crate::rounds;
use crate::run::{Run, Settings};
use crate::store::Store;

/// Entries of the pending counts, a byte each.
pub const COUNTS: usize = 150;
/// Entries of the worker status, two bytes each.
pub const STATUSES: usize = 64;
const STATUS_BYTES: usize = 2;
/// Bytes of a number of turns.
pub const TURN_COUNT: usize = 8;
/// Bytes of a number of rounds.
pub const ROUND_COUNT: usize = 8;

/// Settings as they are asked for, right or not: graph size, workers and room.
pub type Asked = [u64; 3];

/// What an opening is given. The source is an image, whose store it begins with.
#[derive(Clone, Copy)]
pub struct Given<'a> {
    pub commands: &'a [u8],
    pub source: Option<&'a [u8]>,
    pub settings: Asked,
}

/// What a call writes of a run.
pub struct LentLists<'a> {
    pub state: &'a mut [u8],
    pub keys: &'a mut [u8],
    pub chutes: &'a mut [u8],
    pub answers: &'a mut [u8],
    pub image: &'a mut [u8],
}

impl LentLists<'_> {
    /// The lists as they were handed over, with the commands.
    pub fn handed<'a>(&'a self, commands: &'a [u8]) -> Lists<'a> {
        Lists {
            state: self.state,
            keys: self.keys,
            chutes: self.chutes,
            answers: self.answers,
            commands,
        }
    }

    fn write(&mut self, run: &Run) {
        bytes::write_state(run, self.state);
        bytes::write_words(&run.store.keys, self.keys);
        bytes::write_numbers(&run.store.chutes, self.chutes);
        bytes::write_numbers(&run.answers, self.answers);
        if let Some(image) = &run.image {
            self.image.copy_from_slice(image);
        }
    }
}

pub fn open(lent: &mut LentLists, given: Given) -> u64 {
    answer(opened(lent, given).map(|run| lent.write(&run)))
}

pub fn advance(lent: &mut LentLists, commands: &[u8], schedule: &[u8]) -> u64 {
    let handed = bytes::read_with_image(lent.handed(commands), lent.image);
    answer(handed.and_then(|mut run| {
        check_schedule(schedule, run.largest)?;
        run.advance(schedule);
        lent.write(&run);
        Ok(())
    }))
}

/// How long the list must be that a dispatch is lent to write its turns into.
pub fn steps_needed(lists: Lists, count: &mut [u8]) -> u64 {
    answer(report(lists, count.len() == TURN_COUNT).map(|run| {
        count.copy_from_slice(&dispatch::turns_needed(&run).to_be_bytes());
    }))
}

/// Makes turns of the dispatcher's choice to the end of the run, writes them into the schedule, and
/// how many they are into the count. Document 02, A.6: "A lent list shorter than the bound is
/// refused 6, here tested after 12; bytes past the dealing stay untouched."
pub fn dispatch(
    lent: &mut LentLists,
    commands: &[u8],
    schedule: &mut [u8],
    count: &mut [u8],
) -> u64 {
    answer(
        dispatched(lent, commands, schedule, count.len()).map(|(run, turns)| {
            lent.write(&run);
            schedule[..turns.len()].copy_from_slice(&turns);
            count.copy_from_slice(&(turns.len() as u64).to_be_bytes());
        }),
    )
}

/// The run behind a dispatch, and its turns, or refusal 6, 12 or again 6.
fn dispatched(
    lent: &LentLists,
    commands: &[u8],
    schedule: &[u8],
    count: usize,
) -> Result<(Run, Vec<u8>), Refusal> {
    if count != TURN_COUNT {
        return Err(Refusal::Length);
    }
    let mut run = bytes::read_with_image(lent.handed(commands), lent.image)?;
    if (schedule.len() as u64) < dispatch::turns_needed(&run) {
        return Err(Refusal::Length);
    }
    let turns = dispatch::dispatch(&mut run);
    Ok((run, turns))
}

/// How many records each record of the chain waits for, in chain order.
pub fn pending_counts(lists: Lists, counts: &mut [u8]) -> u64 {
    answer(report(lists, counts.len() == COUNTS).map(|run| {
        counts.fill(0);
        for (count, record) in counts.iter_mut().zip(run.chain()) {
            let set = run.records.set[usize::from(record)];
            *count = set.iter().map(|word| word.count_ones() as u8).sum();
        }
    }))
}

/// The state's number and the own record of each worker; those past the largest count are idle.
pub fn worker_status(lists: Lists, status: &mut [u8]) -> u64 {
    let fits = status.len() == STATUSES * STATUS_BYTES;
    answer(report(lists, fits).map(|run| {
        status.fill(0);
        let workers = &run.parties[1..=usize::from(run.largest)];
        for (worker, entry) in workers.iter().zip(status.chunks_mut(STATUS_BYTES)) {
            entry.copy_from_slice(&bytes::standing(*worker));
        }
    }))
}

/// The round of each command, and how many rounds there are. Document 02, A.9: "A call given commands
/// but neither settings nor a run tests from 4 on as opening does."
pub fn rounds_needed(commands: &[u8], rounds: &mut [u8], count: &mut [u8]) -> u64 {
    answer(
        rounds_given(commands, rounds.len(), count.len()).map(|given| {
            bytes::write_numbers(&given, rounds);
            count.copy_from_slice(&rounds::count_of(&given).to_be_bytes());
        }),
    )
}

/// The rounds of a list, or refusal 4, 5, 6 of the two lent lists, or that of a command.
fn rounds_given(commands: &[u8], rounds: usize, count: usize) -> Result<Vec<u16>, Fault> {
    check_commands(commands)?;
    let needed = commands.len() / command::LENGTH * bytes::NUMBER;
    if rounds != needed || count != ROUND_COUNT {
        return Err(Refusal::Length.into());
    }
    Ok(rounds::rounds_of(&command::read_list(commands)?))
}

pub fn read_identifier(text: &[u8], key: &mut [u8]) -> u64 {
    if key.len() != bytes::KEY {
        return Fault::from(Refusal::Length).answer();
    }
    answer(identifier::read(text).map(|read| key.copy_from_slice(&read.to_be_bytes())))
}

pub fn write_identifier(key: u64, text: &mut [u8]) -> u64 {
    answer(identifier::write(key, text))
}

/// The run that an opening gives, from an image where one is given, or its first refusal: 1 to 6,
/// then 15 and 16, then the commands'.
fn opened(lent: &LentLists, given: Given) -> Result<Run, Fault> {
    let settings = open_settings(given.commands, given.settings)?;
    lengths_fit(lent, given, settings.room)?;
    let store = match given.source {
        None => Store::new(settings.room),
        Some(source) => image::read(source)?,
    };
    let commands = command::read_list(given.commands)?;
    Ok(Run::open_with(settings, commands, store))
}

/// Refusals 1 to 5, in order.
pub fn open_settings(commands: &[u8], [size, workers, room]: Asked) -> Result<Settings, Refusal> {
    let settings = bytes::settings(size, workers, room)?;
    check_commands(commands)?;
    Ok(settings)
}

/// Refusals 4 and 5, in order.
fn check_commands(commands: &[u8]) -> Result<(), Refusal> {
    if !commands.len().is_multiple_of(command::LENGTH) {
        return Err(Refusal::ListLength);
    }
    if commands.len() / command::LENGTH > MOST_COMMANDS {
        return Err(Refusal::TooManyCommands);
    }
    Ok(())
}

/// Refusal 11, by the largest worker count.
pub fn check_schedule(schedule: &[u8], largest: u8) -> Result<(), Refusal> {
    if schedule.iter().any(|party| *party > largest) {
        return Err(Refusal::Party);
    }
    Ok(())
}

/// Refusal 6 of an opening.
fn lengths_fit(lent: &LentLists, given: Given, room: u16) -> Result<(), Refusal> {
    let image = image::length(room);
    let room = usize::from(room);
    let fits = lent.state.len() == bytes::STATE
        && lent.keys.len() == room * bytes::KEY
        && lent.chutes.len() == room * bytes::NUMBER
        && lent.answers.len() == given.commands.len() / command::LENGTH * bytes::NUMBER
        && lent.image.len() == image
        && given.source.is_none_or(|source| source.len() == image);
    fits.then_some(()).ok_or(Refusal::Length)
}

/// The run that a report is made of, where the report's list has its length.
fn report(lists: Lists, fits: bool) -> Result<Run, Refusal> {
    if !fits {
        return Err(Refusal::Length);
    }
    bytes::read(lists)
}

fn answer(outcome: Result<(), impl Into<Fault>>) -> u64 {
    outcome.map_or_else(|fault| fault.into().answer(), |()| 0)
}

#[cfg(test)]
mod tests {
    use super::*;
    use crate::bytes::STATE;

    const FIRST: &[u8; 13] = b"AA000000005AA";

    /// The lists of document 01's example: size 2, 1 worker, room 4, an insert and a read.
    struct Caller {
        state: Vec<u8>,
        keys: Vec<u8>,
        chutes: Vec<u8>,
        answers: Vec<u8>,
        image: Vec<u8>,
        commands: Vec<u8>,
    }

    impl Caller {
        fn new() -> Caller {
            Caller {
                state: vec![9; STATE],
                keys: vec![9; 32],
                chutes: vec![9; 8],
                answers: vec![9; 4],
                image: vec![9; 80],
                commands: [&[1], &FIRST[..], &[0, 7], &[3], FIRST, &[0, 0]].concat(),
            }
        }

        fn opened() -> Caller {
            let mut caller = Caller::new();
            assert_eq!(caller.open(2, 1, 4), 0);
            caller
        }

        fn lend(&mut self) -> (LentLists<'_>, &[u8]) {
            let lent = LentLists {
                state: &mut self.state,
                keys: &mut self.keys,
                chutes: &mut self.chutes,
                answers: &mut self.answers,
                image: &mut self.image,
            };
            (lent, &self.commands)
        }

        fn open(&mut self, size: u64, workers: u64, room: u64) -> u64 {
            self.open_with(None, [size, workers, room])
        }

        fn open_from(&mut self, source: &[u8], settings: Asked) -> u64 {
            self.open_with(Some(source), settings)
        }

        fn open_with(&mut self, source: Option<&[u8]>, settings: Asked) -> u64 {
            let (mut lent, commands) = self.lend();
            let given = Given {
                commands,
                source,
                settings,
            };
            open(&mut lent, given)
        }

        fn advance(&mut self, schedule: &[u8]) -> u64 {
            let (mut lent, commands) = self.lend();
            advance(&mut lent, commands, schedule)
        }

        fn dispatch(&mut self, schedule: &mut [u8], count: &mut [u8]) -> u64 {
            let (mut lent, commands) = self.lend();
            dispatch(&mut lent, commands, schedule, count)
        }

        fn report(&mut self, call: fn(Lists, &mut [u8]) -> u64, out: &mut [u8]) -> u64 {
            let (lent, commands) = self.lend();
            call(lent.handed(commands), out)
        }
    }

    /// docs/STATE-LAYOUT.md: the fields of a fresh opening; all other bytes are 0.
    #[test]
    fn opening_lays_the_first_state_out() {
        let caller = Caller::opened();
        assert_eq!(
            caller.state[..17],
            [1, 2, 1, 1, 0, 4, 0, 2, 0, 0, 0, 0, 1, 1, 0, 2, 0]
        );
        assert!(caller.state[17..].iter().all(|byte| *byte == 0));
        assert_eq!((caller.keys, caller.chutes), (vec![0; 32], vec![0; 8]));
        assert_eq!(caller.answers, [0; 4]);
        assert_eq!(caller.image, [0; 80]);
    }

    /// Document 01, marked case (l), in bytes: the worker has written the insert, the read waits.
    #[test]
    fn the_example_after_9_turns_in_bytes() {
        let mut caller = Caller::opened();
        assert_eq!(caller.advance(&[0, 0, 0, 0, 0, 1, 1, 1, 1]), 0);
        assert_eq!(caller.answers, [3, 232, 0, 0]);
        assert_eq!(caller.chutes, [0, 7, 0, 0, 0, 0, 0, 0]);
        assert_eq!(
            caller.state[..17],
            [1, 2, 1, 1, 0, 4, 0, 2, 0, 2, 0, 1, 0, 1, 1, 2, 0]
        );
        assert_eq!(caller.state[165..171], [0, 0, 0, 1, 0, 2]);
        assert_eq!(caller.state[467..470], [0, 1, 0]);
        assert_eq!(caller.state[769 + 48..][..8], [0, 0, 0, 0, 0, 0, 0, 2]);
        assert_eq!(caller.state[4398..4403], [5, 0, 1, 0, 0]);
        let mut counts = [9; COUNTS];
        assert_eq!(caller.report(pending_counts, &mut counts), 0);
        assert_eq!(counts[..3], [0, 1, 0]);
        let mut status = [9; 128];
        assert_eq!(caller.report(worker_status, &mut status), 0);
        assert_eq!(status[..4], [5, 1, 0, 0]);
    }

    /// Document 02, A.8, in bytes: the worker and its standing in the panel after 10 to 14 turns of
    /// its own, with a call for each. It is written behind the turn in which it held the read.
    #[test]
    fn the_example_s_last_turns_in_bytes() {
        let mut caller = Caller::opened();
        assert_eq!(
            caller.advance(&[0, 0, 0, 0, 0, 1, 1, 1, 1, 1, 1, 1, 1, 1]),
            0
        );
        let turns = [(3, 2, 0), (5, 2, 7), (6, 2, 7), (7, 2, 7), (0, 0, 7)];
        for (state, own, answer) in turns {
            assert_eq!(caller.advance(&[1]), 0);
            assert_eq!(caller.state[4393..4398], [0; 5], "the loader");
            assert_eq!(caller.state[4398..4403], [state, 0, own, 0, 0]);
            assert_eq!(caller.answers, [3, 232, 0, answer]);
            let mut status = [9; 128];
            assert_eq!(caller.report(worker_status, &mut status), 0);
            assert_eq!(status[..4], [state, own, 0, 0]);
        }
        assert_eq!(
            caller.state[..17],
            [1, 2, 1, 1, 0, 4, 0, 2, 0, 2, 0, 1, 2, 1, 0, 0, 1]
        );
        assert!(caller.state[17..].iter().all(|byte| *byte == 0));
    }

    /// docs/STATE-LAYOUT.md: a worker that is looked-up for a read, as no dealing leaves it, is
    /// accepted and reported as before A.8, and its turn answers what was found.
    #[test]
    fn a_looked_up_read_is_handed_in_as_bytes() {
        for (found, answer) in [([0, 0], [3, 234]), ([0, 7], [0, 7]), ([2, 1], [2, 1])] {
            let mut caller = Caller::opened();
            let turns = [[0; 5].as_slice(), &[1; 10]].concat();
            assert_eq!(caller.advance(&turns), 0);
            caller.state[4398..4403].copy_from_slice(&[4, 0, 2, found[0], found[1]]);
            let mut status = [9; 128];
            assert_eq!(caller.report(worker_status, &mut status), 0);
            assert_eq!(status[..4], [4, 2, 0, 0]);
            assert_eq!(caller.advance(&[1]), 0);
            assert_eq!(caller.state[4398..4403], [5, 0, 2, 0, 0]);
            assert_eq!(caller.answers, [[3, 232], answer].concat());
            assert_eq!(caller.chutes, [0, 7, 0, 0, 0, 0, 0, 0]);
        }
    }

    /// Document 01, "Numbers of refusal": opening tests 1 to 6 in order, then the commands.
    #[test]
    fn opening_tests_in_order_and_writes_nothing() {
        let mut caller = Caller::new();
        caller.commands[16] = 7;
        assert_eq!(caller.open(2, 1, 4), 7 + 256 * 2);
        caller.image.pop();
        assert_eq!(caller.open(2, 1, 4), 6);
        caller.image.push(9);
        caller.answers.push(9);
        assert_eq!(caller.open(2, 1, 4), 6);
        caller.commands = vec![0; 65_552];
        assert_eq!(caller.open(2, 1, 4), 5);
        caller.commands.push(0);
        assert_eq!(caller.open(2, 1, 4), 4);
        assert_eq!(caller.open(2, 1, 4097), 3);
        assert_eq!(caller.open(2, 65, 4097), 2);
        assert_eq!(caller.open(151, 65, 4097), 1);
        let [state, keys] = [caller.state, caller.keys];
        let lists = [state, keys, caller.chutes, caller.answers, caller.image];
        assert!(lists.concat().iter().all(|byte| *byte == 9));
    }

    /// Document 01, "Numbers of refusal": a call on a handed-back run tests 6, then 12, then 11.
    #[test]
    fn advancing_tests_in_order() {
        let mut caller = Caller::opened();
        assert_eq!(caller.advance(&[0, 1, 2]), 11);
        caller.state[15] = 3;
        assert_eq!(caller.advance(&[0, 1, 2]), 12);
        caller.answers.push(0);
        assert_eq!(caller.advance(&[0, 1, 2]), 6);
        caller.answers.pop();
        for length in [0, 64, 79, 81, 96] {
            caller.image.resize(length, 0);
            assert_eq!(caller.advance(&[0, 1, 2]), 6, "an image of {length}");
            let mut counts = [9; COUNTS];
            let report = caller.report(pending_counts, &mut counts);
            assert_eq!(report, 12, "it is not lent to a report");
        }
        assert_eq!(
            caller.state[..17],
            [1, 2, 1, 1, 0, 4, 0, 2, 0, 0, 0, 0, 1, 1, 0, 3, 0]
        );
    }

    /// docs/STATE-LAYOUT.md, last column: one value beyond what each field may hold.
    #[test]
    fn a_state_out_of_range_is_refused() {
        let cases = [
            (0, 0),
            (0, 2),
            (0, 255),
            (1, 0),
            (1, 151),
            (2, 0),
            (2, 65),
            (3, 0),
            (3, 65),
            (3, 255),
            (9, 3),
            (11, 5),
            (12, 3),
            (13, 0),
            (13, 2),
            (14, 3),
            (164, 3),
            (166, 3),
            (467, 2),
            (768, 2),
            (769 + 7, 8),
            (769, 1),
            (769 + 23, 1),
            (4393, 2),
            (4393, 8),
            (4394, 1),
            (4396, 1),
            (4398, 1),
            (4398, 8),
            (4717, 1),
        ];
        for (offset, value) in cases {
            let mut caller = Caller::opened();
            caller.state[offset] = value;
            assert_eq!(caller.advance(&[]), 12, "byte {offset} is {value}");
        }
    }

    /// Room and count above 4,096 with lists as long as they say are 12, with others 6.
    #[test]
    fn lists_are_measured_by_the_state_s_own_settings() {
        let mut caller = Caller::opened();
        caller.state[4..6].copy_from_slice(&4097_u16.to_be_bytes());
        assert_eq!(caller.advance(&[]), 6);
        caller.keys.resize(4097 * 8, 0);
        caller.chutes.resize(4097 * 2, 0);
        assert_eq!(caller.advance(&[]), 6);
        caller.image.resize(4098 * 16, 0);
        assert_eq!(caller.advance(&[]), 12);
    }

    #[test]
    fn a_store_that_does_not_ascend_is_refused() {
        let mut caller = Caller::opened();
        caller.state[11] = 2;
        assert_eq!(caller.advance(&[]), 12);
        caller.keys[15] = 1;
        assert_eq!(caller.advance(&[]), 0);
    }

    /// Document 02, A.1: the character beside the place, 0 with any refusal but 8, 9 and 13.
    #[test]
    fn a_refused_opening_says_place_and_character() {
        let texts: [(&[u8; 13], u64); 4] = [
            (b"Aa000000005AA", 8 + (2 << 32)),
            (b"AA00000000xAA", 13 + (11 << 32)),
            (b"AA000000004AA", 9 + (11 << 32)),
            (b"aAx00000000AA", 8 + (1 << 32)),
        ];
        for (text, answer) in texts {
            for place in [1, 2] {
                let mut caller = Caller::new();
                caller.commands[place * 16 - 15..][..13].copy_from_slice(text);
                assert_eq!(caller.open(2, 1, 4), answer + 256 * place as u64);
                caller.commands[place * 16 - 16] = 0;
                assert_eq!(caller.open(2, 1, 4), 7 + 256 * place as u64);
                assert_eq!(caller.open(0, 1, 4), 1);
                assert_eq!(caller.state, vec![9; STATE]);
            }
        }
    }

    /// The example with an insert, a change to three workers, a read and a change to one.
    fn changing() -> Caller {
        let mut caller = Caller::new();
        let [insert, read] = [0, 16].map(|at| caller.commands[at..at + 16].to_vec());
        let changes = [3, 1].map(|count| command::encode(5, &identifier::NONE, count));
        caller.commands = [&insert, &changes[0], &read, &changes[1]]
            .map(Vec::as_slice)
            .concat();
        caller.answers = vec![9; 8];
        caller
    }

    /// Document 02, A.2: 8 at every character, and 14, with the place; 8 comes first.
    #[test]
    fn a_refused_worker_change_says_place_and_character() {
        for place in [2, 4_u64] {
            for character in 1..=13_u64 {
                let mut caller = changing();
                let part = place as usize * 16 - 16;
                caller.commands[part + character as usize] = b'1';
                caller.commands[part + 15] = 65;
                let answer = 8 + 256 * place + (character << 32);
                assert_eq!(caller.open(4, 1, 4), answer);
                caller.commands[part + character as usize] = b'0';
                assert_eq!(caller.open(4, 1, 4), 14 + 256 * place);
                caller.commands[part + 15] = 0;
                assert_eq!(caller.open(4, 1, 4), 14 + 256 * place);
                caller.commands[part + 14] = 1;
                assert_eq!(caller.open(4, 1, 4), 14 + 256 * place);
                caller.commands[part] = 7;
                assert_eq!(caller.open(4, 1, 4), 7 + 256 * place);
                assert_eq!(caller.state, vec![9; STATE]);
            }
        }
    }

    /// A.2, in bytes: the largest count at offset 3 and the count in force at 13. A party up to the
    /// largest may be named though its change is not loaded, and is shown by the panel.
    #[test]
    fn worker_counts_in_bytes() {
        let mut caller = changing();
        assert_eq!(caller.open(4, 1, 4), 0);
        assert_eq!(caller.state[..4], [1, 4, 1, 3]);
        assert_eq!(caller.state[13], 1);
        assert_eq!(caller.advance(&[4]), 11);
        let before = caller.state.clone();
        assert_eq!(caller.advance(&[2, 3, 2]), 0);
        assert_eq!(caller.state, before, "they wait");
        assert_eq!(caller.advance(&[0; 14]), 0);
        assert_eq!(caller.advance(&[1; 10 + 3]), 0);
        assert_eq!(caller.state[4398..4403], [4, 0, 2, 0, 0], "found nothing");
        assert_eq!((caller.state[13], caller.chutes[1]), (1, 7));
        assert_eq!(caller.advance(&[1]), 0);
        assert_eq!((caller.state[3], caller.state[13]), (3, 3));
        assert_eq!(caller.answers, [3, 232, 3, 232, 0, 0, 0, 0]);
        assert_eq!(caller.advance(&[1, 1, 1, 1, 1, 3, 3, 3]), 0);
        let mut status = [9; 128];
        assert_eq!(caller.report(worker_status, &mut status), 0);
        assert_eq!(status[..8], [0, 0, 0, 0, 5, 3, 0, 0]);
        assert_eq!(caller.advance(&[3, 3, 3, 3, 3, 3, 3, 3]), 0);
        assert_eq!((caller.state[3], caller.state[13]), (3, 1));
        assert_eq!(caller.report(worker_status, &mut status), 0);
        assert_eq!(status[..8], [0, 0, 0, 0, 5, 4, 0, 0]);
        assert_eq!(caller.advance(&[3, 3, 3, 2, 3, 3, 2]), 0);
        assert!(caller.state[4393..].iter().all(|byte| *byte == 0));
        assert_eq!(caller.answers, [3, 232, 3, 232, 0, 7, 3, 232]);
    }

    /// docs/STATE-LAYOUT.md: what the counts may hold, and that 6 is tested before and 11 behind.
    #[test]
    fn worker_counts_out_of_range_are_refused() {
        let mut caller = changing();
        assert_eq!(caller.open(4, 2, 4), 0);
        let cases = [
            ([1, 3, 3], 0),
            ([1, 64, 64], 0),
            ([1, 1, 1], 0),
            ([0, 3, 2], 12),
            ([2, 3, 2], 12),
            ([1, 0, 0], 12),
            ([1, 0, 1], 12),
            ([1, 65, 2], 12),
            ([1, 3, 0], 12),
            ([1, 3, 4], 12),
            ([1, 1, 2], 12),
        ];
        for ([chain, largest, in_force], answer) in cases {
            caller.state[0] = chain;
            caller.state[3] = largest;
            caller.state[13] = in_force;
            assert_eq!(caller.advance(&[]), answer, "{chain} {largest} {in_force}");
            let refused = if answer == 0 { 11 } else { answer };
            assert_eq!(caller.advance(&[0, 65]), refused);
            let [mut counts, mut status] = [[9; COUNTS].to_vec(), [9; 128].to_vec()];
            assert_eq!(caller.report(pending_counts, &mut counts), answer);
            assert_eq!(caller.report(worker_status, &mut status), answer);
            caller.keys.push(0);
            assert_eq!(caller.advance(&[0, 65]), 6);
            caller.keys.pop();
        }
    }

    /// Decision 26: a count that no opening accepted is in force whole up to the end of its call, in
    /// which worker 3 may begin a search or not. The state then has its low byte, and the next call
    /// goes by that.
    #[test]
    fn a_count_that_no_opening_accepted_is_in_force_whole() {
        let cases = [
            (0, 0, 12),
            (2, 2, 0),
            (3, 3, 0),
            (65, 65, 12),
            (255, 255, 12),
            (256, 0, 12),
            (257, 1, 0),
            (259, 3, 0),
            (512, 0, 12),
            (u16::MAX, 255, 12),
        ];
        for (count, left, answer) in cases {
            let mut caller = changing();
            assert_eq!(caller.open(4, 2, 4), 0);
            caller.commands.rotate_left(16);
            caller.commands[14..16].copy_from_slice(&count.to_be_bytes());
            assert_eq!(caller.advance(&[0, 0, 1, 1, 1, 1, 3]), 0);
            let searching = caller.state[4393 + 15] == 2;
            assert_eq!(searching, count >= 3, "{count}");
            assert_eq!(caller.answers[..2], [3, 232]);
            assert_eq!(caller.state[13], left);
            assert_eq!(caller.advance(&[2]), answer, "{count}");
        }
    }

    /// Decision 26: key and chute of a command that no opening accepted, seen in the store. An insert
    /// with chute 0 leaves its item as an absent one (decision 9).
    #[test]
    fn a_refused_command_is_served_as_its_bytes_say() {
        let cases: [(&[u8; 13], u16, u64, u16); 5] = [
            (b"AA000000009AA", 513, 0, 513),
            (b"AA0000000:xAA", 7, 6760, 7),
            (b"@A000000005AA", 65_535, 0, 65_535),
            (&[0xff; 13], 512, 348_342_799_989_582, 512),
            (b"AA000000014AA", 0, 676, 1002),
        ];
        for (text, chute, key, answer) in cases {
            let mut caller = Caller::opened();
            let commands = [command::encode(1, text, chute), command::encode(7, text, 9)];
            caller.commands = commands.concat();
            assert_eq!(caller.advance(&[[0; 5].as_slice(), &[1; 14]].concat()), 0);
            assert_eq!(caller.keys[..8], key.to_be_bytes());
            assert_eq!(caller.chutes[..2], chute.to_be_bytes());
            let answers = [[3, 232], answer.to_be_bytes()];
            assert_eq!(caller.answers, answers.concat());
        }
    }

    /// docs/STATE-LAYOUT.md: a largest count that is not the list's is not seen until a count above
    /// it is written; and who is past it is idle in the report.
    #[test]
    fn a_largest_count_that_is_not_the_list_s() {
        let mut caller = changing();
        assert_eq!(caller.open(4, 1, 4), 0);
        caller.state[3] = 2;
        let turns = [[0; 14].as_slice(), &[1; 13]].concat();
        assert_eq!(caller.advance(&turns), 0);
        caller.state[4398 + 10] = 2;
        let mut status = [9; 128];
        assert_eq!(caller.report(worker_status, &mut status), 0);
        assert_eq!(status[..8], [4, 2, 0, 0, 0, 0, 0, 0]);
        assert_eq!(caller.advance(&[1, 2]), 0);
        assert_eq!(caller.state[13], 3);
        assert_eq!(caller.advance(&[]), 12);
    }

    /// The example with a checkpoint behind the insert, at its writing turn: document 02, A.3, in
    /// bytes. The dealings before it leave the image as it is, whatever it holds.
    #[test]
    fn a_checkpoint_writes_the_image_at_its_writing_turn() {
        let mut caller = Caller::new();
        let checkpoint = command::encode(6, &identifier::NONE, 0);
        caller.commands[16..].copy_from_slice(&checkpoint);
        assert_eq!(caller.open(2, 1, 4), 0);
        assert_eq!(caller.image, [0; 80]);
        caller.image = vec![9; 80];
        let turns = [[0; 5].as_slice(), &[1; 11]].concat();
        assert_eq!(caller.advance(&turns), 0);
        assert_eq!(caller.state[4398..4403], [4, 0, 2, 0, 0], "found nothing");
        assert_eq!((&caller.image[..], caller.answers[3]), (&[9; 80][..], 0));
        assert_eq!(caller.advance(&[1]), 0);
        let records = [
            [0, 1, 0, 0, 0, 0, 0, 0, 0, 0, 0, 2],
            [0, 0, 0, 7, 0, 0, 0, 0, 0, 0, 0, 0],
        ];
        let mut expected = vec![0; 80];
        expected[..12].copy_from_slice(&records[0]);
        expected[16..28].copy_from_slice(&records[1]);
        assert_eq!(caller.image, expected);
        assert_eq!(caller.answers, [3, 232, 3, 232]);
        assert_eq!(caller.advance(&[1, 1, 1]), 0);
        assert_eq!(caller.image, expected);
    }

    /// An image of room 4 with the item of the example, record 3 being first.
    fn source() -> Vec<u8> {
        let mut source = vec![9; 80];
        source[..16].copy_from_slice(&[0, 3, 0, 0, 0, 0, 0, 0, 0, 0, 16, 0, 0, 0, 0, 0]);
        source[48..64].copy_from_slice(&[0, 0, 0, 7, 0, 0, 0, 0, 0, 0, 0, 0, 0, 0, 0, 0]);
        source
    }

    /// A.3: opening from an image gives its store and leaves the lent image zeros; the commands'
    /// places begin at 1, and the read finds the item.
    #[test]
    fn a_run_is_opened_from_an_image() {
        let mut caller = Caller::new();
        caller.commands.drain(..16);
        caller.answers.truncate(2);
        assert_eq!(caller.open_from(&source(), [2, 1, 4]), 0);
        assert_eq!(caller.state[4..14], [0, 4, 0, 1, 0, 0, 0, 1, 1, 1]);
        assert_eq!(caller.chutes, [0, 7, 0, 0, 0, 0, 0, 0]);
        assert_eq!(
            (caller.keys.clone(), caller.image.clone()),
            (vec![0; 32], vec![0; 80])
        );
        assert_eq!(caller.advance(&[0, 0, 1, 1, 1]), 0);
        assert_eq!(caller.answers, [0, 7]);
    }

    /// A.3: 1 to 6 are tested before 15, the whole chain before 16, and the commands behind it, all
    /// with place 0 but these; nothing is written.
    #[test]
    fn opening_from_an_image_tests_in_order_and_writes_nothing() {
        let mut caller = Caller::new();
        caller.commands[16] = 7;
        let mut image = source();
        assert_eq!(caller.open_from(&image, [2, 1, 4]), 7 + 256 * 2);
        image[2] = 1;
        assert_eq!(caller.open_from(&image, [2, 1, 4]), 16);
        image[49] = 5;
        assert_eq!(caller.open_from(&image, [2, 1, 4]), 15);
        for length in [0, 16, 64, 79, 81, 96] {
            image.resize(length, 0);
            assert_eq!(caller.open_from(&image, [2, 1, 4]), 6);
        }
        caller.commands.push(0);
        assert_eq!(caller.open_from(&image, [2, 1, 4]), 4);
        assert_eq!(caller.open_from(&image, [2, 1, 4097]), 3);
        assert_eq!(caller.open_from(&image, [2, 0, 4097]), 2);
        assert_eq!(caller.open_from(&image, [0, 0, 4097]), 1);
        let [state, keys] = [caller.state, caller.keys];
        let lists = [state, keys, caller.chutes, caller.answers, caller.image];
        assert!(lists.concat().iter().all(|byte| *byte == 9));
    }

    /// Document 02, A.6, in bytes, on document 01's example behind its first turn: 17 turns of 36 that
    /// are enough. What is written is dealt by hand on a copy, and leaves the same lists.
    #[test]
    fn a_dispatch_in_bytes() {
        for more in [0, 1, 7] {
            let [mut caller, mut by_hand] = [Caller::opened(), Caller::opened()];
            assert_eq!((caller.advance(&[0]), by_hand.advance(&[0])), (0, 0));
            let mut needed = [9; 8];
            assert_eq!(caller.report(steps_needed, &mut needed), 0);
            assert_eq!(needed, [0, 0, 0, 0, 0, 0, 0, 36]);
            let (mut schedule, mut count) = (vec![9; 36 + more], [9; 8]);
            assert_eq!(caller.dispatch(&mut schedule, &mut count), 0);
            assert_eq!(count, [0, 0, 0, 0, 0, 0, 0, 16]);
            let turns = [0, 1, 1, 1, 1, 1, 1, 1, 0, 0, 1, 1, 1, 1, 1, 1];
            assert_eq!(schedule[..16], turns);
            assert_eq!(schedule[16..], vec![9; 20 + more]);
            assert_eq!(by_hand.advance(&turns), 0);
            assert!(caller.state == by_hand.state && caller.keys == by_hand.keys);
            assert_eq!(caller.answers, [3, 232, 0, 7]);
            assert_eq!(caller.chutes, [0, 7, 0, 0, 0, 0, 0, 0]);
            assert_eq!(caller.image, [0; 80]);
        }
    }

    /// What a dispatch answers that is lent lists of these lengths, and into which it writes nothing.
    fn refused_dispatch(caller: &mut Caller, length: usize, count: usize) -> u64 {
        let (mut schedule, mut count) = (vec![9; length], vec![9; count]);
        let answer = caller.dispatch(&mut schedule, &mut count);
        assert!(schedule.iter().chain(&count).all(|byte| *byte == 9));
        answer
    }

    /// A.6: 6 for the number's list, then 12, then 6 for a list that is shorter than the bound.
    #[test]
    fn a_dispatch_tests_in_order_and_writes_nothing() {
        let mut caller = Caller::opened();
        let before = caller.state.clone();
        for length in [0, 1, 35] {
            assert_eq!(refused_dispatch(&mut caller, length, 8), 6);
        }
        for count in [0, 7, 9, 16] {
            assert_eq!(refused_dispatch(&mut caller, 36, count), 6);
            assert_eq!(caller.report(steps_needed, &mut vec![9; count]), 6);
        }
        caller.state[0] = 2;
        for length in [0, 35, 36, 37] {
            assert_eq!(refused_dispatch(&mut caller, length, 8), 12);
            assert_eq!(refused_dispatch(&mut caller, length, 7), 6);
        }
        let mut count = [9; 8];
        assert_eq!(caller.report(steps_needed, &mut count), 12);
        assert_eq!(count, [9; 8]);
        caller.state[0] = 1;
        assert_eq!(caller.state, before);
    }

    /// A.6: each list in a wrong length is 6, though the run is out of range. The question for the
    /// bound is lent no image.
    #[test]
    fn a_dispatch_tests_lengths_before_the_run() {
        for list in 0..5 {
            let mut caller = Caller::opened();
            caller.state[0] = 2;
            let lists = [
                &mut caller.state,
                &mut caller.keys,
                &mut caller.chutes,
                &mut caller.answers,
                &mut caller.image,
            ];
            lists.into_iter().nth(list).expect("a list").push(0);
            assert_eq!(refused_dispatch(&mut caller, 36, 8), 6);
            let needed = caller.report(steps_needed, &mut [9; 8]);
            assert_eq!(needed, if list == 4 { 12 } else { 6 });
        }
    }

    /// What a call for rounds answers that is lent lists of these lengths, and what it leaves there.
    fn rounds(commands: &[u8], length: usize, count: usize) -> (u64, Vec<u8>, Vec<u8>) {
        let (mut rounds, mut count) = (vec![9; length], vec![9; count]);
        let answer = rounds_needed(commands, &mut rounds, &mut count);
        (answer, rounds, count)
    }

    /// Document 02, A.9, in bytes: the insert and the read of the example, and a read of another item;
    /// of an empty list the number alone is written; and numbers above 255 have two bytes.
    #[test]
    fn rounds_in_bytes() {
        let other = command::encode(3, b"AA000000014AA", 0);
        let commands = [Caller::new().commands, other].concat();
        let expected = (0, vec![0, 1, 0, 2, 0, 1], vec![0, 0, 0, 0, 0, 0, 0, 2]);
        assert_eq!(rounds(&commands, 6, 8), expected);
        assert_eq!(rounds(&[], 0, 8), (0, vec![], vec![0; 8]));
        let updates = command::encode(4, FIRST, 7).repeat(258);
        let (answer, rounds, count) = rounds(&updates, 516, 8);
        assert_eq!((answer, count), (0, vec![0, 0, 0, 0, 0, 0, 1, 2]));
        assert_eq!(rounds[508..], [0, 255, 1, 0, 1, 1, 1, 2]);
    }

    /// Asserts that a call for rounds is refused so and writes nothing.
    fn assert_no_rounds(answer: u64, commands: &[u8], length: usize, count: usize) {
        let left = (answer, vec![9; length], vec![9; count]);
        assert!(rounds(commands, length, count) == left, "{answer} {length}");
    }

    /// A.9: "tests from 4 on as opening does": 4, 5 and 6 in order, then each command, with place and
    /// character.
    #[test]
    fn rounds_are_refused_in_order_and_write_nothing() {
        let commands = Caller::new().commands;
        let refused = |at: usize, byte: u8| {
            let mut commands = commands.clone();
            commands[at] = byte;
            commands
        };
        assert_no_rounds(4, &commands[..31], 4, 8);
        assert_no_rounds(4, &refused(0, 0)[..31], 2, 7);
        let most = commands.repeat(2048);
        let many = [&most[..], &commands[..16]].concat();
        assert_no_rounds(5, &many, 8194, 8);
        assert_no_rounds(5, &many, 8192, 0);
        assert_no_rounds(4, &many[..65_551], 8192, 8);
        assert_no_rounds(4, &[&many[..], &[1]].concat(), 8192, 8);
        for (length, count) in [
            (3, 8),
            (2, 8),
            (0, 8),
            (5, 8),
            (6, 8),
            (4, 7),
            (4, 9),
            (0, 0),
        ] {
            assert_no_rounds(6, &commands, length, count);
            assert_no_rounds(6, &refused(0, 0), length, count);
        }
        assert_no_rounds(6, &[], 1, 8);
        assert_no_rounds(6, &[], 0, 0);
        assert_no_rounds(7 + 256, &refused(0, 7), 4, 8);
        assert_no_rounds(8 + 512 + (2 << 32), &refused(18, b'a'), 4, 8);
        assert_no_rounds(13 + 512 + (3 << 32), &refused(19, b'a'), 4, 8);
        assert_no_rounds(9 + 256 + (11 << 32), &refused(11, b'4'), 4, 8);
        assert_no_rounds(10 + 512, &refused(31, 1), 4, 8);
        assert_no_rounds(8 + 256 + (1 << 32), &refused(0, 5), 4, 8);
        let last = [&most[..65_520], &command::encode(5, &identifier::NONE, 65)].concat();
        assert_no_rounds(14 + 256 * 4096, &last, 8192, 8);
    }

    #[test]
    fn an_identifier_is_read_into_eight_bytes() {
        let mut key = [9; 8];
        assert_eq!(read_identifier(b"AA000000014AA", &mut key[..7]), 6);
        assert_eq!(read_identifier(b"AA00000001xAA", &mut key[..7]), 6);
        let answers = [
            (&b"AA000000015AA"[..], 9 + (11 << 32)),
            (b"AA00000001xAA", 13 + (11 << 32)),
            (b"AA000000014Aa", 8 + (13 << 32)),
            (b"AA000000014A", 8),
        ];
        for (text, answer) in answers {
            assert_eq!(read_identifier(text, &mut key), answer);
        }
        assert_eq!(key, [9; 8]);
        assert_eq!(read_identifier(b"AA000000014AA", &mut key), 0);
        assert_eq!(u64::from_be_bytes(key), 676);
    }
}
