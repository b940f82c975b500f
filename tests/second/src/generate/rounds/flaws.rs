//! Depots with one flaw each in what document 02's A.9 asks for. They are played on both sides, so
//! that nothing but the judgements of A.9 itself can tell, and against the second program, which alone
//! tells those that long lists show.

use std::sync::LazyLock;

use super::cases;
use crate::bytes::{MOST_COMMANDS, NUMBER, write_numbers};
use crate::calls::ROUND_COUNT;
use crate::command::{self, Command, Kind, LENGTH, dependent};
use crate::depot::altered::Altered;
use crate::depot::{Depot, Second};
use crate::play::{Difference, Play};
use crate::random::Random;
use crate::rounds::{count_of, rounds_of};
use crate::script::Step;

#[derive(Clone, Copy, Debug, PartialEq, Eq)]
enum Flaw {
    /// Reads of one item stand in different rounds.
    ReadsApart,
    /// A read and an update of one item stand in one round.
    ReadWithUpdate,
    /// Inserts of different items stand in one round.
    InsertsTogether,
    /// An insert stands apart from every command, as before A.5.
    InsertsApart,
    /// A worker change waits for no read.
    ChangeWithReads,
    /// Kinds 5 and 6 depend on commands of key 0 and on inserts alone.
    NoneIsKey0,
    /// Key 0 is taken for no item.
    Key0IsNone,
    /// A command stands one behind the nearest that it depends on.
    Nearest,
    /// Commands stand as late as the number of rounds lets them.
    Latest,
    /// Keys are told from one another by their rest by 4,096, by 4,093, or by their low 32 bits.
    Modulo4096,
    Modulo4093,
    LowWord,
    /// A key is forgotten when another with the same rest by 4,096, or by 4,093, comes.
    Forgets4096,
    Forgets4093,
    /// No more than 150, or 2,048, commands back are looked at.
    Window150,
    Window2048,
    /// The first round is 0.
    From0,
    /// One round more is counted than there is.
    OneMore,
    /// The commands are counted.
    CountsCommands,
    /// The low byte stands first, of each round or of their number.
    LowFirst,
    CountLowFirst,
    /// A round is one byte.
    OneByte,
    /// The last round is not written, or the number for an empty list.
    LastUnwritten,
    EmptyUnwritten,
    /// The rounds stand in the opposite order.
    Backwards,
    /// A refusal writes zeros into the one list or the other.
    RefusedRounds,
    RefusedCount,
    /// 4 is tested after 6, 5 after 6, 6 after the commands.
    MultipleLater,
    ManyLater,
    LengthLater,
    /// 5 is tested before 4.
    ManyFirst,
    /// A list for rounds, or for their number, that is too long is accepted.
    LongRounds,
    LongCount,
    /// One command too many is accepted, or as many as can be are refused.
    MoreAccepted,
    MostRefused,
    /// The number of commands is taken in two bytes.
    TwoBytes,
    /// The last refused command is told.
    LastRefused,
    /// Places count from 0; the character is left out.
    PlaceFrom0,
    NoCharacter,
}

/// The second program with a flaw.
struct Flawed(Flaw);

/// Rounds by a rule on two indexes, the earlier first.
fn by(count: usize, depends: impl Fn(usize, usize) -> bool) -> Vec<u16> {
    let mut rounds: Vec<u16> = Vec::with_capacity(count);
    for later in 0..count {
        let earlier = (0..later).filter(|it| depends(*it, later));
        rounds.push(1 + earlier.map(|it| rounds[it]).max().unwrap_or(0));
    }
    rounds
}

/// The same with other keys.
fn with_keys(commands: &[Command], key: impl Fn(u64) -> u64) -> Vec<u16> {
    let commands: Vec<Command> = commands
        .iter()
        .map(|it| Command {
            key: key(it.key),
            ..*it
        })
        .collect();
    by(commands.len(), |first, later| {
        dependent(&commands[first], &commands[later])
    })
}

/// The same where a table has one place for each rest.
fn forgetting(commands: &[Command], modulus: u64) -> Vec<u16> {
    let count = commands.len();
    let mut lost = vec![count; count];
    for (index, it) in commands.iter().enumerate() {
        let replaces = |other: &Command| {
            let rest = other.key % modulus == it.key % modulus;
            other.kind.names_item() && other.key != it.key && rest
        };
        let later = commands[index..].iter().position(replaces);
        lost[index] = later.map_or(count, |by| index + by);
    }
    by(count, |first, later| {
        let [it, other] = [&commands[first], &commands[later]];
        let key = it.kind.names_item() && it.key == other.key;
        dependent(it, other) && (!key || later < lost[first])
    })
}

/// Each command behind the nearest that it depends on.
fn nearest(commands: &[Command]) -> Vec<u16> {
    let mut rounds: Vec<u16> = Vec::new();
    for (later, command) in commands.iter().enumerate() {
        let nearest = (0..later).rfind(|it| dependent(&commands[*it], command));
        rounds.push(1 + nearest.map_or(0, |it| rounds[it]));
    }
    rounds
}

/// The rounds of the list from its end.
fn latest(commands: &[Command]) -> Vec<u16> {
    let reversed: Vec<Command> = commands.iter().rev().copied().collect();
    let rounds = rounds_of(&reversed);
    let most = count_of(&rounds) as u16;
    rounds.iter().rev().map(|round| most + 1 - round).collect()
}

impl Flaw {
    /// Whether two commands are dependent, where the right answer is given.
    fn depends(self, [first, second]: [&Command; 2], right: bool) -> bool {
        let kinds = [first.kind, second.kind];
        let has = |kind: Kind| kinds.contains(&kind);
        let same = first.key == second.key;
        let none = has(Kind::Workers) || has(Kind::Checkpoint);
        match self {
            Flaw::ReadsApart => right || same,
            Flaw::ReadWithUpdate => right && !(has(Kind::Read) && has(Kind::Update)),
            Flaw::InsertsTogether => right && (kinds != [Kind::Insert; 2] || same),
            Flaw::InsertsApart => right || has(Kind::Insert),
            Flaw::ChangeWithReads => right && !(has(Kind::Workers) && has(Kind::Read)),
            Flaw::NoneIsKey0 => right && (!none || same || has(Kind::Insert)),
            Flaw::Key0IsNone => {
                let key_0 = same && first.key == 0 && !none;
                right && (!key_0 || !(has(Kind::Read) || has(Kind::Update)))
            }
            _ => right,
        }
    }

    fn rounds(self, commands: &[Command]) -> Vec<u16> {
        let depends = |first: usize, later: usize| {
            let pair = [&commands[first], &commands[later]];
            self.depends(pair, dependent(pair[0], pair[1]))
        };
        let count = commands.len();
        match self {
            Flaw::Nearest => nearest(commands),
            Flaw::Latest => latest(commands),
            Flaw::Modulo4096 => with_keys(commands, |key| key % 4096),
            Flaw::Modulo4093 => with_keys(commands, |key| key % 4093),
            Flaw::LowWord => with_keys(commands, |key| key & 0xffff_ffff),
            Flaw::Forgets4096 => forgetting(commands, 4096),
            Flaw::Forgets4093 => forgetting(commands, 4093),
            Flaw::Window150 => by(count, |it, later| later - it <= 150 && depends(it, later)),
            Flaw::Window2048 => by(count, |it, later| later - it <= 2048 && depends(it, later)),
            Flaw::From0 => rounds_of(commands).iter().map(|it| it - 1).collect(),
            Flaw::OneByte => rounds_of(commands).iter().map(|it| it & 0xff).collect(),
            Flaw::Backwards => rounds_of(commands).into_iter().rev().collect(),
            _ => by(count, depends),
        }
    }

    /// Writes the rounds of an accepted list.
    fn write(self, commands: &[Command], rounds: &mut [u8], count: &mut [u8]) {
        let given = self.rounds(commands);
        let number = match self {
            Flaw::OneMore => count_of(&given) + 1,
            Flaw::CountsCommands => commands.len() as u64,
            _ => count_of(&given),
        };
        let last = rounds.last().copied();
        write_numbers(&given, rounds);
        match self {
            Flaw::LowFirst => rounds.chunks_mut(NUMBER).for_each(<[u8]>::reverse),
            Flaw::LastUnwritten => rounds
                .iter_mut()
                .rev()
                .zip(last)
                .for_each(|(it, last)| *it = last),
            _ => {}
        }
        if self != Flaw::EmptyUnwritten || !commands.is_empty() {
            count[..ROUND_COUNT].copy_from_slice(&number.to_be_bytes());
        }
        if self == Flaw::CountLowFirst {
            count.reverse();
        }
    }

    /// The answer where the second program gives this one.
    fn answer(self, right: u64, commands: &[u8], length: usize, number: usize) -> u64 {
        let count = commands.len() / LENGTH;
        let needed = count * NUMBER;
        let fits = length == needed && number == ROUND_COUNT;
        let refused = command::read_list(commands)
            .map_err(|fault| fault.answer())
            .err();
        match (self, right) {
            (Flaw::MultipleLater, 4) | (Flaw::ManyLater, 5) if !fits => 6,
            (Flaw::ManyFirst, 4) if count >= MOST_COMMANDS => 5,
            (Flaw::LengthLater, 6) => refused.unwrap_or(6),
            (Flaw::LongRounds, 6) if length > needed && number == ROUND_COUNT => {
                refused.unwrap_or(0)
            }
            (Flaw::LongCount, 6) if length == needed && number > ROUND_COUNT => {
                refused.unwrap_or(0)
            }
            (Flaw::MoreAccepted, 5) if fits && count == MOST_COMMANDS + 1 => refused.unwrap_or(0),
            (Flaw::MostRefused, 0) if count == MOST_COMMANDS => 5,
            (Flaw::TwoBytes, 5) if count > u16::MAX.into() => 6,
            (Flaw::LastRefused, 7..) => last_refused(commands),
            (Flaw::PlaceFrom0, 7..) => right - 256,
            (Flaw::NoCharacter, 7..) => right & 0xffff_ffff,
            _ => right,
        }
    }
}

/// The answer that tells the last refused command.
fn last_refused(commands: &[u8]) -> u64 {
    let parts = commands.as_chunks().0.iter();
    let answers = (1..).zip(parts).filter_map(|(place, part)| {
        let fault = command::read(part).err()?;
        Some(fault.answer() + (place << 8))
    });
    answers.last().expect("a command is refused")
}

impl Altered for Flawed {
    fn rounds_needed(&self, commands: &[u8], rounds: &mut [u8], count: &mut [u8]) -> u64 {
        let [mut given, mut number] = [rounds.to_vec(), count.to_vec()];
        let right = Second.rounds_needed(commands, &mut given, &mut number);
        let answer = self.0.answer(right, commands, rounds.len(), count.len());
        match (answer, self.0) {
            (0, flaw) => {
                let commands = command::read_list(commands).expect("they are accepted");
                flaw.write(&commands, rounds, count);
            }
            (_, Flaw::RefusedRounds) => rounds.fill(0),
            (_, Flaw::RefusedCount) => count.fill(0),
            _ => {}
        }
        answer
    }
}

/// The calls of the comparison, those that take long last: of long lists that may be accepted.
static STEPS: LazyLock<Vec<Step>> = LazyLock::new(|| {
    let mut steps = cases(&mut Random::new(1)).concat();
    steps.sort_by_key(|step| match step {
        Step::RoundsNeeded(plan) => {
            let count = plan.commands.len() / LENGTH;
            let fits = plan.length == count * NUMBER && count <= MOST_COMMANDS;
            (fits && count > 300, count)
        }
        other => panic!("{other}"),
    });
    steps
});

/// What is told of a depot first.
fn told<'a>(play_of: impl Fn() -> Play<'a>) -> Option<Difference> {
    let mut steps = STEPS.iter();
    steps.find_map(|step| play_of().take(step.clone()).err())
}

/// Each flaw, and words of what tells it without the second program.
const ALONE: [(Flaw, &str); 37] = [
    (Flaw::ReadsApart, "could stand earlier"),
    (Flaw::ReadWithUpdate, "depends on command 1 in round 1"),
    (Flaw::InsertsTogether, "depends on command 1 in round 1"),
    (Flaw::InsertsApart, "could stand earlier"),
    (Flaw::ChangeWithReads, "depends on command 1 in round 1"),
    (Flaw::NoneIsKey0, "depends on command 1 in round 1"),
    (Flaw::Key0IsNone, "depends on command 1 in round 1"),
    (Flaw::Nearest, "and depends on command"),
    (Flaw::Latest, "could stand earlier"),
    (Flaw::Modulo4096, "could stand earlier"),
    (Flaw::Modulo4093, "could stand earlier"),
    (Flaw::LowWord, "could stand earlier"),
    (Flaw::Forgets4096, "and depends on command"),
    (Flaw::Forgets4093, "and depends on command"),
    (Flaw::Window150, "and depends on command"),
    (Flaw::From0, "command 1 stands in round 0"),
    (Flaw::OneMore, "1 rounds for 0 commands up to round 0"),
    (
        Flaw::CountsCommands,
        "2 rounds for 2 commands up to round 1",
    ),
    (Flaw::LowFirst, "1 rounds for 1 commands up to round 256"),
    (Flaw::CountLowFirst, "rounds for 1 commands up to round 1"),
    (Flaw::LastUnwritten, "rounds for 1 commands up to round"),
    (Flaw::EmptyUnwritten, "rounds for 0 commands up to round 0"),
    (Flaw::Backwards, "command 1 stands in round 2"),
    (
        Flaw::RefusedRounds,
        "the refused call for rounds writes into rounds",
    ),
    (
        Flaw::RefusedCount,
        "the refused call for rounds writes into out",
    ),
    (Flaw::MultipleLater, "refused 6, an opening is refused 4"),
    (Flaw::ManyLater, "refused 6, an opening is refused 5"),
    (Flaw::LengthLater, "an opening is refused 6"),
    (Flaw::ManyFirst, "refused 5, an opening is refused 4"),
    (Flaw::LongRounds, "accepted, an opening is refused 6"),
    (Flaw::LongCount, "accepted, an opening is refused 6"),
    (Flaw::MoreAccepted, "an opening is refused 5"),
    (Flaw::MostRefused, "refused 5, an opening is accepted"),
    (Flaw::TwoBytes, "refused 6, an opening is refused 5"),
    (Flaw::LastRefused, "place 1"),
    (Flaw::PlaceFrom0, "place 1"),
    (Flaw::NoCharacter, "character"),
];

/// Those that only long lists show, and what the second program tells.
const LONG: [(Flaw, &str); 2] = [
    (Flaw::Window2048, "of rounds is 1, of the second program"),
    (
        Flaw::OneByte,
        "entry 256 of rounds is 0, of the second program 256",
    ),
];

fn assert_told(flaw: Flaw, told: Option<Difference>, words: &str) {
    let told = told.unwrap_or_else(|| panic!("{flaw:?}"));
    println!("{flaw:?}: {told}");
    assert!(told.contains(words), "{flaw:?}: {told}");
}

#[test]
fn wrong_rounds_are_told_by_document_02_alone() {
    for (flaw, words) in ALONE {
        let depot = Flawed(flaw);
        assert_told(flaw, told(|| Play::alone(&depot)), words);
    }
}

#[test]
fn every_flaw_of_rounds_is_told_by_the_second_program() {
    let alone = ALONE.map(|(flaw, _)| (flaw, ""));
    for (flaw, words) in LONG.into_iter().chain(alone) {
        let depot = Flawed(flaw);
        assert_told(flaw, told(|| Play::new(&depot)), words);
    }
}
