//! Commands and command lists as bytes, and the dependence of two commands.

use crate::identifier;
use crate::refusal::{Fault, Refusal};

/// Bytes in a command: the kind, the identifier, and the chute, high byte first.
pub const LENGTH: usize = 16;
/// The largest chute; the smallest is 1, and 0 stands for none.
pub const LARGEST_CHUTE: u16 = 512;
/// The largest worker count; the smallest is 1.
pub const LARGEST_COUNT: u16 = 64;

/// What a command does; the value of each is its number in documents 01 and 02.
#[derive(Clone, Copy, Debug, PartialEq, Eq, Hash)]
pub enum Kind {
    Insert = 1,
    Delete = 2,
    Read = 3,
    Update = 4,
    /// Sets the worker count.
    Workers = 5,
    /// Puts the store into the image.
    Checkpoint = 6,
}

impl Kind {
    pub const ALL: [Kind; 6] = [
        Kind::Insert,
        Kind::Delete,
        Kind::Read,
        Kind::Update,
        Kind::Workers,
        Kind::Checkpoint,
    ];
    /// Those that name an item.
    pub const OF_ITEMS: [Kind; 4] = [Kind::Insert, Kind::Delete, Kind::Read, Kind::Update];

    pub fn from_number(number: u8) -> Option<Kind> {
        Kind::ALL.into_iter().find(|kind| kind.number() == number)
    }

    pub fn number(self) -> u8 {
        self as u8
    }

    /// Whether commands of this kind name an item; the others have thirteen characters 0.
    pub fn names_item(self) -> bool {
        Kind::OF_ITEMS.contains(&self)
    }

    /// Whether commands of this kind carry a chute.
    pub fn carries_chute(self) -> bool {
        matches!(self, Kind::Insert | Kind::Update)
    }

    /// Refusal 10, and of a worker change 14: whether commands of this kind carry such a chute, 0
    /// for none, or such a count.
    fn check_last(self, number: u16) -> Result<(), Refusal> {
        let (right, refusal) = match self {
            Kind::Insert | Kind::Update => ((1..=LARGEST_CHUTE).contains(&number), Refusal::Chute),
            Kind::Delete | Kind::Read | Kind::Checkpoint => (number == 0, Refusal::Chute),
            Kind::Workers => ((1..=LARGEST_COUNT).contains(&number), Refusal::Count),
        };
        right.then_some(()).ok_or(refusal)
    }
}

#[derive(Clone, Copy, Debug, PartialEq, Eq)]
pub struct Command {
    pub kind: Kind,
    /// 0 where the kind names no item; key 0 is a real item too.
    pub key: u64,
    /// Of a worker change, the new count; 0 where the kind carries no chute.
    pub chute: u16,
}

impl Command {
    /// A command that puts the store into the image.
    pub const CHECKPOINT: Command = Command {
        kind: Kind::Checkpoint,
        key: 0,
        chute: 0,
    };

    /// A command that sets the worker count.
    pub fn workers(count: u16) -> Command {
        Command {
            kind: Kind::Workers,
            key: 0,
            chute: count,
        }
    }

    /// The count that a worker change sets: 1 to 64 where opening accepted it.
    pub fn count(&self) -> Option<u16> {
        match self.kind {
            Kind::Workers => Some(self.chute),
            Kind::Insert | Kind::Delete | Kind::Read | Kind::Update | Kind::Checkpoint => None,
        }
    }
}

/// Reads one command, or refuses it with 7, 8 or 13, 9, and 10 or 14, tested in that order. Its
/// place, which its list gives, is 0 here.
pub fn read(part: &[u8; LENGTH]) -> Result<Command, Fault> {
    let [kind, text @ .., high, low] = part;
    let kind = Kind::from_number(*kind).ok_or(Refusal::Kind)?;
    let key = match kind {
        Kind::Workers | Kind::Checkpoint => identifier::read_none(text).map(|()| 0)?,
        Kind::Insert | Kind::Delete | Kind::Read | Kind::Update => identifier::read(text)?,
    };
    let chute = u16::from_be_bytes([*high, *low]);
    kind.check_last(chute)?;
    Ok(Command { kind, key, chute })
}

/// Reads a list of commands, or refuses it at its first refused command, with its place. Its
/// length is a multiple of 16, which is tested before.
pub fn read_list(list: &[u8]) -> Result<Vec<Command>, Fault> {
    let (parts, _) = list.as_chunks();
    parts
        .iter()
        .enumerate()
        .map(|(index, part)| {
            read(part).map_err(|fault| Fault {
                place: index + 1,
                ..fault
            })
        })
        .collect()
}

/// The bytes of a command, right or not.
pub fn encode(kind: u8, text: &[u8], chute: u16) -> Vec<u8> {
    [&[kind], text, &chute.to_be_bytes()].concat()
}

/// Whether two commands must keep their order.
///
/// Of kinds 5 and 6, document 02's A.2 and A.3: each "is dependent on every command". Of inserts and
/// deletes, A.5: "From now on inserts and deletes depend on one another, on kinds 5 and 6, and on any
/// command for their own key; reads and updates of other keys are independent of them." Of the rest,
/// document 01: "two updates of one key; an update and a read of one key. All other
/// pairs are independent."
pub fn dependent(first: &Command, second: &Command) -> bool {
    let same_key = first.key == second.key;
    match (first.kind, second.kind) {
        (Kind::Workers | Kind::Checkpoint, _) | (_, Kind::Workers | Kind::Checkpoint) => true,
        (Kind::Insert | Kind::Delete, Kind::Insert | Kind::Delete) => true,
        (Kind::Insert | Kind::Delete, Kind::Read | Kind::Update)
        | (Kind::Read | Kind::Update, Kind::Insert | Kind::Delete)
        | (Kind::Update, Kind::Update | Kind::Read)
        | (Kind::Read, Kind::Update) => same_key,
        (Kind::Read, Kind::Read) => false,
    }
}

#[cfg(test)]
mod tests {
    use super::*;

    const FIRST: &[u8] = b"AA000000005AA";

    /// A list refused with a number, a place and a character.
    fn refused<T>(refusal: Refusal, place: usize, character: usize) -> Result<T, Fault> {
        Err(Fault {
            refusal,
            place,
            character,
        })
    }

    fn command(kind: Kind, key: u64) -> Command {
        match kind {
            Kind::Workers => Command::workers(7),
            Kind::Checkpoint => Command::CHECKPOINT,
            Kind::Insert | Kind::Update => Command {
                kind,
                key,
                chute: 7,
            },
            Kind::Delete | Kind::Read => Command {
                kind,
                key,
                chute: 0,
            },
        }
    }

    /// Document 01, the two commands of the program's example.
    #[test]
    fn the_commands_of_the_example_are_read() {
        let list = [encode(1, FIRST, 7), encode(3, FIRST, 0)].concat();
        let commands = vec![command(Kind::Insert, 0), command(Kind::Read, 0)];
        assert_eq!(read_list(&list), Ok(commands));
    }

    /// Document 01, the examples of refusals 7 to 10, with the character of document 02's A.1.
    #[test]
    fn the_examples_of_refusal_are_refused() {
        let cases = [
            (encode(0, FIRST, 0), Refusal::Kind, 0),
            (encode(3, b"Aa000000005AA", 0), Refusal::Identifier, 2),
            (encode(3, b"AA00000000xAA", 0), Refusal::Digit, 11),
            (encode(3, b"AA000000004AA", 0), Refusal::CheckDigit, 11),
            (encode(1, FIRST, 513), Refusal::Chute, 0),
            (encode(3, FIRST, 1), Refusal::Chute, 0),
        ];
        for (part, refusal, character) in cases {
            let expected = refused(refusal, 1, character);
            assert_eq!(read_list(&part), expected, "{part:?}");
        }
    }

    /// Document 01 and A.1: 7 is tested first, then 8 or 13, then 9, then 10; the character is 0
    /// with any refusal but 8, 9 and 13.
    #[test]
    fn the_identifier_is_tested_between_the_kind_and_the_chute() {
        let broken: [(&[u8; 13], Refusal, usize); 4] = [
            (b"aAx00000000AA", Refusal::Identifier, 1),
            (b"AAx00000000AA", Refusal::Digit, 3),
            (b"AA000000004AA", Refusal::CheckDigit, 11),
            (b"AA000000005Aa", Refusal::Identifier, 13),
        ];
        for (text, refusal, character) in broken {
            let wrong_kind = read_list(&encode(0, text, 1));
            assert_eq!(wrong_kind, refused(Refusal::Kind, 1, 0));
            let wrong_chute = read_list(&encode(3, text, 1));
            assert_eq!(wrong_chute, refused(refusal, 1, character));
        }
    }

    /// Document 01, section "Command list and store": the ends of the chutes for each kind.
    #[test]
    fn each_kind_takes_its_own_chutes() {
        for kind in Kind::ALL {
            let text = match kind {
                Kind::Workers | Kind::Checkpoint => &identifier::NONE,
                Kind::Insert | Kind::Delete | Kind::Read | Kind::Update => FIRST,
            };
            let accepted = [0, 1, 64, 65, 512, 513, 65_535]
                .map(|chute| read_list(&encode(kind.number(), text, chute)).is_ok());
            let expected = match kind {
                Kind::Insert | Kind::Update => [false, true, true, true, true, false, false],
                Kind::Delete | Kind::Read | Kind::Checkpoint => {
                    [true, false, false, false, false, false, false]
                }
                Kind::Workers => [false, true, true, false, false, false, false],
            };
            assert_eq!(accepted, expected, "{kind:?}");
        }
    }

    /// Document 02, A.2: kind 5 is admitted, kinds 7 and up are not.
    #[test]
    fn a_worker_change_is_read_with_its_count() {
        for count in 1..=64 {
            let part = encode(5, &identifier::NONE, count);
            let commands = read_list(&part).expect("a right command");
            assert_eq!(commands, [Command::workers(count)]);
            assert_eq!(commands[0].count(), Some(count));
        }
        for kind in (0..=u8::MAX).filter(|kind| !(1..=6).contains(kind)) {
            let part = encode(kind, &identifier::NONE, 1);
            assert_eq!(read_list(&part), refused(Refusal::Kind, 1, 0));
        }
        for kind in Kind::ALL.into_iter().filter(|it| *it != Kind::Workers) {
            assert_eq!(command(kind, 5).count(), None);
        }
    }

    /// A.2: 14 with the place and no character, for every other count.
    #[test]
    fn a_count_that_is_not_1_to_64_is_refused_14() {
        let right = encode(5, &identifier::NONE, 64);
        for count in [0].into_iter().chain(65..=u16::MAX) {
            let wrong = encode(5, &identifier::NONE, count);
            let list = [&right[..], &wrong].concat();
            assert_eq!(read_list(&wrong), refused(Refusal::Count, 1, 0));
            assert_eq!(read_list(&list), refused(Refusal::Count, 2, 0));
        }
    }

    /// Document 02, A.3: kind 6 is admitted with chute 0 alone, else 10 with its place.
    #[test]
    fn a_checkpoint_is_read_with_chute_0() {
        let right = encode(6, &identifier::NONE, 0);
        assert_eq!(read_list(&right), Ok(vec![Command::CHECKPOINT]));
        for chute in 1..=u16::MAX {
            let wrong = encode(6, &identifier::NONE, chute);
            let list = [&right[..], &wrong].concat();
            assert_eq!(read_list(&list), refused(Refusal::Chute, 2, 0));
        }
    }

    /// A.2 and A.3: the identifier of kinds 5 and 6 is tested under 8 alone, at every character, before
    /// 14 and 10. The first that is not 0 is told, whatever stands behind it, and no other digit is 0.
    #[test]
    fn a_worker_change_or_checkpoint_with_an_identifier_is_refused_8() {
        for position in 0..identifier::LENGTH {
            for wrong in (0..=u8::MAX).filter(|byte| *byte != b'0') {
                let mut text = identifier::NONE;
                text[position] = wrong;
                let later = [&text[..=position], &FIRST[position + 1..]].concat();
                for text in [&text[..], &later] {
                    for (kind, last) in [(5, 1), (5, 0), (5, 65), (6, 0), (6, 1)] {
                        let list = [encode(3, FIRST, 0), encode(kind, text, last)].concat();
                        let expected = refused(Refusal::Identifier, 2, position + 1);
                        assert_eq!(read_list(&list), expected, "{kind} {text:?} {last}");
                    }
                }
            }
        }
        for kind in [5, 6] {
            let item = read_list(&encode(kind, FIRST, 1));
            assert_eq!(item, refused(Refusal::Identifier, 1, 1));
        }
        for kind in Kind::OF_ITEMS {
            let none = read_list(&encode(kind.number(), &identifier::NONE, 1));
            assert_eq!(none, refused(Refusal::Identifier, 1, 1), "{kind:?}");
        }
    }

    /// Document 01, section "Numbers of refusal": the first refused command, by its place from 1.
    #[test]
    fn a_list_is_refused_at_its_first_refused_command() {
        let right = encode(3, FIRST, 0);
        let digit = encode(3, b"AAx00000000AA", 0);
        let chute = encode(3, FIRST, 1);
        let list = [&right[..], &chute, &digit].concat();
        assert_eq!(read_list(&list), refused(Refusal::Chute, 2, 0));
        let list = [&right[..], &right, &digit, &chute].concat();
        assert_eq!(read_list(&list), refused(Refusal::Digit, 3, 3));
        assert_eq!(read_list(&[]), Ok(vec![]));
    }

    /// Whether a command of kind `first` on key 5 and one on `key` are dependent.
    fn pair(first: Kind, second: Kind, key: u64) -> bool {
        dependent(&command(first, 5), &command(second, key))
    }

    /// Document 01, marked case (f).
    #[test]
    fn two_reads_of_one_key_are_independent() {
        assert!(!pair(Kind::Read, Kind::Read, 5));
    }

    /// Document 01, marked case (g).
    #[test]
    fn an_update_and_a_read_of_one_key_are_dependent() {
        assert!(pair(Kind::Update, Kind::Read, 5));
        assert!(pair(Kind::Read, Kind::Update, 5));
    }

    /// Document 01, marked case (h), as document 02's A.5 has it.
    #[test]
    fn an_insert_and_a_read_of_another_key_are_independent() {
        assert!(!pair(Kind::Insert, Kind::Read, 6));
        assert!(!pair(Kind::Read, Kind::Insert, 6));
    }

    /// Documents 01 and 02, A.5: all pairs of kinds, and whether they are dependent with one key
    /// and with two.
    #[test]
    fn dependence_is_as_the_documents_list_it() {
        use Kind::{Delete, Insert, Read, Update};
        let table = [
            (Insert, Insert, [true, true]),
            (Insert, Delete, [true, true]),
            (Insert, Read, [true, false]),
            (Insert, Update, [true, false]),
            (Delete, Insert, [true, true]),
            (Delete, Delete, [true, true]),
            (Delete, Read, [true, false]),
            (Delete, Update, [true, false]),
            (Read, Insert, [true, false]),
            (Read, Delete, [true, false]),
            (Read, Read, [false, false]),
            (Read, Update, [true, false]),
            (Update, Insert, [true, false]),
            (Update, Delete, [true, false]),
            (Update, Read, [true, false]),
            (Update, Update, [true, false]),
        ];
        for (first, second, [one, two]) in table {
            assert_eq!(pair(first, second, 5), one, "{first:?} {second:?}");
            for key in [0, 4, 6, 5 + (1 << 32), identifier::LARGEST_KEY] {
                assert_eq!(pair(first, second, key), two, "{first:?} {second:?}, {key}");
            }
        }
    }

    /// Document 02, A.2 and A.3: kinds 5 and 6 are dependent on every command, both ways, of whatever
    /// key.
    #[test]
    fn worker_changes_and_checkpoints_are_dependent_on_every_command() {
        for kind in Kind::ALL {
            for key in [0, 5, identifier::LARGEST_KEY] {
                let it = command(kind, key);
                for other in [Command::workers(64), Command::CHECKPOINT] {
                    assert!(dependent(&other, &it), "{it:?}");
                    assert!(dependent(&it, &other), "{it:?}");
                }
            }
        }
    }
}
