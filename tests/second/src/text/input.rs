//! The binary input of the program `depot`: settings, commands and a schedule, with the program's
//! refusals in words.

use std::fmt;

use crate::bytes::{self, MOST_ROOM, MOST_SIZE, MOST_WORKERS};
use crate::command::{self, Command, Kind, LARGEST_COUNT, LENGTH};
use crate::identifier;
use crate::refusal::{Fault, Refusal};
use crate::run::{Settings, largest_count};

/// The longest input.
pub const LONGEST: usize = 65_536;
/// Bytes before the first command.
pub const HEADER: usize = 6;
/// Document 01's example: size 2, 1 worker, room 4, an insert and a read, 5 turns of the loader and
/// the 14 of the worker that document 02's A.8 leaves of 15.
pub const EXAMPLE: &[u8; 57] = b"\x02\x01\x00\x04\x00\x02\
    \x01AA000000005AA\x00\x07\x03AA000000005AA\x00\x00\
    \0\0\0\0\0\x01\x01\x01\x01\x01\x01\x01\x01\x01\x01\x01\x01\x01\x01";

/// An input that the program accepts.
#[derive(Clone, Debug, PartialEq, Eq)]
pub struct Input {
    pub settings: Settings,
    pub commands: Vec<Command>,
    pub schedule: Vec<u8>,
}

/// Why the program refuses an input: the number, and what is wrong.
#[derive(Clone, Debug, PartialEq, Eq)]
pub struct Refused {
    pub refusal: Refusal,
    words: String,
}

impl fmt::Display for Refused {
    fn fmt(&self, f: &mut fmt::Formatter) -> fmt::Result {
        write!(f, "refused {}: {}", self.refusal.number(), self.words)
    }
}

impl From<Refused> for String {
    fn from(refused: Refused) -> String {
        refused.to_string()
    }
}

impl Input {
    /// Reads an input, or refuses it as the program does. The tests stand in its order; no input
    /// of the length that is accepted has room for more than 4,096 commands.
    pub fn read(bytes: &[u8]) -> Result<Input, Refused> {
        check_length(bytes.len())?;
        let short = |words: String| refused(Refusal::ListLength, words);
        let (header, rest) = bytes
            .split_first_chunk::<HEADER>()
            .ok_or_else(|| short(format!("{} bytes, fewer than {HEADER}", bytes.len())))?;
        let [size, workers, room_high, room_low, count_high, count_low] = *header;
        let count = usize::from(u16::from_be_bytes([count_high, count_low]));
        let (list, schedule) = rest.split_at_checked(count * LENGTH).ok_or_else(|| {
            let last = rest.len() / LENGTH + 1;
            short(format!(
                "{count} commands are counted, and the input ends in command {last}"
            ))
        })?;
        let room = u16::from_be_bytes([room_high, room_low]);
        let settings = check_settings(size.into(), workers.into(), room.into())?;
        let commands = command::read_list(list).map_err(|fault| list_fault(list, fault))?;
        let parties: Vec<u64> = schedule.iter().copied().map(u64::from).collect();
        let schedule = check_schedule(&parties, largest_count(settings.workers, &commands))?;
        Ok(Input {
            settings,
            commands,
            schedule,
        })
    }

    /// The largest worker count of the opening and of the list.
    pub fn largest(&self) -> u8 {
        largest_count(self.settings.workers, &self.commands)
    }

    /// Whether the list has a checkpoint.
    pub fn has_checkpoints(&self) -> bool {
        self.commands.iter().any(|it| it.kind == Kind::Checkpoint)
    }

    /// Whether the list changes the worker count.
    pub fn changes_workers(&self) -> bool {
        self.commands.iter().any(|it| it.kind == Kind::Workers)
    }

    /// The bytes that the program reads, or its refusal of so many.
    pub fn bytes(&self) -> Result<Vec<u8>, Refused> {
        let commands: Vec<Vec<u8>> = self.commands.iter().map(command_bytes).collect();
        let bytes = encode(self.settings, &commands.concat(), &self.schedule);
        check_length(bytes.len())?;
        Ok(bytes)
    }
}

/// The bytes of an input, right or not.
pub fn encode(settings: Settings, commands: &[u8], schedule: &[u8]) -> Vec<u8> {
    let count = (commands.len() / LENGTH) as u16;
    let mut bytes = vec![settings.size, settings.workers];
    bytes.extend(settings.room.to_be_bytes());
    bytes.extend(count.to_be_bytes());
    bytes.extend(commands);
    bytes.extend(schedule);
    bytes
}

fn command_bytes(command: &Command) -> Vec<u8> {
    let text = super::identifier_text(command);
    command::encode(command.kind.number(), text.as_bytes(), command.chute)
}

/// Refusals 1 to 3.
pub fn check_settings(size: u64, workers: u64, room: u64) -> Result<Settings, Refused> {
    bytes::settings(size, workers, room).map_err(|refusal| {
        let words = match refusal {
            Refusal::Size => format!("graph size {size} is not 1 to {MOST_SIZE}"),
            Refusal::Workers => format!("workers {workers} is not 1 to {MOST_WORKERS}"),
            _ => format!("room {room} is not 1 to {MOST_ROOM}"),
        };
        refused(refusal, words)
    })
}

/// Refusal 11, on party numbers of any size, by the largest worker count.
pub fn check_schedule(parties: &[u64], largest: u8) -> Result<Vec<u8>, Refused> {
    let check = |(index, party): (usize, &u64)| match u8::try_from(*party) {
        Ok(party) if party <= largest => Ok(party),
        _ => {
            let turn = index + 1;
            let words =
                format!("turn {turn} is party {party}'s, above the largest worker count {largest}");
            Err(refused(Refusal::Party, words))
        }
    };
    parties.iter().enumerate().map(check).collect()
}

/// Refusal 5 of the program, for a number of bytes.
pub fn check_length(length: usize) -> Result<(), Refused> {
    if length > LONGEST {
        let words = format!("an input of {length} bytes, over {LONGEST}");
        return Err(refused(Refusal::TooManyCommands, words));
    }
    Ok(())
}

/// What is wrong with the refused command of a list.
fn list_fault(list: &[u8], fault: Fault) -> Refused {
    let part = &list[(fault.place - 1) * LENGTH..][..LENGTH];
    let chute = u16::from_be_bytes([part[14], part[15]]);
    let words = match fault.refusal {
        Refusal::Kind => format!("kind {} is not 1 to 6", part[0]),
        Refusal::Chute => format!("chute {chute} is wrong for kind {}", part[0]),
        Refusal::Count => format!("worker count {chute} is not 1 to {LARGEST_COUNT}"),
        _ => {
            let shown = |byte: &u8| byte.escape_ascii().to_string();
            let characters: Vec<String> = part[1..=identifier::LENGTH].iter().map(shown).collect();
            let words = match Kind::from_number(part[0]) {
                Some(Kind::Workers | Kind::Checkpoint) => super::not_0(&characters, fault),
                _ => super::identifier_fault(&characters, fault),
            };
            format!("identifier \"{}\": {words}", characters.concat())
        }
    };
    refused(fault.refusal, format!("command {}: {words}", fault.place))
}

fn refused(refusal: Refusal, words: String) -> Refused {
    Refused { refusal, words }
}

#[cfg(test)]
mod tests {
    use super::*;
    use crate::bytes::{KEY, NUMBER, STATE};
    use crate::depot::Second;
    use crate::host::Host;
    use crate::script::{Open, Step};

    /// The example with one byte changed.
    fn with_byte(position: usize, byte: u8) -> Vec<u8> {
        let mut bytes = EXAMPLE.to_vec();
        bytes[position] = byte;
        bytes
    }

    #[test]
    fn the_example_is_read_and_written() {
        let input = Input::read(EXAMPLE).unwrap();
        assert_eq!((input.commands.len(), input.schedule.len()), (2, 19));
        assert_eq!(input.bytes(), Ok(EXAMPLE.to_vec()));
    }

    /// Bytes of the example that are changed, and what is said of them.
    const CHANGED: &[(usize, u8, &str)] = &[
        (0, 151, "refused 1: graph size 151 is not 1 to 150"),
        (0, 0, "refused 1: graph size 0 is not 1 to 150"),
        (1, 65, "refused 2: workers 65 is not 1 to 64"),
        (2, 16, "refused 3: room 4100 is not 1 to 4096"),
        (22, 7, "refused 7: command 2: kind 7 is not 1 to 6"),
        (
            22,
            5,
            "refused 8: command 2: identifier \"AA000000005AA\": character 1 is `A`, not 0",
        ),
        (
            24,
            b'a',
            "refused 8: command 2: identifier \"Aa000000005AA\": \
             character 2 is `a`, not a letter A to Z",
        ),
        (
            17,
            b'x',
            "refused 13: command 1: identifier \"AA00000000xAA\": character 11 is `x`, not a digit",
        ),
        (
            30,
            0xc4,
            "refused 13: command 2: identifier \"AA00000\\xc4005AA\": \
             character 8 is `\\xc4`, not a digit",
        ),
        (
            17,
            b'4',
            "refused 9: command 1: identifier \"AA000000004AA\": \
             character 11, check digit 4, should be 5",
        ),
        (
            20,
            2,
            "refused 10: command 1: chute 519 is wrong for kind 1",
        ),
        (
            43,
            2,
            "refused 11: turn 6 is party 2's, above the largest worker count 1",
        ),
    ];

    /// Each refusal of the program, with its number and what is wrong.
    #[test]
    fn each_refusal_is_told() {
        let told = |bytes: &[u8], words: &str| {
            assert_eq!(Input::read(bytes).unwrap_err().to_string(), words);
        };
        told(
            &[0; 65_537],
            "refused 5: an input of 65537 bytes, over 65536",
        );
        told(&[0; 5], "refused 4: 5 bytes, fewer than 6");
        let words = "refused 4: 2 commands are counted, and the input ends in command 2";
        told(&EXAMPLE[..37], words);
        for (position, byte, words) in CHANGED {
            told(&with_byte(*position, *byte), words);
        }
    }

    /// The example with a worker change for its second command, which has this count, and one more
    /// turn.
    fn with_workers(count: u16, party: u8) -> Vec<u8> {
        let change = command::encode(5, &identifier::NONE, count);
        [&EXAMPLE[..22], &change, &EXAMPLE[38..], &[party]].concat()
    }

    /// Document 02, A.2: the refusals of a worker change, and 11 by the largest count.
    #[test]
    fn a_refused_worker_change_is_told() {
        let told = |bytes: &[u8], words: &str| {
            assert_eq!(Input::read(bytes).unwrap_err().to_string(), words);
        };
        let mut wrong = with_workers(65, 1);
        told(
            &wrong,
            "refused 14: command 2: worker count 65 is not 1 to 64",
        );
        wrong[33] = b'x';
        told(
            &wrong,
            "refused 8: command 2: identifier \"0000000000x00\": character 11 is `x`, not 0",
        );
        told(
            &with_workers(3, 4),
            "refused 11: turn 20 is party 4's, above the largest worker count 3",
        );
        let input = Input::read(&with_workers(3, 3)).unwrap();
        assert_eq!((input.largest(), input.changes_workers()), (3, true));
        assert_eq!(input.bytes(), Ok(with_workers(3, 3)));
        let input = Input::read(EXAMPLE).unwrap();
        assert_eq!((input.largest(), input.changes_workers()), (1, false));
    }

    /// The refusal number that opening, and else dealing, gives for an input of the example's
    /// length.
    fn called(bytes: &[u8]) -> u64 {
        let room = usize::from(u16::from_be_bytes([bytes[2], bytes[3]]));
        let steps = [
            Step::Lend([
                STATE,
                room * KEY,
                room * NUMBER,
                2 * NUMBER,
                16 * (room + 1),
            ]),
            Step::Open(Open {
                settings: [bytes[0].into(), bytes[1].into(), room as u64],
                commands: bytes[6..38].to_vec(),
                source: None,
            }),
            Step::Advance(bytes[38..].to_vec()),
        ];
        let mut host = Host::default();
        let mut answers = steps.iter().map(|step| host.take(&Second, step));
        answers.find(|answer| *answer != 0).unwrap_or(0) % 256
    }

    /// Document 01, "The program `depot`": a whole input is refused as opening and dealing are.
    #[test]
    fn refusals_of_whole_inputs_are_those_of_the_calls() {
        for position in (0..4).chain(6..EXAMPLE.len()) {
            for byte in 0..=u8::MAX {
                let bytes = with_byte(position, byte);
                let read = Input::read(&bytes).map_err(|refused| refused.refusal.number());
                assert_eq!(read.err().unwrap_or(0), called(&bytes), "{bytes:?}");
            }
        }
    }

    #[test]
    fn the_ends_of_the_settings_are_accepted() {
        for (size, workers, room) in [(1, 1, 1), (150, 64, 4096)] {
            assert!(check_settings(size, workers, room).is_ok());
        }
        let words = "refused 2: workers 18446744073709551615 is not 1 to 64";
        let refused = check_settings(1, u64::MAX, 1).unwrap_err();
        assert_eq!(refused.to_string(), words);
    }

    #[test]
    fn an_input_is_as_long_as_the_program_reads_and_no_longer() {
        let mut input = Input::read(EXAMPLE).unwrap();
        input.schedule = vec![0; LONGEST - 38];
        assert_eq!(Input::read(&input.bytes().unwrap()), Ok(input.clone()));
        input.schedule.push(0);
        let refused = input.bytes().unwrap_err();
        assert_eq!(refused.refusal, Refusal::TooManyCommands);
    }
}
