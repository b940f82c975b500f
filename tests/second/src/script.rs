//! The steps of one compared run: calls, and what the caller does to its lists between them. A
//! step is shown as one line of words, so that a file of lines is a run that can be made again.

use std::fmt;

use crate::calls::{Asked, Given};
use crate::hex::{from_hex, hex};
use crate::random::Random;

/// The lists that a caller keeps. `Source` is the image that the last opening was given, `Schedule`
/// what a dispatch writes its turns into, `Planned` the commands whose rounds are asked for, `Rounds`
/// what these are written into, and `Out` what the number of turns or rounds is written into and what
/// a report or an identifier call writes.
#[derive(Clone, Copy, Debug, PartialEq, Eq)]
pub enum List {
    State,
    Keys,
    Chutes,
    Answers,
    Image,
    Commands,
    Source,
    Schedule,
    Planned,
    Rounds,
    Out,
}

impl List {
    pub const ALL: [List; 11] = [
        List::State,
        List::Keys,
        List::Chutes,
        List::Answers,
        List::Image,
        List::Commands,
        List::Source,
        List::Schedule,
        List::Planned,
        List::Rounds,
        List::Out,
    ];
    /// Those that are handed back with a schedule, all but the last five.
    pub const HANDED: [List; 6] = {
        let [handed @ .., _, _, _, _, _] = List::ALL;
        handed
    };

    pub fn name(self) -> &'static str {
        match self {
            List::State => "state",
            List::Keys => "keys",
            List::Chutes => "chutes",
            List::Answers => "answers",
            List::Image => "image",
            List::Commands => "commands",
            List::Source => "source",
            List::Schedule => "schedule",
            List::Planned => "planned",
            List::Rounds => "rounds",
            List::Out => "out",
        }
    }

    fn parse(word: &str) -> Option<List> {
        List::ALL.into_iter().find(|list| list.name() == word)
    }
}

/// What a call that opens is given.
#[derive(Clone, Debug, PartialEq, Eq)]
pub struct Open {
    pub settings: Asked,
    pub commands: Vec<u8>,
    /// The image to open from, if there is one.
    pub source: Option<Vec<u8>>,
}

impl Open {
    pub fn given(&self) -> Given<'_> {
        Given {
            commands: &self.commands,
            source: self.source.as_deref(),
            settings: self.settings,
        }
    }

    /// Reads settings and commands from the words that show them.
    fn parse(settings: [&str; 3], commands: &str, source: Option<Vec<u8>>) -> Option<Step> {
        let [size, workers, room] = settings.map(|word| word.parse().ok());
        Some(Step::Open(Open {
            settings: [size?, workers?, room?],
            commands: from_hex(commands)?,
            source,
        }))
    }
}

/// What a dispatch is lent besides the lists of its run.
#[derive(Clone, Copy, Debug, PartialEq, Eq)]
pub struct Dispatch {
    /// Of the list for its turns.
    pub length: usize,
    /// The seed of what this list holds before.
    pub seed: u64,
    /// The length of the list for the number of turns.
    pub count: usize,
}

impl Dispatch {
    /// What the list for its turns holds before.
    pub fn contents(&self) -> Vec<u8> {
        Random::new(self.seed).bytes(self.length)
    }
}

/// What a call for the rounds of a list is given and lent.
#[derive(Clone, Debug, PartialEq, Eq)]
pub struct Plan {
    pub commands: Vec<u8>,
    /// Of the list for the rounds.
    pub length: usize,
    /// The seed of what both lists hold before.
    pub seed: u64,
    /// The length of the list for the number of rounds.
    pub count: usize,
}

impl Plan {
    /// What the list for the rounds holds before, and that for their number.
    pub fn contents(&self) -> [Vec<u8>; 2] {
        let random = &mut Random::new(self.seed);
        [self.length, self.count].map(|length| random.bytes(length))
    }

    /// Reads a plan from the words that show it.
    fn parse(commands: &str, length: &str, seed: &str, count: &str) -> Option<Plan> {
        Some(Plan {
            commands: from_hex(commands)?,
            length: length.parse().ok()?,
            seed: seed.parse().ok()?,
            count: count.parse().ok()?,
        })
    }
}

#[derive(Clone, Debug, PartialEq, Eq)]
pub enum Step {
    /// Lends state, keys, chutes, answers and image of these lengths in bytes, with any contents.
    Lend([usize; 5]),
    Open(Open),
    Advance(Vec<u8>),
    Dispatch(Dispatch),
    /// With a list of this length, as the next four calls.
    StepsNeeded(usize),
    PendingCounts(usize),
    WorkerStatus(usize),
    ReadIdentifier(Vec<u8>, usize),
    WriteIdentifier(u64, usize),
    RoundsNeeded(Plan),
    /// Changes the bits of one byte.
    Change {
        list: List,
        offset: usize,
        bits: u8,
    },
    /// Cuts or lengthens a list.
    Resize(List, usize),
    /// Keeps a copy of all lists.
    Keep,
    /// Takes the copy back.
    Restore,
    /// Holds the answers against the serial run, and the table and the image against that of the
    /// written commands alone.
    Serial,
    /// Holds the answers and the table against serial runs of a whole list, of which the run has
    /// the last commands.
    Unbroken(Vec<u8>),
    /// Runs the program on this input.
    Program(Vec<u8>),
}

impl Step {
    /// Reads a step from the line that shows it.
    pub fn parse(line: &str) -> Option<Step> {
        let words: Vec<&str> = line.split(' ').collect();
        match *words.as_slice() {
            ["lend", a, b, c, d, e] => Some(Step::Lend([
                a.parse().ok()?,
                b.parse().ok()?,
                c.parse().ok()?,
                d.parse().ok()?,
                e.parse().ok()?,
            ])),
            ["open", size, workers, room, commands] => {
                Open::parse([size, workers, room], commands, None)
            }
            ["open_from", size, workers, room, commands, source] => {
                Open::parse([size, workers, room], commands, Some(from_hex(source)?))
            }
            ["change", list, offset, bits] => Some(Step::Change {
                list: List::parse(list)?,
                offset: offset.parse().ok()?,
                bits: bits.parse().ok()?,
            }),
            _ => Step::parse_short(&words),
        }
    }

    fn parse_short(words: &[&str]) -> Option<Step> {
        match *words {
            ["advance", schedule] => Some(Step::Advance(from_hex(schedule)?)),
            ["dispatch", length, seed, count] => Some(Step::Dispatch(Dispatch {
                length: length.parse().ok()?,
                seed: seed.parse().ok()?,
                count: count.parse().ok()?,
            })),
            ["steps_needed", length] => Some(Step::StepsNeeded(length.parse().ok()?)),
            ["pending_counts", length] => Some(Step::PendingCounts(length.parse().ok()?)),
            ["worker_status", length] => Some(Step::WorkerStatus(length.parse().ok()?)),
            ["read_identifier", text, length] => {
                Some(Step::ReadIdentifier(from_hex(text)?, length.parse().ok()?))
            }
            ["write_identifier", key, length] => Some(Step::WriteIdentifier(
                key.parse().ok()?,
                length.parse().ok()?,
            )),
            ["rounds_needed", commands, length, seed, count] => Some(Step::RoundsNeeded(
                Plan::parse(commands, length, seed, count)?,
            )),
            ["resize", list, length] => {
                Some(Step::Resize(List::parse(list)?, length.parse().ok()?))
            }
            ["keep"] => Some(Step::Keep),
            ["restore"] => Some(Step::Restore),
            ["serial"] => Some(Step::Serial),
            ["unbroken", commands] => Some(Step::Unbroken(from_hex(commands)?)),
            ["program", input] => Some(Step::Program(from_hex(input)?)),
            _ => None,
        }
    }
}

impl fmt::Display for Open {
    fn fmt(&self, f: &mut fmt::Formatter) -> fmt::Result {
        let [size, workers, room] = self.settings;
        let words = format!("{size} {workers} {room} {}", hex(&self.commands));
        match &self.source {
            None => write!(f, "open {words}"),
            Some(source) => write!(f, "open_from {words} {}", hex(source)),
        }
    }
}

impl fmt::Display for Plan {
    fn fmt(&self, f: &mut fmt::Formatter) -> fmt::Result {
        let Plan {
            length,
            seed,
            count,
            ..
        } = self;
        let commands = hex(&self.commands);
        write!(f, "rounds_needed {commands} {length} {seed} {count}")
    }
}

impl fmt::Display for Step {
    fn fmt(&self, f: &mut fmt::Formatter) -> fmt::Result {
        match self {
            Step::Lend([a, b, c, d, e]) => write!(f, "lend {a} {b} {c} {d} {e}"),
            Step::Open(open) => write!(f, "{open}"),
            Step::Advance(schedule) => write!(f, "advance {}", hex(schedule)),
            Step::Dispatch(Dispatch {
                length,
                seed,
                count,
            }) => write!(f, "dispatch {length} {seed} {count}"),
            Step::StepsNeeded(length) => write!(f, "steps_needed {length}"),
            Step::PendingCounts(length) => write!(f, "pending_counts {length}"),
            Step::WorkerStatus(length) => write!(f, "worker_status {length}"),
            Step::ReadIdentifier(text, length) => {
                write!(f, "read_identifier {} {length}", hex(text))
            }
            Step::WriteIdentifier(key, length) => write!(f, "write_identifier {key} {length}"),
            Step::RoundsNeeded(plan) => write!(f, "{plan}"),
            Step::Change { list, offset, bits } => {
                write!(f, "change {} {offset} {bits}", list.name())
            }
            Step::Resize(list, length) => write!(f, "resize {} {length}", list.name()),
            Step::Keep => write!(f, "keep"),
            Step::Restore => write!(f, "restore"),
            Step::Serial => write!(f, "serial"),
            Step::Unbroken(commands) => write!(f, "unbroken {}", hex(commands)),
            Step::Program(input) => write!(f, "program {}", hex(input)),
        }
    }
}

#[cfg(test)]
mod tests {
    use super::*;

    #[test]
    fn a_step_is_read_from_the_line_that_shows_it() {
        let steps = [
            Step::Lend([1, 2, 3, 4, 5]),
            Step::Open(Open {
                settings: [u64::MAX, 2, 3],
                commands: vec![],
                source: None,
            }),
            Step::Open(Open {
                settings: [1, u64::MAX, 3],
                commands: vec![6],
                source: Some(vec![0, 255]),
            }),
            Step::Advance(vec![0, 255]),
            Step::Dispatch(Dispatch {
                length: 1,
                seed: u64::MAX,
                count: 8,
            }),
            Step::StepsNeeded(9),
            Step::PendingCounts(150),
            Step::WorkerStatus(128),
            Step::ReadIdentifier(vec![65], 8),
            Step::WriteIdentifier(7, 13),
            Step::Change {
                list: List::Commands,
                offset: 5,
                bits: 255,
            },
            Step::Resize(List::Out, 0),
            Step::Keep,
            Step::Restore,
            Step::Serial,
            Step::Unbroken(vec![6, 0]),
            Step::Program(vec![1, 2]),
        ];
        for step in steps {
            assert_eq!(Step::parse(&step.to_string()), Some(step));
        }
    }

    #[test]
    fn a_plan_is_read_from_the_line_that_shows_it() {
        for commands in [vec![], vec![3, 255]] {
            let step = Step::RoundsNeeded(Plan {
                commands,
                length: 1,
                seed: u64::MAX,
                count: 8,
            });
            assert_eq!(Step::parse(&step.to_string()), Some(step));
        }
        let step = Step::parse("rounds_needed 03ff 4 1 8").expect("a step");
        assert_eq!(step.to_string(), "rounds_needed 03ff 4 1 8");
    }

    #[test]
    fn every_list_is_read_by_its_name() {
        for list in List::ALL {
            let step = Step::Resize(list, 1);
            assert_eq!(Step::parse(&step.to_string()), Some(step));
        }
    }

    #[test]
    fn other_lines_are_no_step() {
        let rounds = ["rounds_needed", "rounds_needed 0 0 0 8"];
        let others = ["", "open", "advance", "advance 0", "change nothing 1 1"];
        for line in others.into_iter().chain(rounds) {
            assert_eq!(Step::parse(line), None, "{line}");
        }
    }
}
