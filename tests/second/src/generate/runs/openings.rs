//! Openings: settings and commands that are accepted, and ones that are refused in several ways at
//! once.

use crate::bytes::{KEY, MOST_COMMANDS, NUMBER, STATE};
use crate::command::{Kind, LENGTH};
use crate::generate::commands::{perhaps_wrong, with_key};
use crate::generate::{images, random_key, repeat};
use crate::identifier::LARGEST_KEY;
use crate::image::RECORD;
use crate::play::{Difference, Play};
use crate::random::Random;
use crate::refusal::answer_words;
use crate::run::Settings;
use crate::script::{Open, Step};
use crate::text::input;

/// Graph sizes at the ends, and on both sides of a word of the sets.
const SIZES: [u64; 15] = [1, 2, 3, 4, 5, 6, 8, 12, 63, 64, 65, 127, 128, 129, 150];
const WORKERS: [u64; 8] = [1, 2, 3, 4, 5, 8, 63, 64];
const ROOMS: [u64; 8] = [1, 1, 2, 2, 3, 4, 16, 64];
/// Commands of a run that is not long.
const MANY: u64 = 40;

/// Kinds to pick from: those of items alike, mostly independent ones, mostly inserts, and all kinds.
const KINDS: [&[Kind]; 5] = [
    &Kind::OF_ITEMS,
    &[Kind::Read, Kind::Update],
    &[
        Kind::Read,
        Kind::Update,
        Kind::Read,
        Kind::Update,
        Kind::Read,
        Kind::Insert,
    ],
    &[Kind::Insert, Kind::Insert, Kind::Delete, Kind::Read],
    &[
        Kind::Insert,
        Kind::Delete,
        Kind::Read,
        Kind::Read,
        Kind::Update,
        Kind::Update,
        Kind::Workers,
        Kind::Checkpoint,
    ],
];

#[derive(Clone)]
pub struct Opening {
    pub size: u64,
    pub workers: u64,
    pub room: u64,
    pub commands: Vec<u8>,
}

impl Opening {
    /// Settings of every size, with up to some 40 commands.
    pub fn any(random: &mut Random) -> Opening {
        let room = match random.below(16) {
            0 => random.pick(&[4095, 4096]),
            1 => 1 + random.below(4096),
            _ => random.pick(&ROOMS),
        };
        let count = match random.below(4) {
            0 => random.below(4),
            _ => random.below(MANY),
        };
        Opening {
            size: one_of(random, &SIZES, 150),
            workers: one_of(random, &WORKERS, 64),
            room,
            commands: commands(random, count as usize),
        }
    }

    /// Few records, workers and commands.
    pub fn small(random: &mut Random) -> Opening {
        let count = random.below(7) as usize;
        Opening {
            size: 1 + random.below(4),
            workers: 1 + random.below(3),
            room: 1 + random.below(3),
            commands: commands(random, count),
        }
    }

    /// Large graphs, with more commands than they have records.
    pub fn wide(random: &mut Random) -> Opening {
        let size = random.pick(&SIZES[8..]);
        let count = size + random.below(20);
        Opening {
            size,
            workers: one_of(random, &WORKERS, 64),
            room: random.pick(&ROOMS),
            commands: commands(random, count as usize),
        }
    }

    /// Many commands, up to as many as there can be.
    pub fn long(number: u64, random: &mut Random) -> Opening {
        let count = [4096, 4095, 1000, 300][number as usize % 4];
        let ends = number.is_multiple_of(5);
        Opening {
            size: if ends {
                150
            } else {
                one_of(random, &SIZES, 150)
            },
            workers: if ends { 64 } else { 1 + random.below(6) },
            room: if ends { 4096 } else { 1 + random.below(4096) },
            commands: if number.is_multiple_of(3) {
                commands_on(random, count, &many_keys)
            } else {
                commands(random, count)
            },
        }
    }

    /// The lengths of state, keys, chutes, answers and image that are lent to it.
    pub fn lengths(&self) -> [usize; 5] {
        let room = self.room as usize;
        let count = self.commands.len() / LENGTH;
        let image = (room + 1) * RECORD;
        [STATE, room * KEY, room * NUMBER, count * NUMBER, image]
    }

    pub fn step(self) -> Step {
        self.step_with(None)
    }

    /// Opens from an image.
    pub fn step_from(self, source: Vec<u8>) -> Step {
        self.step_with(Some(source))
    }

    fn step_with(self, source: Option<Vec<u8>>) -> Step {
        Step::Open(Open {
            settings: [self.size, self.workers, self.room],
            commands: self.commands,
            source,
        })
    }

    /// Lends what it needs and opens from an image.
    pub fn steps_from(self, source: Vec<u8>) -> [Step; 2] {
        [Step::Lend(self.lengths()), self.step_from(source)]
    }

    /// Lends what it needs and opens.
    pub fn steps(self) -> [Step; 2] {
        [Step::Lend(self.lengths()), self.step()]
    }

    /// Lends what it needs and opens, which is accepted.
    pub fn open(self, play: &mut Play) -> Result<(), Difference> {
        accepted(play.take_all(self.steps())?)
    }

    /// The same from an image.
    pub fn open_from(self, source: Vec<u8>, play: &mut Play) -> Result<(), Difference> {
        accepted(play.take_all(self.steps_from(source))?)
    }

    /// The input of the program that opens so and then has this schedule.
    pub fn input(&self, schedule: &[u8]) -> Vec<u8> {
        let settings = Settings {
            size: self.size as u8,
            workers: self.workers as u8,
            room: self.room as u16,
        };
        input::encode(settings, &self.commands, schedule)
    }
}

fn accepted(answer: u64) -> Result<(), Difference> {
    match answer {
        0 => Ok(()),
        answer => Err(format!(
            "a right opening, on both sides: {}",
            answer_words(answer)
        )),
    }
}

/// An opening with any set of faults, perhaps none; every other one is from an image, which may be
/// right too.
pub fn refused(random: &mut Random, play: &mut Play) -> Result<(), Difference> {
    let mut opening = Opening::any(random);
    let mut lengths = opening.lengths();
    let source = images::perhaps_wrong(random, opening.room as u16);
    let faults = random.below(64) & random.below(64);
    if faults & 1 != 0 {
        opening.size = random.pick(&[0, 151, 152, 255, 256, 257, 1 << 32, u64::MAX]);
    }
    if faults & 2 != 0 {
        opening.workers = random.pick(&[0, 65, 66, 255, 256, 257, (1 << 32) + 1, u64::MAX]);
    }
    if faults & 4 != 0 {
        opening.room = random.pick(&[0, 4097, 65_535, 65_536, 65_537, (1 << 32) + 1, u64::MAX]);
    }
    if faults & 8 != 0 {
        damage_list(random, &mut opening.commands);
    }
    if faults & 16 != 0 {
        let length = &mut lengths[random.below(5) as usize];
        *length = length.saturating_add_signed(random.pick(&[-16, -8, -2, -1, 1, 2, 8, 16]));
    }
    if faults & 32 != 0 {
        opening.commands.extend(perhaps_wrong(random));
        lengths[3] += NUMBER;
        let more = random.below(4) as usize;
        opening.commands.extend(commands(random, more));
        lengths[3] += more * NUMBER;
    }
    play.take(Step::Lend(lengths))?;
    play.take(match random.below(2) {
        0 => opening.step(),
        _ => opening.step_from(source),
    })?;
    Ok(())
}

/// Right commands on few keys, so that dependence and every answer happen.
pub fn commands(random: &mut Random, count: usize) -> Vec<u8> {
    let mut pool = vec![0, LARGEST_KEY];
    pool.extend(repeat(5, random, random_key));
    let keys = 1 + random.below(7) as usize;
    commands_on(random, count, &|random| random.pick(&pool[..keys]))
}

/// A list whose length is no multiple of 16, or that has more commands than there can be.
fn damage_list(random: &mut Random, commands: &mut Vec<u8>) {
    match random.below(8) {
        0 => *commands = random_commands(random, MOST_COMMANDS + 1),
        1 => {
            *commands = random_commands(random, MOST_COMMANDS);
            commands.extend(random.bytes(1));
        }
        _ => commands.extend(vec![3; 1 + random.below(31) as usize]),
    }
}

/// One command as often as asked.
fn random_commands(random: &mut Random, count: usize) -> Vec<u8> {
    commands(random, 1).repeat(count)
}

fn commands_on(random: &mut Random, count: usize, key: &dyn Fn(&mut Random) -> u64) -> Vec<u8> {
    let kinds = random.pick(&KINDS);
    (0..count)
        .flat_map(|_| {
            let key = key(random);
            let kind = random.pick(kinds);
            with_key(random, kind, key)
        })
        .collect()
}

/// A key of some two thousand.
fn many_keys(random: &mut Random) -> u64 {
    random.below(2000) * 22_848_799_999
}

/// One of the numbers, or any from 1 to the most.
fn one_of(random: &mut Random, numbers: &[u64], most: u64) -> u64 {
    match random.below(4) {
        0 => 1 + random.below(most),
        _ => random.pick(numbers),
    }
}
