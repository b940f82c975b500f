//! Single commands, and commands for lists and pairs.

use super::checkpoints;
use super::counts;
use super::faults::{self, one_fault, two_faults, wrong_at, wrong_check_digits};
use super::{
    Case, dealt, every_byte_everywhere, every_length, random_key, repeat, text, with_byte,
};
use crate::command::{Kind, LARGEST_CHUTE, LARGEST_COUNT, LENGTH, encode};
use crate::identifier::{self, CHECK_DIGIT, LETTERS};
use crate::random::Random;

/// Chutes at their bounds, and with the bound in one byte only.
const CHUTES: [u16; 14] = [
    0, 1, 2, 255, 256, 257, 511, 512, 513, 514, 768, 1024, 32_768, 65_535,
];

/// Right counts of a worker change, small ones and the largest.
const COUNTS: [u16; 10] = [1, 1, 2, 2, 3, 3, 4, 5, 8, 64];

/// Where the identifier stands in a command.
pub const TEXT: usize = 1;
/// Where the chute stands in a command.
pub const CHUTE: usize = 14;

/// Sets of faults are 0 to 31, one bit for each fault; 0 is no fault.
const FAULT_SETS: u8 = 32;
const WRONG_KIND: u8 = 1;
const WRONG_LETTER: u8 = 2;
const WRONG_DIGIT: u8 = 4;
const WRONG_CHECK_DIGIT: u8 = 8;
const WRONG_CHUTE: u8 = 16;
/// The faults, each alone; the middle three are the identifier's.
pub const FAULTS: [u8; 5] = [
    WRONG_KIND,
    WRONG_LETTER,
    WRONG_DIGIT,
    WRONG_CHECK_DIGIT,
    WRONG_CHUTE,
];

pub fn cases(random: &mut Random) -> Vec<Case> {
    let bases = Kind::OF_ITEMS.map(|kind| command(random, kind));
    let parts = [
        repeat(6_000, random, random_command),
        bases
            .iter()
            .flat_map(|base| every_byte_everywhere(base))
            .collect(),
        bases.iter().flat_map(|base| every_length(base)).collect(),
        bases
            .iter()
            .flat_map(|base| every_small_chute(base))
            .collect(),
        repeat(10, random, every_kind_and_chute).concat(),
        repeat(250, random, every_fault_set).concat(),
        with_texts(random, two_faults),
        with_texts(random, every_identifier_fault)
            .iter()
            .flat_map(|command| wrong_around(command))
            .collect(),
        repeat(20, random, |random| every_length(&random_command(random))).concat(),
        repeat(1_000, random, |random| random.bytes(LENGTH)),
    ];
    parts.concat().into_iter().map(case).collect()
}

/// Opens a part and serves it up to its answer, a read one turn further, so that what was read of
/// an insert is seen.
pub fn case(part: Vec<u8>) -> Case {
    dealt(part, &[0, 0, 1, 1, 1, 1])
}

/// A right command on an item, of some kind.
pub fn random_command(random: &mut Random) -> Vec<u8> {
    let kind = random.pick(&Kind::OF_ITEMS);
    command(random, kind)
}

/// A right command of this kind.
pub fn command(random: &mut Random, kind: Kind) -> Vec<u8> {
    let key = random_key(random);
    with_key(random, kind, key)
}

/// A right command of this kind and, where it names an item, key.
pub fn with_key(random: &mut Random, kind: Kind, key: u64) -> Vec<u8> {
    let chute = match kind {
        Kind::Insert | Kind::Update => 1 + random.below(LARGEST_CHUTE.into()) as u16,
        Kind::Delete | Kind::Read => 0,
        Kind::Workers => {
            let count = random_count(random);
            return workers(count);
        }
        Kind::Checkpoint => return checkpoint(0),
    };
    encode(kind.number(), &text(key), chute)
}

/// A worker change with this count, right or not.
pub fn workers(count: u16) -> Vec<u8> {
    encode(Kind::Workers.number(), &identifier::NONE, count)
}

/// A checkpoint with this chute, right if it is 0.
pub fn checkpoint(chute: u16) -> Vec<u8> {
    encode(Kind::Checkpoint.number(), &identifier::NONE, chute)
}

/// A right count, mostly a small one.
pub fn random_count(random: &mut Random) -> u16 {
    match random.below(8) {
        0 => 1 + random.below(LARGEST_COUNT.into()) as u16,
        _ => random.pick(&COUNTS),
    }
}

/// A command that is right, or has one fault or any set of them, or a worker change or checkpoint.
pub fn perhaps_wrong(random: &mut Random) -> Vec<u8> {
    let faults = match random.below(6) {
        0 => random.pick(&FAULTS),
        1 => random.below(FAULT_SETS.into()) as u8,
        2 => return counts::perhaps_wrong(random),
        3 => return checkpoints::perhaps_wrong(random),
        _ => 0,
    };
    with_faults(random, faults)
}

/// A command with these faults.
pub fn with_faults(random: &mut Random, faults: u8) -> Vec<u8> {
    let mut bytes = random_command(random);
    if faults & WRONG_CHUTE != 0 {
        let chute = random.pick(wrong_chutes(bytes[0]));
        bytes[CHUTE..].copy_from_slice(&chute.to_be_bytes());
    }
    if faults & WRONG_CHECK_DIGIT != 0 {
        let digit = &mut bytes[TEXT + CHECK_DIGIT];
        *digit = b'0' + (*digit - b'0' + 1 + random.below(9) as u8) % 10;
    }
    if faults & WRONG_DIGIT != 0 {
        damage(random, &mut bytes, |position| !LETTERS.contains(&position));
    }
    if faults & WRONG_LETTER != 0 {
        damage(random, &mut bytes, |position| LETTERS.contains(&position));
    }
    if faults & WRONG_KIND != 0 {
        bytes[0] = random.pick(&[0, 7, 8, 255]);
    }
    bytes
}

fn wrong_chutes(kind: u8) -> &'static [u16] {
    if kind == Kind::Insert.number() || kind == Kind::Update.number() {
        &[0, 513, 514, 768, 65_535]
    } else {
        &[1, 2, 256, 512, 513, 65_535]
    }
}

/// Puts a wrong character into the identifier of a command, at one of these positions.
fn damage(random: &mut Random, command: &mut [u8], at: fn(usize) -> bool) {
    let positions: Vec<usize> = (0..identifier::LENGTH)
        .filter(|position| at(*position))
        .collect();
    let position = random.pick(&positions);
    command[TEXT + position] = random.pick(wrong_at(position));
}

/// Right commands, each with one of the texts that are made of a right one.
fn with_texts(random: &mut Random, texts: fn(&[u8]) -> Vec<Vec<u8>>) -> Vec<Vec<u8>> {
    texts(&text(random_key(random)))
        .iter()
        .map(|text| with_text(&random_command(random), text))
        .collect()
}

/// A right command with its identifier broken, once for each refusal and character that there is.
pub fn each_character(random: &mut Random, command: &[u8]) -> Vec<Vec<u8>> {
    faults::each_character(random, &command[TEXT..CHUTE])
        .iter()
        .map(|text| with_text(command, text))
        .collect()
}

/// A command with another identifier.
fn with_text(command: &[u8], text: &[u8]) -> Vec<u8> {
    [&command[..TEXT], text, &command[CHUTE..]].concat()
}

/// A right text with each single fault, the check digit's among them.
fn every_identifier_fault(text: &[u8]) -> Vec<Vec<u8>> {
    [one_fault(text), wrong_check_digits(text)].concat()
}

/// A command whose kind is wrong besides, its chute, and both.
fn wrong_around(command: &[u8]) -> [Vec<u8>; 3] {
    let mut chute = command.to_vec();
    chute[CHUTE] = 0xff;
    [with_byte(command, 0, 0), with_byte(&chute, 0, 0), chute]
}

/// `base` with each chute from 0 to 1,024.
fn every_small_chute(base: &[u8]) -> Vec<Vec<u8>> {
    (0..=1024u16)
        .map(|chute| [&base[..CHUTE], &chute.to_be_bytes()].concat())
        .collect()
}

/// One identifier with each of the 256 kinds and each of the listed chutes.
fn every_kind_and_chute(random: &mut Random) -> Vec<Vec<u8>> {
    let text = text(random_key(random));
    CHUTES
        .iter()
        .flat_map(|chute| {
            let with_chute = encode(0, &text, *chute);
            (0..=u8::MAX).map(move |kind| with_byte(&with_chute, 0, kind))
        })
        .collect()
}

fn every_fault_set(random: &mut Random) -> Vec<Vec<u8>> {
    (0..FAULT_SETS)
        .map(|faults| with_faults(random, faults))
        .collect()
}
