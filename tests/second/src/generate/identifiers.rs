//! Texts that are read and keys that are written.

use super::faults::{one_fault, two_faults};
use super::{
    Case, LONGEST, every_byte_everywhere, every_length, random_key, repeat, text, with_byte,
};
use crate::bytes::KEY;
use crate::identifier::{CHECK_DIGIT, LARGEST_KEY, LENGTH};
use crate::random::Random;
use crate::script::Step;

/// Texts of document 01, right and wrong, one with the serial of a published example, and ones
/// that tell refusals 8, 9 and 13 apart.
const NAMED: [&[u8; LENGTH]; 9] = [
    b"AA000000005AA",
    b"ZZ999999995ZZ",
    b"AA123456785AA",
    b"RR473124829GB",
    b"Aa000000005AA",
    b"AA000000004AA",
    b"AA00000000xAA",
    b"AAx00000000AA",
    b"aAx00000000AA",
];

/// Keys at the ends, and where a digit or a letter carries into the next.
const KEYS: [u64; 16] = [
    0,
    1,
    25,
    26,
    675,
    676,
    67_599_999_999,
    67_600_000_000,
    (1 << 32) - 1,
    1 << 32,
    LARGEST_KEY - 1,
    LARGEST_KEY,
    LARGEST_KEY + 1,
    1 << 46,
    1 << 63,
    u64::MAX,
];

/// Faulty texts are cut and lengthened to each length below this one.
const SHORT: usize = 21;

pub fn read_cases(random: &mut Random) -> Vec<Case> {
    let bases = bases(random);
    let named = [NAMED.map(|text| text.to_vec()).to_vec(), bases.clone()].concat();
    let other_lengths: Vec<Case> = named
        .iter()
        .flat_map(|text| (0..=LONGEST).map(|length| read(text.clone(), length)))
        .collect();
    let texts = [
        repeat(5_000, random, random_text),
        bases
            .iter()
            .flat_map(|base| every_byte_everywhere(base))
            .collect(),
        bases.iter().flat_map(|base| every_length(base)).collect(),
        repeat(500, random, random_text)
            .iter()
            .flat_map(|text| every_check_digit(text))
            .collect(),
        repeat(4_000, random, twice_damaged),
        two_faults(&random_text(random)),
        one_fault(&random_text(random))
            .iter()
            .flat_map(|text| every_length(text).into_iter().take(SHORT))
            .collect(),
        repeat(1_000, random, |random| random.bytes(LENGTH)),
    ];
    let texts = texts.concat().into_iter();
    [other_lengths, texts.map(|text| read(text, KEY)).collect()].concat()
}

pub fn write_cases(random: &mut Random) -> Vec<Case> {
    let keys = [
        repeat(20_000, random, random_key),
        repeat(1_000, random, Random::number),
    ];
    let keys = keys.concat().into_iter().map(|key| write(key, LENGTH));
    let ends = KEYS
        .into_iter()
        .flat_map(|key| (0..=LONGEST).map(move |length| write(key, length)));
    keys.chain(ends).collect()
}

/// Reads a text into a list of this length.
pub fn read(text: Vec<u8>, length: usize) -> Case {
    vec![Step::ReadIdentifier(text, length)]
}

/// Writes a key into a list of this length.
pub fn write(key: u64, length: usize) -> Case {
    vec![Step::WriteIdentifier(key, length)]
}

/// Right texts to be damaged, the first and the last among them.
fn bases(random: &mut Random) -> Vec<Vec<u8>> {
    [
        vec![text(0), text(LARGEST_KEY)],
        repeat(6, random, random_text),
    ]
    .concat()
}

fn random_text(random: &mut Random) -> Vec<u8> {
    text(random_key(random))
}

/// A text with each of the ten check digits, from 0 on.
pub fn every_check_digit(text: &[u8]) -> Vec<Vec<u8>> {
    (b'0'..=b'9')
        .map(|digit| with_byte(text, CHECK_DIGIT, digit))
        .collect()
}

/// A right text with two bytes replaced, each by one at or next to a bound.
fn twice_damaged(random: &mut Random) -> Vec<u8> {
    let base = random_text(random);
    let once = damaged(random, &base);
    damaged(random, &once)
}

fn damaged(random: &mut Random, base: &[u8]) -> Vec<u8> {
    let position = random.below(LENGTH as u64) as usize;
    with_byte(base, position, random.pick(b"/0459:@AMZ[`az{"))
}
