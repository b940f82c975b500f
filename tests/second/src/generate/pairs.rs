//! Pairs of right commands, dependent and independent.

use super::commands::with_key;
use super::{Case, dealt, random_key, repeat};
use crate::command::Kind;
use crate::identifier::LARGEST_KEY;
use crate::random::Random;

/// Bits that a key may have.
const KEY_BITS: u32 = 46;

/// The loader's turns that take and link a record, step on it with another and link that.
pub const LOADING: [u8; 5] = [0; 5];

pub fn cases(random: &mut Random) -> Vec<Case> {
    let pairs = repeat(20, random, every_kind_pair).concat().into_iter();
    pairs.map(|pair| dealt(pair, &LOADING)).collect()
}

/// All pairs of kinds of items, each with one key twice and with two keys.
fn every_kind_pair(random: &mut Random) -> Vec<Vec<u8>> {
    kind_pairs()
        .into_iter()
        .flat_map(|kinds| every_key_pair(random, kinds))
        .collect()
}

fn kind_pairs() -> Vec<(Kind, Kind)> {
    Kind::OF_ITEMS
        .iter()
        .flat_map(|first| Kind::OF_ITEMS.map(|second| (*first, second)))
        .collect()
}

fn every_key_pair(random: &mut Random, kinds: (Kind, Kind)) -> Vec<Vec<u8>> {
    let key = random_key(random);
    other_keys(random, key)
        .into_iter()
        .map(|other| {
            [
                with_key(random, kinds.0, key),
                with_key(random, kinds.1, other),
            ]
            .concat()
        })
        .collect()
}

/// The key itself, one far from it, its neighbours in every bit, and the two ends.
pub fn other_keys(random: &mut Random, key: u64) -> Vec<u64> {
    let mut keys = vec![key, random_key(random), 0, LARGEST_KEY];
    keys.extend((0..KEY_BITS).map(|bit| key ^ (1 << bit)));
    keys.retain(|key| *key <= LARGEST_KEY);
    keys
}
