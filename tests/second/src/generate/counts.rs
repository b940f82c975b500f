//! Worker changes, right and damaged.

use super::commands::{CHUTE, TEXT, random_command, random_count, workers};
use super::zeros::{Zeros, list_of, two_damaged};
use super::{Case, Sort, repeat, with_byte};
use crate::command::{Kind, encode};
use crate::identifier::{self, NONE};
use crate::random::Random;

const WRONG: [u16; 9] = [0, 65, 66, 128, 255, 256, 257, 16_384, 65_535];
const CHANGES: Zeros = Zeros {
    kind: Kind::Workers,
    right: random_count,
    wrong: &WRONG,
};

pub fn cases(random: &mut Random) -> [(Sort, Vec<Case>); 3] {
    let lists = lists(random);
    CHANGES.cases(alone(random), lists, random)
}

/// Lists with worker changes, right and refused.
pub fn lists(random: &mut Random) -> Vec<Vec<u8>> {
    let lists = [
        repeat(400, random, list_with_changes),
        CHANGES.in_lists(random),
        two_wrong(random),
    ];
    lists.concat()
}

/// A worker change that is right, or has a wrong count, a wrong character or both.
pub fn perhaps_wrong(random: &mut Random) -> Vec<u8> {
    let count = match random.below(2) {
        0 => random.pick(&WRONG),
        _ => random_count(random),
    };
    CHANGES.perhaps_wrong(count, random)
}

/// Single commands.
fn alone(random: &mut Random) -> Vec<Vec<u8>> {
    let mut parts = CHANGES.alone(3, wrong_around);
    parts.extend(repeat(300, random, |it| CHANGES.of_an_item(it)));
    parts.extend(Kind::OF_ITEMS.map(|kind| encode(kind.number(), &NONE, 1)));
    parts
}

/// A command whose count is wrong besides, its kind, and both.
fn wrong_around(part: &[u8]) -> [Vec<u8>; 3] {
    let count = with_byte(part, CHUTE, 1);
    [with_byte(&count, 0, 7), with_byte(part, 0, 7), count]
}

/// Right commands, every third or so a worker change.
fn list_with_changes(random: &mut Random) -> Vec<u8> {
    list_of(random, |random| match random.below(3) {
        0 => workers(random_count(random)),
        _ => random_command(random),
    })
}

/// A wrong count or character before and behind a wrong chute, text or kind.
fn two_wrong(random: &mut Random) -> Vec<Vec<u8>> {
    const ITEM: &[u8; identifier::LENGTH] = b"AA000000005AA";
    let wrong = [
        workers(0),
        workers(65),
        with_byte(&workers(1), TEXT, b'A'),
        with_byte(&workers(65), TEXT + 7, b'1'),
    ];
    let others = [
        encode(1, ITEM, 513),
        encode(3, b"AA00000000xAA", 0),
        encode(3, b"AA000000004AA", 0),
        encode(7, &NONE, 1),
    ];
    two_damaged(random, &wrong, &others)
}

#[cfg(test)]
mod tests {
    use std::collections::BTreeMap;

    use super::*;
    use crate::command::LENGTH;
    use crate::generate::commands::case;
    use crate::generate::zeros::testing::{assert_refusals, opened};

    /// 8 at each character, also 3 to 11, and 14, alone and at every place of a list.
    #[test]
    fn every_refusal_of_a_worker_change_is_met_at_every_place() {
        let cases = cases(&mut Random::new(1));
        let accepted = [(Sort::Commands, 64), (Sort::Lists, 400), (Sort::Pairs, 600)];
        assert_refusals(&cases, (Kind::Workers, 14), 200, &accepted);
    }

    /// Counts 1 to 64 are accepted, and every other one of those tried is refused 14.
    #[test]
    fn every_small_count_is_tried() {
        let parts = alone(&mut Random::new(1));
        let counts = |part: &&Vec<u8>| part.len() == LENGTH && part[..CHUTE] == workers(0)[..CHUTE];
        let mut met = BTreeMap::new();
        for part in parts.iter().filter(counts) {
            let count = u16::from_be_bytes([part[CHUTE], part[CHUTE + 1]]);
            met.insert(count, opened(&case(part.clone())).0);
        }
        assert!((0..=600).chain(WRONG).all(|count| met.contains_key(&count)));
        for (count, answer) in met {
            let right = (1..=64).contains(&count);
            assert_eq!(answer, if right { 0 } else { 14 + 256 }, "{count}");
        }
    }
}
