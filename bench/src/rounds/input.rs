//! The lists of which rounds are found.

use second::bytes::MOST_COMMANDS;
use second::command::{self, Kind};
use second::identifier::{LARGEST_KEY, NONE, PAIRS};
use second::random::Random;

use crate::input::{different_keys, encode};

/// Keys so far apart are equal modulo 4,093 and modulo 4,096: a table with so many buckets has them
/// all in one.
const FAR: u64 = 4093 * 4096;
/// In a list with commands of no item, one in this many is one.
const FENCE_EVERY: u64 = 64;

/// A list's name, and the list as bytes.
pub type Named = (&'static str, Vec<u8>);

/// Full lists: from one that has an item for each command to those of one item, then those whose keys
/// are hard on a table.
pub fn lists() -> [Named; 8] {
    let random = &mut Random::new(2026);
    let each = different_keys(random, MOST_COMMANDS);
    let reads_and_updates = [Kind::Read, Kind::Update];
    let in_a_row = |apart: u64| -> Vec<u64> {
        let first = LARGEST_KEY / 2;
        (0..MOST_COMMANDS as u64)
            .map(|index| first + index * apart)
            .collect()
    };
    [
        ("an item each", one_each(random, &each)),
        ("500 items", drawn(random, &Kind::OF_ITEMS, &each[..500])),
        ("64 items", drawn(random, &Kind::OF_ITEMS, &each[..64])),
        (
            "500 items, kinds 5 and 6 too",
            with_fences(random, &each[..500]),
        ),
        (
            "one item, reads and updates",
            drawn(random, &reads_and_updates, &each[..1]),
        ),
        ("one item, reads", drawn(random, &[Kind::Read], &each[..1])),
        (
            "an item each, serials in a row",
            one_each(random, &in_a_row(PAIRS)),
        ),
        (
            "an item each, all in one bucket",
            one_each(random, &in_a_row(FAR)),
        ),
    ]
}

/// Commands of any kind that names an item, one for each key.
fn one_each(random: &mut Random, keys: &[u64]) -> Vec<u8> {
    let commands = keys.iter().map(|key| {
        let kind = random.pick(&Kind::OF_ITEMS);
        of_item(random, kind, *key)
    });
    commands.flatten().collect()
}

/// Commands of some of the kinds, and of some of the items.
fn drawn(random: &mut Random, kinds: &[Kind], keys: &[u64]) -> Vec<u8> {
    let commands = (0..MOST_COMMANDS).map(|_| {
        let (kind, key) = (random.pick(kinds), random.pick(keys));
        of_item(random, kind, key)
    });
    commands.flatten().collect()
}

/// The same with a worker change or a checkpoint now and then.
fn with_fences(random: &mut Random, keys: &[u64]) -> Vec<u8> {
    let commands = (0..MOST_COMMANDS).map(|_| match random.below(2 * FENCE_EVERY) {
        0 => command::encode(Kind::Workers.number(), &NONE, 1),
        1 => command::encode(Kind::Checkpoint.number(), &NONE, 0),
        _ => {
            let (kind, key) = (random.pick(&Kind::OF_ITEMS), random.pick(keys));
            of_item(random, kind, key)
        }
    });
    commands.flatten().collect()
}

/// A command of an item, with a chute where its kind carries one.
fn of_item(random: &mut Random, kind: Kind, key: u64) -> Vec<u8> {
    let chute = if kind.carries_chute() {
        1 + random.below(u64::from(command::LARGEST_CHUTE)) as u16
    } else {
        0
    };
    encode(kind, key, chute)
}

#[cfg(test)]
mod tests {
    use std::collections::BTreeSet;

    use super::*;
    use second::command::Command;

    /// How many commands, items and kinds a list has.
    fn counted(commands: &[Command]) -> [usize; 3] {
        let with_item = commands.iter().filter(|it| it.kind.names_item());
        let items: BTreeSet<u64> = with_item.map(|it| it.key).collect();
        let kinds: BTreeSet<u8> = commands.iter().map(|it| it.kind.number()).collect();
        [commands.len(), items.len(), kinds.len()]
    }

    #[test]
    fn the_lists_are_what_they_are_called() {
        let lists = lists().map(|(_, list)| command::read_list(&list).expect("it is accepted"));
        let expected = [
            [4096, 4096, 4],
            [4096, 500, 4],
            [4096, 64, 4],
            [4096, 500, 6],
            [4096, 1, 2],
            [4096, 1, 1],
            [4096, 4096, 4],
            [4096, 4096, 4],
        ];
        assert_eq!(lists.each_ref().map(|list| counted(list)), expected);
        let [.., serials, bucket] = &lists;
        assert!(serials.windows(2).all(|it| it[1].key - it[0].key == 676));
        for modulus in [4093, 4096] {
            let first = bucket[0].key % modulus;
            assert!(bucket.iter().all(|it| it.key % modulus == first));
        }
    }
}
