//! Lists that are accepted: all short ones, and longer ones by kinds and keys.

use super::super::commands::with_key;
use super::super::lists::with_command;
use super::super::pairs::other_keys;
use super::super::{random_key, repeat};
use crate::bytes::MOST_COMMANDS;
use crate::command::{Kind, LENGTH};
use crate::identifier::{LARGEST_KEY, PAIRS};
use crate::random::Random;

/// Keys of the short lists.
const FEW: [u64; 3] = [0, 4096, LARGEST_KEY];

/// Kinds to pick from.
const READS: &[Kind] = &[Kind::Read];
const UPDATES: &[Kind] = &[Kind::Update];
const NO_INSERTS: &[Kind] = &[Kind::Read, Kind::Update];
const CATALOGUE: &[Kind] = &[
    Kind::Insert,
    Kind::Read,
    Kind::Read,
    Kind::Read,
    Kind::Update,
];
const KINDS: [&[Kind]; 9] = [
    READS,
    UPDATES,
    NO_INSERTS,
    CATALOGUE,
    &[Kind::Insert],
    &[Kind::Delete, Kind::Read],
    &[Kind::Insert, Kind::Delete, Kind::Update],
    &Kind::OF_ITEMS,
    &Kind::ALL,
];

/// Of how many commands one is a worker change or a checkpoint besides; 0 for none.
const BETWEEN: [u64; 5] = [0, 0, 2, 7, 60];
const SELDOM: u64 = 700;

/// So many keys, from the first on, each so far from the next.
#[derive(Clone, Copy)]
struct Keys {
    count: u64,
    first: u64,
    step: u64,
}

const fn keys(count: u64, first: u64, step: u64) -> Keys {
    Keys { count, first, step }
}

/// Few keys and many, next to each other, and equal in their low bits, by 4,093 and by other numbers
/// of places that a table may have.
const SPREAD: [Keys; 18] = [
    keys(1, 0, 0),
    keys(1, LARGEST_KEY, 0),
    keys(2, 0, 4096),
    keys(2, LARGEST_KEY - 1, 1),
    keys(64, 0, PAIRS),
    keys(64, 4095, 4096),
    keys(2048, 0, 1),
    keys(4096, 0, 1),
    keys(4096, 0, 4096),
    keys(4096, 4095, 4096),
    keys(2048, 4095, 4096),
    keys(4096, 0, 4093),
    keys(2048, 4092, 4093),
    keys(1024, 1, 8192),
    keys(1024, 8190, 8191),
    keys(1365, 7, 65_536),
    keys(2048, 0, 1 << 32),
    keys(650, 675, PAIRS * 100_000_000),
];

/// All lists of up to three commands on three items, and of four on two.
pub fn every_short(random: &mut Random) -> Vec<Vec<u8>> {
    let three = alphabet(random, &FEW);
    let two = alphabet(random, &FEW[..2]);
    let lists = (0..=3).map(|length| every_list(&three, length));
    lists.chain([every_list(&two, 4)]).flatten().collect()
}

/// A command of each kind on each of these items, and of those that name none.
fn alphabet(random: &mut Random, keys: &[u64]) -> Vec<Vec<u8>> {
    let items = keys
        .iter()
        .flat_map(|key| Kind::OF_ITEMS.map(|it| (it, *key)));
    let none = [Kind::Workers, Kind::Checkpoint].map(|kind| (kind, 0));
    items
        .chain(none)
        .map(|(kind, key)| with_key(random, kind, key))
        .collect()
}

/// All lists of so many of these commands.
fn every_list(commands: &[Vec<u8>], length: usize) -> Vec<Vec<u8>> {
    (0..length).fold(vec![Vec::new()], |lists, _| {
        let longer = |list: &Vec<u8>| commands.iter().map(|it| [&list[..], it].concat()).collect();
        lists.iter().flat_map::<Vec<Vec<u8>>, _>(longer).collect()
    })
}

/// Lists of many lengths, of all kinds in every mix, on few items and on many.
pub fn mixed(random: &mut Random) -> Vec<Vec<u8>> {
    let mut lists = Vec::new();
    for kinds in KINDS {
        for between in BETWEEN {
            for count in [1, 2, 3, 7, 64, u64::MAX] {
                let length = length(random);
                let pool = repeat(length.min(count as usize), random, key_of_any);
                let key = |random: &mut Random, _| random.pick(&pool);
                lists.push(list(random, length, (kinds, between), key));
            }
        }
    }
    let more = repeat(9, random, |random| (random.pick(&KINDS), random.pick(&FEW)));
    for (kinds, key) in more {
        for length in [127, 128, 255, 256, 257, 1000, 2049] {
            lists.push(list(random, length, (kinds, 0), |_, _| key));
        }
    }
    lists
}

/// The same on items whose keys are alike: with equal rests, or neighbours in every bit.
pub fn alike(random: &mut Random) -> Vec<Vec<u8>> {
    let mut lists = Vec::new();
    for kinds in KINDS {
        for keys in SPREAD {
            let [count, length] = [keys.count.min(2 + random.below(9)), length(random) as u64];
            let key = |random: &mut Random, _| keys.at(random.below(count));
            lists.push(list(random, length as usize, (kinds, 0), key));
        }
        let first = random_key(random);
        let keys = other_keys(random, first);
        let length = 2 * keys.len();
        let key = |_: &mut Random, index: u64| keys[index as usize % keys.len()];
        lists.push(list(random, length, (kinds, 0), key));
    }
    lists
}

/// Mostly a few commands, seldom some hundred.
fn length(random: &mut Random) -> usize {
    let most = random.pick(&[6, 12, 25, 40, 40, 200, 400]);
    random.below(most + 1) as usize
}

/// Key 0, any, or one of a few.
fn key_of_any(random: &mut Random) -> u64 {
    match random.below(3) {
        0 => random.pick(&FEW),
        _ => random_key(random),
    }
}

/// Lists about as long as can be: of updates, of reads and updates and of inserts beside them, with few
/// worker changes and checkpoints between them, on items in turn and in any order; and of other kinds.
pub fn long(random: &mut Random) -> Vec<Vec<u8>> {
    let mut lists = Vec::new();
    for keys in SPREAD {
        let in_turn = |_: &mut Random, index| keys.at(index);
        let in_any_order = |random: &mut Random, _| keys.at(random.below(keys.count));
        let mut push = |random: &mut Random, mix, key: &dyn Fn(&mut Random, u64) -> u64| {
            lists.push(list(random, MOST_COMMANDS, mix, key));
        };
        push(random, (UPDATES, 0), &in_turn);
        push(random, (NO_INSERTS, SELDOM), &in_any_order);
        push(random, (CATALOGUE, SELDOM), &in_turn);
    }
    for mix in [
        (READS, 0),
        (READS, SELDOM),
        (KINDS[7], 0),
        (KINDS[8], 0),
        (READS, 2),
    ] {
        lists.push(list(random, MOST_COMMANDS, mix, |random, _| {
            random_key(random)
        }));
        lists.push(list(random, MOST_COMMANDS - 1, mix, |random, _| {
            random.pick(&FEW)
        }));
    }
    lists
}

/// As long a list, of any kinds in any mix, on any number of items from one to as many as commands.
pub fn any_long(random: &mut Random) -> Vec<u8> {
    let mix = (
        random.pick(&KINDS),
        random.pick(&[0, 7, 60, SELDOM, SELDOM]),
    );
    let most = 1 << random.below(13);
    let spread = random.pick(&SPREAD);
    let pool = repeat(most, random, random_key);
    match random.below(2) {
        0 => list(random, MOST_COMMANDS, mix, |random, _| random.pick(&pool)),
        _ => list(random, MOST_COMMANDS, mix, |random, _| {
            spread.at(random.below(most as u64))
        }),
    }
}

/// As long a list of reads of any items but the first and the last.
fn reads(random: &mut Random) -> Vec<u8> {
    let key = |random: &mut Random, _| 1 + random.below(LARGEST_KEY - 1);
    list(random, MOST_COMMANDS, (READS, 0), key)
}

/// Such a list, of which two are replaced by commands that depend on one another alone, as far apart as
/// can be and less far.
pub fn far_apart(random: &mut Random) -> Vec<Vec<u8>> {
    let reads = reads(random);
    let last = MOST_COMMANDS - 1;
    let indexes = [
        [0, last],
        [0, last - 1],
        [1, last],
        [0, 2048],
        [2047, last],
        [100, 356],
        [last - 1, last],
    ];
    let pairs = [
        (Kind::Update, Kind::Update, 0),
        (Kind::Insert, Kind::Read, 0),
        (Kind::Delete, Kind::Insert, LARGEST_KEY),
        (Kind::Insert, Kind::Delete, LARGEST_KEY),
    ];
    let mut lists = Vec::new();
    for (first, second, key) in pairs {
        for [index, later] in indexes {
            let once = with_command(&reads, index, &with_key(random, first, 0));
            lists.push(with_command(&once, later, &with_key(random, second, key)));
        }
    }
    lists
}

/// Such a list with a worker change or a checkpoint, far behind three updates of one item, which alone
/// stand later than in round 1; and with one at the first place, behind which all others stand.
pub fn parted(random: &mut Random) -> Vec<Vec<u8>> {
    let reads = reads(random);
    let last = MOST_COMMANDS - 1;
    let mut lists = Vec::new();
    for kind in [Kind::Workers, Kind::Checkpoint] {
        let it = with_key(random, kind, 0);
        for [first, at] in [[0, last], [0, last - 1], [0, 2048], [2000, last], [0, 300]] {
            let updated = (first..first + 3).fold(reads.clone(), |list, index| {
                with_command(&list, index, &with_key(random, Kind::Update, 0))
            });
            lists.push(with_command(&updated, at, &it));
        }
        lists.push(with_command(&reads, 0, &it));
    }
    lists
}

impl Keys {
    /// The key of an index, which begins again behind the last.
    fn at(&self, index: u64) -> u64 {
        self.first + index % self.count * self.step
    }
}

/// A list of so many commands of these kinds, with others between them; the key of an index is given.
fn list(
    random: &mut Random,
    length: usize,
    (kinds, between): (&[Kind], u64),
    key: impl Fn(&mut Random, u64) -> u64,
) -> Vec<u8> {
    let mut list = Vec::with_capacity(length * LENGTH);
    for index in 0..length as u64 {
        let kind = match between {
            1.. if random.below(between) == 0 => random.pick(&[Kind::Workers, Kind::Checkpoint]),
            _ => random.pick(kinds),
        };
        let key = key(random, index);
        list.extend(with_key(random, kind, key));
    }
    list
}
