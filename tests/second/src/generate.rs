//! The inputs that are compared, made from a seed: right ones, and ones that are wrong in every
//! position, at every bound and in several ways at once.

mod checkpoints;
mod commands;
mod counts;
mod faults;
mod identifiers;
pub mod images;
mod lists;
mod pairs;
mod rounds;
pub mod runs;
mod sums;
mod zeros;

use crate::identifier::{self, LARGEST_KEY};
use crate::random::Random;
use crate::script::Step;
use runs::openings::Opening;
use runs::programs;

/// Wrong lengths go from 0 to this one.
const LONGEST: usize = 40;

/// What an input is.
#[derive(Clone, Copy, Debug, PartialEq, Eq)]
pub enum Sort {
    /// A text that is read.
    Identifiers,
    /// A key that is written.
    Keys,
    /// A single command that is opened, and served where it is accepted.
    Commands,
    /// A list of commands that is opened.
    Lists,
    /// Two commands that are loaded, so that the second's set tells whether they are dependent.
    Pairs,
    /// An image that is opened from, with a list.
    Images,
    /// Calls that go on from one another.
    Runs,
    /// Runs in which an item is announced again.
    Announcements,
    /// Runs in which reads are done beside other commands.
    Reads,
    /// Runs in which reads and updates pass inserts and deletes of other items, or are passed.
    Passes,
    /// Runs in which the worker count changes.
    Shifts,
    /// Runs with checkpoints.
    Checkpoints,
    /// Runs that are opened from the image of another's checkpoint, with the rest of its list.
    Swaps,
    /// Runs that are dispatched.
    Dispatches,
    /// Runs whose lists are handed back with commands that opening refuses.
    Untested,
    /// An input of the program.
    Programs,
    /// A list whose rounds are asked for.
    Rounds,
}

impl Sort {
    pub const ALL: [Sort; 17] = [
        Sort::Identifiers,
        Sort::Keys,
        Sort::Commands,
        Sort::Lists,
        Sort::Pairs,
        Sort::Images,
        Sort::Runs,
        Sort::Announcements,
        Sort::Reads,
        Sort::Passes,
        Sort::Shifts,
        Sort::Checkpoints,
        Sort::Swaps,
        Sort::Dispatches,
        Sort::Untested,
        Sort::Programs,
        Sort::Rounds,
    ];

    pub fn name(self) -> &'static str {
        match self {
            Sort::Identifiers => "identifiers",
            Sort::Keys => "keys",
            Sort::Commands => "commands",
            Sort::Lists => "lists",
            Sort::Pairs => "pairs",
            Sort::Images => "images",
            Sort::Runs => "runs",
            Sort::Announcements => "announcements",
            Sort::Reads => "reads",
            Sort::Passes => "passes",
            Sort::Shifts => "shifts",
            Sort::Checkpoints => "checkpoints",
            Sort::Swaps => "swaps",
            Sort::Dispatches => "dispatches",
            Sort::Untested => "untested",
            Sort::Programs => "programs",
            Sort::Rounds => "rounds",
        }
    }
}

/// The steps of one input.
pub type Case = Vec<Step>;

/// All inputs but those of `runs::play`, whose steps depend on what the calls before them gave.
pub fn cases(seed: u64) -> Vec<(Sort, Case)> {
    let random = &mut Random::new(seed);
    let sorts = [
        (Sort::Identifiers, identifiers::read_cases(random)),
        (Sort::Keys, identifiers::write_cases(random)),
        (Sort::Commands, commands::cases(random)),
        (Sort::Lists, lists::cases(random)),
        (Sort::Pairs, pairs::cases(random)),
        (Sort::Images, images::cases(random)),
        (Sort::Programs, programs::limits(random)),
    ];
    sorts
        .into_iter()
        .chain(sums::cases(random))
        .chain(counts::cases(random))
        .chain(checkpoints::cases(random))
        .chain([(Sort::Rounds, rounds::cases(random))])
        .flat_map(|(sort, cases)| cases.into_iter().map(move |case| (sort, case)))
        .collect()
}

/// Opens a list of any bytes, with settings that are right and lists as long as it asks for.
fn opening(commands: Vec<u8>) -> Case {
    let opening = Opening {
        size: 2,
        workers: 1,
        room: 1,
        commands,
    };
    opening.steps().to_vec()
}

/// Opens a list of any bytes and deals turns, which are refused where the opening was.
fn dealt(commands: Vec<u8>, schedule: &[u8]) -> Case {
    let mut case = opening(commands);
    case.push(Step::Advance(schedule.to_vec()));
    case
}

fn random_key(random: &mut Random) -> u64 {
    random.below(LARGEST_KEY + 1)
}

/// The text of a key that is not above the largest.
fn text(key: u64) -> Vec<u8> {
    identifier::text(key)
        .expect("the key is not above the largest")
        .to_vec()
}

/// `count` values of `make`.
fn repeat<T>(count: usize, random: &mut Random, make: impl Fn(&mut Random) -> T) -> Vec<T> {
    (0..count).map(|_| make(random)).collect()
}

/// `base` with each of its bytes replaced by each of the 256 bytes.
fn every_byte_everywhere(base: &[u8]) -> Vec<Vec<u8>> {
    (0..base.len())
        .flat_map(|position| (0..=u8::MAX).map(move |byte| with_byte(base, position, byte)))
        .collect()
}

fn with_byte(base: &[u8], position: usize, byte: u8) -> Vec<u8> {
    let mut bytes = base.to_vec();
    bytes[position] = byte;
    bytes
}

/// `base` cut, or lengthened by its own first bytes, to each length from 0 to the longest.
fn every_length(base: &[u8]) -> Vec<Vec<u8>> {
    (0..=LONGEST)
        .map(|length| base.iter().copied().cycle().take(length).collect())
        .collect()
}

#[cfg(test)]
mod tests {
    use std::collections::BTreeMap;
    use std::sync::LazyLock;

    use super::*;
    use crate::command::{Kind, dependent};
    use crate::depot::Second;
    use crate::host::Host;
    use crate::refusal::answer_words;

    /// The caller after a case, and the first refusal that it met, 0 for none.
    fn outcome(case: &Case) -> (Host, u64) {
        let mut host = Host::default();
        let answers: Vec<u64> = case.iter().map(|step| host.take(&Second, step)).collect();
        let refused = answers.into_iter().find(|answer| *answer != 0);
        (host, refused.unwrap_or(0))
    }

    /// How many cases of each sort meet each answer.
    static COUNTS: LazyLock<BTreeMap<(usize, u64), usize>> = LazyLock::new(|| {
        let mut counts = BTreeMap::new();
        for (sort, case) in cases(1) {
            let met = (sort as usize, outcome(&case).1);
            *counts.entry(met).or_default() += 1;
        }
        counts
    });

    #[test]
    fn there_are_enough_cases_and_every_outcome_is_met_often() {
        let mut counts = [[0; 17]; Sort::ALL.len()];
        for ((sort, answer), count) in COUNTS.iter() {
            counts[*sort][*answer as usize % 256] += count;
        }
        let check = |sort: Sort, least: usize, expected: &[usize]| {
            let counts = counts[sort as usize];
            assert!(counts.iter().sum::<usize>() >= least, "{sort:?} {counts:?}");
            for (number, count) in counts.into_iter().enumerate() {
                let enough = if expected.contains(&number) {
                    count >= 100
                } else {
                    count < 10
                };
                assert!(enough, "{sort:?} {number}: {counts:?}");
            }
        };
        check(Sort::Identifiers, 45_000, &[0, 6, 8, 9, 13]);
        check(Sort::Keys, 20_000, &[0, 6, 12]);
        check(Sort::Commands, 60_000, &[0, 4, 7, 8, 9, 10, 13, 14]);
        check(Sort::Lists, 5_000, &[0, 4, 7, 8, 9, 10, 13, 14]);
        check(Sort::Pairs, 10_000, &[0]);
        let numbers = [0, 6, 7, 8, 9, 10, 13, 14, 15, 16];
        check(Sort::Images, 20_000, &numbers);
        let numbers = [0, 4, 5, 6, 7, 8, 9, 10, 13, 14];
        check(Sort::Rounds, 25_000, &numbers);
    }

    /// Each refusal of an identifier with each character that it can have: read alone, in a
    /// command, and at every place of a list.
    #[test]
    fn every_character_is_met_at_every_place() {
        let letters = [1, 2, 12, 13].map(|character| (8, character));
        let digits = (3..=11).map(|character| (13, character));
        let refused: Vec<(u64, u64)> = letters.into_iter().chain(digits).chain([(9, 11)]).collect();
        let check = |sort: Sort, place: u64, least: usize| {
            for (number, character) in &refused {
                let answer = number + (place << 8) + (character << 32);
                let count = COUNTS.get(&(sort as usize, answer)).unwrap_or(&0);
                assert!(*count >= least, "{sort:?} {}", answer_words(answer));
            }
        };
        check(Sort::Identifiers, 0, 400);
        check(Sort::Commands, 1, 400);
        for place in 1..=16 {
            check(Sort::Lists, place, 3);
        }
        for place in [255, 256, 257, 4095, 4096] {
            check(Sort::Lists, place, 1);
        }
    }

    /// After a pair is loaded, record 1 is in the set of record 2 exactly if they are dependent.
    /// Every two kinds are met with one key and with two, and are always dependent there or never.
    #[test]
    fn pairs_show_dependence_and_independence() {
        let mut counts = BTreeMap::<(u8, u8, bool, bool), usize>::new();
        for (_, case) in cases(1).iter().filter(|(sort, _)| *sort == Sort::Pairs) {
            let run = outcome(case).0.run().expect("a right pair is opened");
            let [first, second] = [&run.commands[0], &run.commands[1]];
            let found = run.records.set[2] == [2, 0, 0];
            assert_eq!(found, dependent(first, second));
            assert!(found || run.records.set[2] == [0; 3]);
            let [one, other] = [first, second].map(|it| it.kind.number());
            let met = (one, other, first.key == second.key, found);
            *counts.entry(met).or_default() += 1;
        }
        // A worker change and a checkpoint, whose key counts as 0, are met before and behind items of
        // key 0 and of others, and before one another.
        assert_eq!(counts.len(), 2 * 16 + 2 * 2 * 2 * 4 + 4, "{counts:?}");
        assert!(counts.values().all(|count| *count >= 20), "{counts:?}");
        let of_items = Kind::OF_ITEMS.map(Kind::number);
        for (one, other, _, found) in counts.keys() {
            let items = of_items.contains(one) && of_items.contains(other);
            assert!(*found || items, "{one} {other}");
        }
    }

    /// A right insert that is opened alone is served, so that its key and chute are seen.
    #[test]
    fn a_served_insert_shows_what_was_read() {
        let insert = b"\x01AA000000014AA\x02\x00".to_vec();
        let (host, refused) = outcome(&commands::case(insert));
        let run = host.run().expect("it is opened");
        assert_eq!((refused, run.answers), (0, vec![1000]));
        assert_eq!((run.store.keys, run.store.chutes), (vec![676], vec![512]));
    }

    #[test]
    fn a_seed_gives_the_same_cases_again_and_another_gives_others() {
        assert!(cases(1) == cases(1));
        assert!(cases(1) != cases(2));
    }
}
