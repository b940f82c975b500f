//! Commands of a kind that names no item, right and damaged in their thirteen zeros and their
//! number: alone, at every place of a list, and before and behind every kind of command.

use super::commands::{CHUTE, TEXT, case, with_key};
use super::lists::{everywhere, far, right_commands};
use super::pairs::LOADING;
use super::{
    Case, Sort, dealt, every_byte_everywhere, every_length, opening, random_key, repeat, text,
    with_byte,
};
use crate::command::{Kind, encode};
use crate::identifier::{self, LARGEST_KEY, NONE};
use crate::random::Random;

/// Characters that are not 0: its neighbours, digits, letters, the first byte and the last.
const NOT_0: &[u8; 8] = b"/19AOo\x00\xff";

/// A kind that names no item. Its number stands where others have the chute.
pub struct Zeros {
    pub kind: Kind,
    pub right: fn(&mut Random) -> u16,
    /// At the bounds, of other kinds, and with a right one in one byte only.
    pub wrong: &'static [u16],
}

impl Zeros {
    /// The command with this number, right or not.
    fn with(&self, number: u16) -> Vec<u8> {
        encode(self.kind.number(), &NONE, number)
    }

    /// The command with this number that is right, or has a wrong character.
    pub fn perhaps_wrong(&self, number: u16, random: &mut Random) -> Vec<u8> {
        let position = TEXT + random.below(identifier::LENGTH as u64) as usize;
        match random.below(3) {
            0 => with_byte(&self.with(number), position, random.pick(NOT_0)),
            _ => self.with(number),
        }
    }

    /// Single commands, with this right number where one is damaged; `around` damages it besides.
    pub fn alone<const N: usize>(
        &self,
        right: u16,
        around: fn(&[u8]) -> [Vec<u8>; N],
    ) -> Vec<Vec<u8>> {
        let right = self.with(right);
        let damaged = damaged(&right);
        let parts = [
            (0..=600).map(|number| self.with(number)).collect(),
            self.all_wrong(),
            every_byte_everywhere(&right),
            every_length(&right),
            two_faults(&right),
            damaged.iter().flat_map(|it| around(it)).collect(),
            damaged,
        ];
        parts.concat()
    }

    fn all_wrong(&self) -> Vec<Vec<u8>> {
        self.wrong.iter().map(|it| self.with(*it)).collect()
    }

    /// A command with the identifier of an item.
    pub fn of_an_item(&self, random: &mut Random) -> Vec<u8> {
        let far = random_key(random);
        let key = random.pick(&[0, LARGEST_KEY, far, far]);
        encode(self.kind.number(), &text(key), (self.right)(random))
    }

    /// Lists of right commands with one of this kind at each place, and at places far behind.
    pub fn in_lists(&self, random: &mut Random) -> Vec<Vec<u8>> {
        let damaged = |random: &mut Random, _: &[u8]| self.damaged_once(random);
        [everywhere(random, &damaged), far(random, &damaged)].concat()
    }

    /// Commands that have each character of the identifier wrong once, each wrong number, and
    /// nothing wrong.
    fn damaged_once(&self, random: &mut Random) -> Vec<Vec<u8>> {
        let right = self.with((self.right)(random));
        let mut parts: Vec<Vec<u8>> = (TEXT..CHUTE)
            .map(|position| with_byte(&right, position, random.pick(NOT_0)))
            .collect();
        parts.extend(self.all_wrong());
        parts.push(right);
        parts
    }

    /// A right command before and behind one of each kind, for items of several keys.
    fn pairs(&self, random: &mut Random) -> Vec<Case> {
        let mut pairs = Vec::new();
        for kind in Kind::ALL {
            for key in [0, LARGEST_KEY, random_key(random)] {
                let it = self.with((self.right)(random));
                let other = with_key(random, kind, key);
                pairs.push([&it[..], &other].concat());
                pairs.push([other, it].concat());
            }
        }
        let pairs = pairs.into_iter();
        pairs.map(|pair| dealt(pair, &LOADING)).collect()
    }

    /// These single commands, these lists, and pairs.
    pub fn cases(
        &self,
        alone: Vec<Vec<u8>>,
        lists: Vec<Vec<u8>>,
        random: &mut Random,
    ) -> [(Sort, Vec<Case>); 3] {
        let pairs = repeat(20, random, |random| self.pairs(random));
        [
            (Sort::Commands, alone.into_iter().map(case).collect()),
            (Sort::Lists, lists.into_iter().map(opening).collect()),
            (Sort::Pairs, pairs.concat()),
        ]
    }
}

/// A right command with each wrong character at each position of its identifier.
fn damaged(right: &[u8]) -> Vec<Vec<u8>> {
    (TEXT..CHUTE)
        .flat_map(|position| NOT_0.map(|wrong| with_byte(right, position, wrong)))
        .collect()
}

/// The same at each two positions.
fn two_faults(right: &[u8]) -> Vec<Vec<u8>> {
    let positions = (TEXT..CHUTE).flat_map(|later| (TEXT..later).map(move |first| (first, later)));
    let mut parts = Vec::new();
    for (first, later) in positions {
        for wrong in NOT_0 {
            let once = with_byte(right, first, *wrong);
            parts.push(with_byte(&once, later, NOT_0[later % NOT_0.len()]));
        }
    }
    parts
}

/// Up to 30 of these commands, which are right.
pub fn list_of(random: &mut Random, command: fn(&mut Random) -> Vec<u8>) -> Vec<u8> {
    let count = random.below(31) as usize;
    repeat(count, random, command).concat()
}

/// Each wrong command before and behind each other and each of the others; the first counts.
pub fn two_damaged(random: &mut Random, wrong: &[Vec<u8>], others: &[Vec<u8>]) -> Vec<Vec<u8>> {
    let mut lists = Vec::new();
    for it in wrong {
        for other in others.iter().chain(wrong) {
            let right = right_commands(random, 1);
            lists.push([&right, it, other].map(Vec::as_slice).concat());
            lists.push([other, &right, it].map(Vec::as_slice).concat());
        }
    }
    lists
}

/// What the tests of both kinds look at.
#[cfg(test)]
pub mod testing {
    use std::collections::BTreeMap;

    use super::*;
    use crate::depot::Second;
    use crate::host::Host;
    use crate::met::refused_kind;
    use crate::script::Step;

    /// The answer of the opening that a case makes, and the kind that it refuses, if it does.
    pub fn opened(case: &Case) -> (u64, Option<u8>) {
        let mut host = Host::default();
        let [lend, step @ Step::Open(open), ..] = &case[..] else {
            panic!("no opening: {case:?}");
        };
        host.take(&Second, lend);
        let answer = host.take(&Second, step);
        (answer, refused_kind(&open.commands, answer))
    }

    /// Asserts that cases meet refusal 8 at each character of a kind and the refusal of its number
    /// so often alone, and at every place of a list, and that so many of some sorts are accepted.
    pub fn assert_refusals(
        cases: &[(Sort, Vec<Case>)],
        (kind, number): (Kind, u64),
        alone: usize,
        accepted: &[(Sort, usize)],
    ) {
        let mut counts = BTreeMap::<(&str, u64), usize>::new();
        for (sort, cases) in cases {
            for (answer, refused) in cases.iter().map(opened) {
                if refused == Some(kind.number()) || answer == 0 {
                    *counts.entry((sort.name(), answer)).or_default() += 1;
                }
            }
        }
        println!("{counts:?}");
        let check = |sort: Sort, place: u64, least: usize| {
            let at = |character: u64| (sort.name(), 8 + (place << 8) + (character << 32));
            let wanted = (1..=13).map(at);
            for it in wanted.chain([(sort.name(), number + (place << 8))]) {
                assert!(counts.get(&it) >= Some(&least), "{it:?}");
            }
        };
        check(Sort::Commands, 1, alone);
        for place in (1..=16).chain([255, 256, 257, 4095, 4096]) {
            check(Sort::Lists, place, 1);
        }
        for (sort, least) in accepted {
            assert!(counts[&(sort.name(), 0)] >= *least, "{sort:?}");
        }
    }
}
