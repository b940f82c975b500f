//! Lists of commands of every length, with lent lists whose lengths are right and wrong.

use super::super::with_byte;
use super::{plan, right_list};
use crate::bytes::{MOST_COMMANDS, NUMBER};
use crate::calls::ROUND_COUNT;
use crate::command::LENGTH;
use crate::random::Random;
use crate::script::Plan;

/// Lengths of the list for the number of rounds, the right one first.
const NUMBERS: [usize; 6] = [ROUND_COUNT, 0, 1, 7, 9, 16];
/// Two to the 16th, as many as a number of two bytes tells from one another.
const TWO_BYTES: usize = 1 << 16;

pub fn plans(random: &mut Random) -> Vec<Plan> {
    [no_multiples(random), too_many(random), wrong(random)].concat()
}

/// Refusal 6: each length of the two lists, right and wrong, for lists of which no command, the first
/// or the last is refused.
fn wrong(random: &mut Random) -> Vec<Plan> {
    let mut plans = Vec::new();
    for count in [0, 1, 2, 3, 8, 100, MOST_COMMANDS] {
        for commands in perhaps_refused(right_list(random, count)) {
            for length in around(count * NUMBER) {
                for number in NUMBERS {
                    plans.push(plan(random, commands.clone(), length, number));
                }
            }
        }
    }
    plans
}

/// Lengths of a list: the right one, one and two bytes less and more, half, and far too many.
fn around(right: usize) -> Vec<usize> {
    let by = |by: isize| right.checked_add_signed(by);
    let near = [0, -1, -2, -3, 1, 2, 3].into_iter().filter_map(by);
    let far = [
        0,
        right / 2,
        2 * right,
        right + 8,
        8 * right + 16,
        right + TWO_BYTES,
    ];
    let mut lengths: Vec<usize> = near.chain(far).collect();
    lengths.sort();
    lengths.dedup();
    lengths
}

/// A list, and where it has commands, the same with its first and with its last refused.
fn perhaps_refused(list: Vec<u8>) -> Vec<Vec<u8>> {
    let kinds = [0, list.len().saturating_sub(LENGTH)];
    let refused = kinds.map(|at| (!list.is_empty()).then(|| with_byte(&list, at, 0)));
    refused
        .into_iter()
        .flatten()
        .chain([list.clone()])
        .collect()
}

/// Refusal 4, before 5 and 6.
fn no_multiples(random: &mut Random) -> Vec<Plan> {
    let most = MOST_COMMANDS * LENGTH;
    let short = (1..64usize).filter(|length| !length.is_multiple_of(LENGTH));
    let long = [most - 1, most + 1, most + 15, most + 17, 2 * most + 1];
    let mut plans = Vec::new();
    for length in short.chain(long) {
        let mut commands = right_list(random, length / LENGTH + 1);
        commands.truncate(length);
        let right = length / LENGTH * NUMBER;
        for (length, number) in lent(right) {
            plans.push(plan(random, commands.clone(), length, number));
        }
    }
    plans
}

/// Refusal 5, before 6 and those of commands.
fn too_many(random: &mut Random) -> Vec<Plan> {
    let mut plans = Vec::new();
    let few = [MOST_COMMANDS + 1, MOST_COMMANDS + 2, 2 * MOST_COMMANDS];
    let longest = [TWO_BYTES, TWO_BYTES + 2, TWO_BYTES + MOST_COMMANDS];
    for count in few.into_iter().chain(longest) {
        let list = right_list(random, 64).repeat(count / 64 + 1);
        let lists = perhaps_refused(list[..count * LENGTH].to_vec());
        let [tried, every] = if count < TWO_BYTES { [3, 1] } else { [1, 5] };
        for commands in lists.into_iter().rev().take(tried) {
            for (length, number) in lent(count * NUMBER).step_by(every) {
                plans.push(plan(random, commands.clone(), length, number));
            }
        }
    }
    plans
}

/// Lengths of the two lent lists, first the right ones; at last for as many commands as two bytes tell.
fn lent(right: usize) -> impl Iterator<Item = (usize, usize)> {
    let lengths = [
        right,
        right + NUMBER,
        right.saturating_sub(1),
        0,
        MOST_COMMANDS * NUMBER,
        right % (TWO_BYTES * NUMBER),
    ];
    let numbers = |length| [ROUND_COUNT, 7].map(|number| (length, number));
    lengths.into_iter().flat_map(numbers)
}
