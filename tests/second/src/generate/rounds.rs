//! Lists whose rounds are asked for: accepted ones, in `lists`, refused ones, and lent lists of
//! lengths that are wrong, in `lengths`.

#[cfg(test)]
mod flaws;
mod lengths;
mod lists;

use super::commands::{CHUTE, TEXT, checkpoint, command, each_character, random_count, workers};
use super::lists::with_command;
use super::{Case, checkpoints, counts, repeat, with_byte};
use crate::bytes::{MOST_COMMANDS, NUMBER};
use crate::calls::ROUND_COUNT;
use crate::command::{Kind, LENGTH};
use crate::random::Random;
use crate::script::{Plan, Step};

pub fn cases(random: &mut Random) -> Vec<Case> {
    let lists = [
        lists::every_short(random),
        repeat(10, random, lists::mixed).concat(),
        repeat(10, random, lists::alike).concat(),
        lists::long(random),
        repeat(30, random, lists::any_long),
        lists::far_apart(random),
        lists::parted(random),
        super::lists::lists(random),
        counts::lists(random),
        checkpoints::lists(random),
        refused_everywhere(random),
    ];
    let lists = lists.concat().into_iter();
    let mut plans: Vec<Plan> = lists.map(|it| fitting(random, it)).collect();
    plans.extend(lengths::plans(random));
    let steps = plans.into_iter().map(Step::RoundsNeeded);
    steps.map(|step| vec![step]).collect()
}

/// Asks for the rounds of a list, with lent lists as long as it needs them.
fn fitting(random: &mut Random, commands: Vec<u8>) -> Plan {
    let length = commands.len() / LENGTH * NUMBER;
    plan(random, commands, length, ROUND_COUNT)
}

/// The same with lent lists of these lengths, which hold anything.
fn plan(random: &mut Random, commands: Vec<u8>, length: usize, count: usize) -> Plan {
    Plan {
        commands,
        length,
        seed: random.number(),
        count,
    }
}

/// A right list of so many commands of all kinds, on any items.
fn right_list(random: &mut Random, count: usize) -> Vec<u8> {
    repeat(count, random, any_command).concat()
}

fn any_command(random: &mut Random) -> Vec<u8> {
    let kind = random.pick(&Kind::ALL);
    command(random, kind)
}

/// Each refused command at the first place, in the middle and at the last, of short lists and of the
/// longest; and two of them, of which the first counts.
fn refused_everywhere(random: &mut Random) -> Vec<Vec<u8>> {
    let refused = refused_commands(random);
    let mut lists = Vec::new();
    for count in [1, 7, MOST_COMMANDS] {
        let list = right_list(random, count);
        let mut indexes = vec![0, count / 2, count - 1];
        indexes.dedup();
        for it in &refused {
            lists.extend(indexes.iter().map(|at| with_command(&list, *at, it)));
        }
        for (it, other) in refused.iter().zip(refused.iter().rev()).step_by(3) {
            let once = with_command(&list, count - 1, other);
            lists.push(with_command(&once, count / 2, it));
        }
    }
    lists
}

/// Commands with each refusal that there is, and where an identifier is refused with each character.
fn refused_commands(random: &mut Random) -> Vec<Vec<u8>> {
    let right = Kind::ALL.map(|kind| command(random, kind));
    let mut refused = Vec::new();
    for command in &right {
        refused.extend([0, 7, u8::MAX].map(|kind| with_byte(command, 0, kind)));
        refused.push(with_byte(command, CHUTE, u8::MAX));
    }
    for command in &right[..Kind::OF_ITEMS.len()] {
        refused.extend(each_character(random, command));
    }
    for command in [workers(random_count(random)), checkpoint(0)] {
        refused.extend((TEXT..CHUTE).map(|it| with_byte(&command, it, random.pick(b"/1A\0"))));
    }
    let wrong =
        |index: usize, number: u16| [&right[index][..CHUTE], &number.to_be_bytes()].concat();
    let numbers = [
        (0, 0),
        (0, 513),
        (1, 1),
        (2, 1),
        (3, 0),
        (3, 513),
        (4, 0),
        (4, 65),
        (5, 1),
    ];
    refused.extend(numbers.map(|(index, number)| wrong(index, number)));
    refused
}
