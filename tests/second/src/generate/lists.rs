//! Lists of commands.

use super::commands::{FAULTS, each_character, perhaps_wrong, random_command, with_faults};
use super::{Case, opening, repeat};
use crate::bytes::MOST_COMMANDS;
use crate::command::{LENGTH, encode};
use crate::identifier::NONE;
use crate::random::Random;

/// Commands in a list that has a fault at each place.
const EVERYWHERE: usize = 16;
/// Commands in a list that has two faults at each two places.
const TWICE: usize = 6;

/// Other commands, right or not, in the place of a right one.
type Others<'a> = &'a dyn Fn(&mut Random, &[u8]) -> Vec<Vec<u8>>;

pub fn cases(random: &mut Random) -> Vec<Case> {
    lists(random).into_iter().map(opening).collect()
}

/// Lists of commands on items, and of others beside them, right and refused.
pub fn lists(random: &mut Random) -> Vec<Vec<u8>> {
    let lists = [
        repeat(500, random, right_list),
        repeat(1_500, random, list_with_faults),
        repeat(2_000, random, two_perhaps_wrong),
        repeat(300, random, list_with_tail),
        named_at_both_ends(),
        repeat(20, random, one_fault_everywhere).concat(),
        repeat(3, random, |random| everywhere(random, &each_character)).concat(),
        two_refused(random),
        long_lists(random),
        far(random, &each_character),
    ];
    lists.concat()
}

/// A list of up to 40 right commands on items.
fn right_list(random: &mut Random) -> Vec<u8> {
    let count = random.below(41) as usize;
    right_commands(random, count)
}

pub fn right_commands(random: &mut Random, count: usize) -> Vec<u8> {
    repeat(count, random, random_command).concat()
}

/// A right list with five commands in it that may be wrong.
fn list_with_faults(random: &mut Random) -> Vec<u8> {
    [
        right_list(random),
        repeat(5, random, perhaps_wrong).concat(),
        right_list(random),
    ]
    .concat()
}

fn two_perhaps_wrong(random: &mut Random) -> Vec<u8> {
    repeat(2, random, perhaps_wrong).concat()
}

/// The kinds, chutes and counts at their bounds and the texts of document 01's refusals and of worker
/// changes and checkpoints, each command at the first place and at the last.
fn named_at_both_ends() -> Vec<Vec<u8>> {
    const RIGHT: &[u8; 13] = b"AA000000005AA";
    let texts = [
        RIGHT,
        b"Aa000000005AA",
        b"AA000000004AA",
        b"AA0000000A5AA",
        &NONE,
    ];
    let good = encode(3, RIGHT, 0);
    let mut lists = Vec::new();
    for kind in [0, 1, 2, 3, 4, 5, 6, 7, 255] {
        for text in texts {
            for chute in [0, 1, 64, 65, 512, 513, 65_535] {
                let it = encode(kind, text, chute);
                lists.push([&it[..], &good].concat());
                lists.push([&good[..], &it].concat());
            }
        }
    }
    lists
}

/// A right list with a last part, right or wrong, that is cut short.
fn list_with_tail(random: &mut Random) -> Vec<u8> {
    let mut list = right_list(random);
    let last = perhaps_wrong(random);
    list.extend(&last[..random.below(LENGTH as u64) as usize]);
    list
}

/// One list of 16 right commands, with a fault put into one command of it, for each of them.
fn one_fault_everywhere(random: &mut Random) -> Vec<Vec<u8>> {
    everywhere(random, &|random, _| {
        let fault = random.pick(&FAULTS);
        vec![with_faults(random, fault)]
    })
}

/// One list of 16 right commands, with the others put into it at each place, one at a time.
pub fn everywhere(random: &mut Random, others: Others) -> Vec<Vec<u8>> {
    replaced(random, EVERYWHERE, 0..EVERYWHERE, others)
}

/// The same at places whose number ends a byte or begins one, and at the last.
pub fn far(random: &mut Random, others: Others) -> Vec<Vec<u8>> {
    let places = [255, 256, 257, 4095, MOST_COMMANDS];
    replaced(random, MOST_COMMANDS, places.map(|place| place - 1), others)
}

fn replaced(
    random: &mut Random,
    count: usize,
    indexes: impl IntoIterator<Item = usize>,
    others: Others,
) -> Vec<Vec<u8>> {
    let list = right_commands(random, count);
    let mut lists = Vec::new();
    for index in indexes {
        let others = others(random, &list[index * LENGTH..][..LENGTH]);
        lists.extend(others.iter().map(|it| with_command(&list, index, it)));
    }
    lists
}

/// One list of 6 right commands with each two faults put into each two of them; the first counts.
fn two_refused(random: &mut Random) -> Vec<Vec<u8>> {
    let list = right_commands(random, TWICE);
    let indexes = (0..TWICE).flat_map(|later| (0..later).map(move |first| (first, later)));
    let faults = FAULTS.map(|fault| FAULTS.map(|other| (fault, other)));
    let mut lists = Vec::new();
    for (first, later) in indexes {
        for (fault, other) in faults.as_flattened() {
            let once = with_command(&list, first, &with_faults(random, *fault));
            lists.push(with_command(&once, later, &with_faults(random, *other)));
        }
    }
    lists
}

/// A list with another command at an index from 0.
pub fn with_command(list: &[u8], index: usize, command: &[u8]) -> Vec<u8> {
    let mut list = list.to_vec();
    list[index * LENGTH..][..LENGTH].copy_from_slice(command);
    list
}

/// Lists about as long as an opening accepts, right, and wrong at their end.
fn long_lists(random: &mut Random) -> Vec<Vec<u8>> {
    let list = right_commands(random, MOST_COMMANDS + 1);
    let most = &list[..MOST_COMMANDS * LENGTH];
    let fault = with_faults(random, 1);
    vec![
        most.to_vec(),
        most[..most.len() - 1].to_vec(),
        with_command(most, 0, &fault),
        with_command(most, MOST_COMMANDS - 1, &fault),
        [most, &list[..1]].concat(),
        with_command(&list, MOST_COMMANDS, &fault),
        list,
    ]
}
