//! Inputs of the program, right and refused.

use super::limits::{example, with_example_settings};
use super::openings::{Opening, commands};
use super::schedules;
use crate::command::{LENGTH, encode};
use crate::generate::commands::{
    FAULTS, checkpoint, each_character, perhaps_wrong, with_faults, workers,
};
use crate::generate::{Case, with_byte};
use crate::play::{Difference, Play};
use crate::random::Random;
use crate::script::Step;
use crate::text::input::{EXAMPLE, HEADER, LONGEST};

/// Document 01's example of the program, cut at every byte and with one turn more of each party,
/// the worker that is not there among them; and inputs at every limit.
pub fn limits(random: &mut Random) -> Vec<Case> {
    let mut inputs: Vec<Vec<u8>> = (0..=EXAMPLE.len())
        .map(|end| EXAMPLE[..end].to_vec())
        .collect();
    for (offset, values) in [(0, [0, 1, 150, 151]), (1, [0, 1, 64, 65])] {
        inputs.extend(values.map(|value| with_byte(EXAMPLE, offset, value)));
    }
    for room in [0, 1, 4096, 4097_u16] {
        inputs.push([&EXAMPLE[..2], &room.to_be_bytes(), &EXAMPLE[4..]].concat());
    }
    for length in [LONGEST - 1, LONGEST, LONGEST + 1] {
        let mut long = EXAMPLE.to_vec();
        long.resize(length, 1);
        inputs.extend([with_byte(&long, HEADER, 0), long]);
    }
    inputs.extend(wrong_lists(random));
    inputs.extend([0, 1, 2].map(|party| [&EXAMPLE[..], &[party]].concat()));
    let steps = inputs.into_iter().map(Step::Program);
    steps.map(|step| vec![step]).collect()
}

/// The example with other lists: three commands with a wrong one at each place, and two wrong ones.
fn wrong_lists(random: &mut Random) -> Vec<Vec<u8>> {
    const FIRST: &[u8; 13] = b"AA000000005AA";
    let right = encode(3, FIRST, 0);
    let mut wrong = vec![
        encode(0, FIRST, 0),
        encode(1, FIRST, 513),
        encode(3, FIRST, 1),
        workers(0),
        workers(65),
        encode(5, FIRST, 1),
        encode(5, b"0000000000010", 1),
        checkpoint(1),
        checkpoint(512),
        encode(6, FIRST, 0),
        encode(6, b"0000000000010", 0),
        encode(7, FIRST, 0),
    ];
    wrong.extend(each_character(random, &right));
    let mut lists = Vec::new();
    for command in &wrong {
        lists.push([command, &right, &right].map(Vec::as_slice).concat());
        lists.push([&right, command, &right].map(Vec::as_slice).concat());
        lists.push([&right, &right, command].map(Vec::as_slice).concat());
    }
    for fault in FAULTS {
        for other in FAULTS {
            lists.push([with_faults(random, fault), with_faults(random, other)].concat());
        }
    }
    let (_, schedule) = example();
    let inputs = lists.into_iter().map(with_example_settings);
    inputs.map(|opening| opening.input(schedule)).collect()
}

pub fn play(random: &mut Random, play: &mut Play) -> Result<(), Difference> {
    let input = match random.below(12) {
        0 => damaged(random, play)?,
        1 => wrong_command(random),
        2 => cut(random, play)?,
        3 => refused_party(random, play)?,
        4 if random.below(3) == 0 => long(random),
        _ => right(random, play)?,
    };
    play.take(Step::Program(input))?;
    Ok(())
}

/// An opening, made by the calls too, with a schedule of any sort.
fn right(random: &mut Random, play: &mut Play) -> Result<Vec<u8>, Difference> {
    let opening = Opening::any(random);
    let mut input = opening.input(&[]);
    opening.open(play)?;
    input.extend(schedules::any(random, play.host()));
    input.truncate(LONGEST);
    Ok(input)
}

/// One byte of a right input changed.
fn damaged(random: &mut Random, play: &mut Play) -> Result<Vec<u8>, Difference> {
    let mut input = right(random, play)?;
    let end = input.len().min(HEADER + 3 * LENGTH) as u64;
    let at = match random.below(2) {
        0 => random.below(HEADER as u64),
        _ => random.below(end),
    };
    input[at as usize] = random.pick(&[0, 1, 4, 5, 65, 150, 151, 255]);
    Ok(input)
}

/// A command that may be wrong among right ones.
fn wrong_command(random: &mut Random) -> Vec<u8> {
    let mut opening = Opening::small(random);
    opening.commands.extend(perhaps_wrong(random));
    opening.commands.extend(commands(random, 2));
    opening.input(&[0, 0, 1])
}

fn cut(random: &mut Random, play: &mut Play) -> Result<Vec<u8>, Difference> {
    let mut input = right(random, play)?;
    input.truncate(random.below(HEADER as u64 + 2 * LENGTH as u64) as usize);
    Ok(input)
}

fn refused_party(random: &mut Random, play: &mut Play) -> Result<Vec<u8>, Difference> {
    let mut input = right(random, play)?;
    let refused = schedules::refused(random, play.host());
    input.truncate(LONGEST - refused.len());
    input.extend(refused);
    Ok(input)
}

/// As long as an input may be, or a byte longer or shorter.
fn long(random: &mut Random) -> Vec<u8> {
    let count = random.pick(&[4095, 4094, 2000]);
    let opening = Opening {
        size: 150,
        workers: 64,
        room: 4096,
        commands: commands(random, count),
    };
    let mut input = opening.input(&[]);
    let length = random.pick(&[LONGEST - 1, LONGEST, LONGEST, LONGEST + 1, LONGEST + 20]);
    input.extend((input.len()..length).map(|_| random.below(3) as u8));
    input
}
