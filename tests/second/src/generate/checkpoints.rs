//! Checkpoints, right and damaged.

use super::commands::{CHUTE, TEXT, checkpoint, random_command, random_count, workers};
use super::zeros::{Zeros, list_of, two_damaged};
use super::{Case, Sort, repeat, with_byte};
use crate::command::{Kind, encode};
use crate::identifier::NONE;
use crate::random::Random;

const CHECKPOINTS: Zeros = Zeros {
    kind: Kind::Checkpoint,
    right: |_| 0,
    wrong: &[1, 2, 64, 256, 512, 513, 32_768, 65_535],
};

pub fn cases(random: &mut Random) -> [(Sort, Vec<Case>); 3] {
    let lists = lists(random);
    CHECKPOINTS.cases(alone(random), lists, random)
}

/// Lists with checkpoints, right and refused.
pub fn lists(random: &mut Random) -> Vec<Vec<u8>> {
    let lists = [
        repeat(300, random, list_with_checkpoints),
        CHECKPOINTS.in_lists(random),
        two_wrong(random),
    ];
    lists.concat()
}

/// A checkpoint that is right, or has a wrong chute, a wrong character or both.
pub fn perhaps_wrong(random: &mut Random) -> Vec<u8> {
    let chute = random.pick(&[0, 0, 0, 1, 512, 256]);
    CHECKPOINTS.perhaps_wrong(chute, random)
}

/// Single commands.
fn alone(random: &mut Random) -> Vec<Vec<u8>> {
    let mut parts = CHECKPOINTS.alone(0, |it| [with_byte(it, CHUTE, 1)]);
    parts.extend(repeat(100, random, |it| CHECKPOINTS.of_an_item(it)));
    parts
}

/// Right commands, every third or so a checkpoint or a worker change.
fn list_with_checkpoints(random: &mut Random) -> Vec<u8> {
    list_of(random, |random| match random.below(6) {
        0 => workers(random_count(random)),
        1 | 2 => checkpoint(0),
        _ => random_command(random),
    })
}

/// A wrong chute or character before and behind another wrong command.
fn two_wrong(random: &mut Random) -> Vec<Vec<u8>> {
    let wrong = [
        checkpoint(1),
        with_byte(&checkpoint(0), TEXT, b'A'),
        with_byte(&checkpoint(513), TEXT + 7, b'1'),
    ];
    let others = [
        workers(0),
        encode(7, &NONE, 0),
        encode(3, b"AA00000000xAA", 0),
    ];
    two_damaged(random, &wrong, &others)
}

#[cfg(test)]
mod tests {
    use super::*;
    use crate::generate::zeros::testing::assert_refusals;

    /// 8 at each character and 10, alone and at every place of a list.
    #[test]
    fn every_refusal_of_a_checkpoint_is_met_at_every_place() {
        let cases = cases(&mut Random::new(1));
        let accepted = [(Sort::Lists, 300), (Sort::Pairs, 700)];
        assert_refusals(&cases, (Kind::Checkpoint, 10), 100, &accepted);
    }
}
