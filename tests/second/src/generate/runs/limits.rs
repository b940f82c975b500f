//! Refusals 1 to 6, 11 and 12 of opening, dealing and the reports, at each of their limits and one
//! beyond: runs that are always compared.

use super::apart;
use super::openings::{Opening, commands};
use super::reports;
use crate::bytes::{FREE, MOST_COMMANDS, NEXT, NUMBER, STATE};
use crate::calls::{COUNTS, STATUSES};
use crate::command::LENGTH;
use crate::image;
use crate::play::{Difference, Play};
use crate::random::Random;
use crate::script::{List, Step};
use crate::text::input::{EXAMPLE, HEADER};

/// How many runs there are.
pub const COUNT: u64 = 3;

type Played = Result<(), Difference>;

pub fn play(index: u64, random: &mut Random, play: &mut Play) -> Played {
    match index {
        0 => settings(random, play),
        1 => lists(random, play),
        _ => handed_back(play),
    }
}

/// Refusals 1 to 3.
fn settings(random: &mut Random, play: &mut Play) -> Played {
    let ends = |most: u64| {
        [
            0,
            1,
            2,
            most - 1,
            most,
            most + 1,
            most + 256,
            1 << 32,
            u64::MAX,
        ]
    };
    for size in ends(150) {
        open(play, size, 1, 1, commands(random, 2))?;
    }
    for workers in ends(64) {
        open(play, 1, workers, 1, commands(random, 2))?;
    }
    for room in ends(4096) {
        open(play, 1, 1, room, commands(random, 2))?;
    }
    Ok(())
}

/// Refusals 4 to 6 of an opening.
fn lists(random: &mut Random, play: &mut Play) -> Played {
    let most = MOST_COMMANDS * LENGTH;
    let list = commands(random, MOST_COMMANDS + 2);
    for length in [
        0,
        1,
        15,
        16,
        17,
        32,
        most - 16,
        most - 1,
        most,
        most + 1,
        most + 16,
        most + 17,
    ] {
        open(play, 1, 1, 1, list[..length].to_vec())?;
    }
    for wrong in 0..6 {
        for by in [-16, -8, -2, -1, 0, 1, 2, 8, 16] {
            let opening = with_example_settings(commands(random, 2));
            let mut source = image::zeros(opening.room as u16);
            let mut lengths = opening.lengths();
            match lengths.get_mut(wrong) {
                Some(length) => *length = length.saturating_add_signed(by),
                None => source.resize(source.len().saturating_add_signed(by), 0),
            }
            for step in [opening.clone().step(), opening.step_from(source)] {
                play.take(Step::Lend(lengths))?;
                play.take(step)?;
            }
        }
    }
    Ok(())
}

/// Lists of a wrong length for the example.
const WRONG: [(List, usize); 4] = [
    (List::Answers, 3 * NUMBER),
    (List::State, STATE - 1),
    (List::Image, 5 * image::RECORD - 1),
    (List::Image, 6 * image::RECORD),
];

/// Refusals 6, 12 and 11 of the calls on a handed-back run.
fn handed_back(play: &mut Play) -> Played {
    let (commands, schedule) = example();
    with_example_settings(commands.clone()).open(play)?;
    for length in [COUNTS - 1, COUNTS, COUNTS + 1, 0] {
        play.take(Step::PendingCounts(length))?;
    }
    for length in [2 * STATUSES - 1, 2 * STATUSES, 2 * STATUSES + 1, 0] {
        play.take(Step::WorkerStatus(length))?;
    }
    for turns in 0..=schedule.len() {
        for (list, length) in WRONG {
            apart(play, |play| {
                play.take(Step::Resize(list, length))?;
                try_calls(play, &[3])
            })?;
        }
        for (offset, bits) in [(NEXT + 1, 3), (NEXT + 150, 3), (FREE, 3), (FREE, 2)] {
            apart(play, |play| {
                let list = List::State;
                play.take(Step::Change { list, offset, bits })?;
                try_calls(play, &[3])
            })?;
        }
        try_calls(play, &[0, 3])?;
        if let Some(party) = schedule.get(turns) {
            play.take(Step::Advance(vec![*party]))?;
        }
        play.take(Step::Serial)?;
    }
    for workers in [1, 2, 63, 64] {
        open(play, 2, workers, 4, commands.clone())?;
        for party in [workers, workers + 1, 65, 255] {
            play.take(Step::Advance(vec![0, party as u8]))?;
        }
    }
    Ok(())
}

/// All three calls on what is there now.
fn try_calls(play: &mut Play, schedule: &[u8]) -> Played {
    play.take(Step::Advance(schedule.to_vec()))?;
    play.take(Step::Advance(vec![]))?;
    reports(play)
}

/// An opening that may be refused for its settings or commands, with lists as long as it asks for.
fn open(play: &mut Play, size: u64, workers: u64, room: u64, commands: Vec<u8>) -> Played {
    let opening = Opening {
        size,
        workers,
        room: room.min(5000),
        commands,
    };
    play.take(Step::Lend(opening.lengths()))?;
    play.take(Opening { room, ..opening }.step())?;
    Ok(())
}

/// The settings of document 01's example.
pub fn with_example_settings(commands: Vec<u8>) -> Opening {
    Opening {
        size: 2,
        workers: 1,
        room: 4,
        commands,
    }
}

/// The commands and the schedule of document 01's example.
pub fn example() -> (Vec<u8>, &'static [u8]) {
    let (commands, schedule) = EXAMPLE[HEADER..].split_at(2 * LENGTH);
    (commands.to_vec(), schedule)
}
