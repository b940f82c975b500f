//! Controllers that are swapped: a run with checkpoints is stopped anywhere behind the writing of one,
//! and another is opened from its image with the commands behind its place, with another size and
//! other workers, and so on. Each is held against the serial run from the image, and against that of
//! the whole list. The first has the largest image and a checkpoint at the largest place.

use super::dealings::{Played, keys};
use super::openings::Opening;
use super::{feed, reports, schedules};
use crate::bytes::MOST_COMMANDS;
use crate::command::Kind::{Delete, Insert, Read, Update};
use crate::command::{Kind, LENGTH};
use crate::generate::commands::{checkpoint, random_count, with_key, workers};
use crate::generate::images::Draft;
use crate::host::Host;
use crate::image;
use crate::play::Play;
use crate::random::Random;
use crate::run::Run;
use crate::script::{List, Step};

/// How many runs there are.
pub const COUNT: u64 = 512;
/// Turns with which a run is brought to its end, at the most.
const MOST: usize = 20_000;
/// Rounds of one turn each that end the largest.
const ROUNDS: usize = 60_000;
/// Calls of a run behind a swap, at the most.
const CALLS: usize = 20;

const SIZES: [u64; 8] = [1, 2, 3, 4, 6, 8, 64, 150];
const WORKERS: [u64; 6] = [1, 2, 3, 4, 8, 64];
const LARGEST: u16 = 4096;

/// What stands beside checkpoints.
const KINDS: [Kind; 6] = [Insert, Insert, Delete, Read, Update, Read];

/// Plays the run of a number below the count.
pub fn play(number: u64, random: &mut Random, play: &mut Play) -> Played {
    if number == 0 {
        return largest(random, play);
    }
    let first = opening(random);
    let whole = first.commands.clone();
    first.clone().open(play)?;
    let mut left = whole.clone();
    for _ in 0..1 + random.below(3) {
        if !stop(random, play)? {
            break;
        }
        left = swap(&left, first.room, random, play)?;
        play.take(Step::Unbroken(whole.clone()))?;
    }
    finish(&whole, random, play)
}

/// A list with checkpoints among commands on few items, and with worker changes.
fn opening(random: &mut Random) -> Opening {
    let items = 1 + random.below(5) as usize;
    let keys = keys(random, items);
    let count = 1 + random.below(20);
    let mut parts: Vec<Vec<u8>> = (0..count)
        .map(|_| match random.below(12) {
            0..=2 => checkpoint(0),
            3 => workers(random_count(random).min(8)),
            _ => {
                let kind = random.pick(&KINDS);
                let key = random.pick(&keys);
                with_key(random, kind, key)
            }
        })
        .collect();
    let at = random.below(count) as usize;
    parts[at] = checkpoint(0);
    Opening {
        size: random.pick(&SIZES[1..6]),
        workers: random.pick(&WORKERS[..4]),
        room: 1 + random.below(4),
        commands: parts.concat(),
    }
}

/// Deals turns and stops anywhere behind the first checkpoint; whether there is an image then.
fn stop(random: &mut Random, play: &mut Play) -> Result<bool, String> {
    let schedule = to_the_end(random, play.host(), MOST);
    let Some(least) = first_checkpoint(play.host(), &schedule) else {
        return Ok(false);
    };
    let more = random.below((schedule.len() - least) as u64 + 1) as usize;
    feed(random, play, &schedule[..least + more])?;
    play.take(Step::Serial)?;
    Ok(true)
}

/// How many of these turns write a checkpoint first.
fn first_checkpoint(host: &Host, schedule: &[u8]) -> Option<usize> {
    let mut run: Run = host.run()?;
    let written = schedule.iter().position(|party| {
        run.turn(*party);
        run.image.is_some()
    });
    written.map(|index| index + 1)
}

fn to_the_end(random: &mut Random, host: &Host, most: usize) -> Vec<u8> {
    match random.below(3) {
        0 => schedules::with_pauses(random, host, most),
        1 => schedules::near_the_count(random, host, most),
        _ => schedules::to_the_end(random, host, most),
    }
}

/// Opens from the image with what is left of a list, which is handed back. In every other case the
/// records of the image stand in another order.
fn swap(list: &[u8], room: u64, random: &mut Random, play: &mut Play) -> Result<Vec<u8>, String> {
    let source = play.host().list(List::Image).to_vec();
    let place = image::place(&source);
    let left = list[place as usize * LENGTH..].to_vec();
    let opening = Opening {
        size: random.pick(&SIZES),
        workers: random.pick(&WORKERS),
        room,
        commands: left.clone(),
    };
    let store = image::read(&source).map_err(|_| "the image is none".to_string())?;
    let entries: Vec<(u64, u16)> = store.entries().collect();
    let source = match random.below(2) {
        0 => source,
        _ => Draft::shuffled(random, room as u16, &entries, place).bytes(),
    };
    opening.open_from(source, play)?;
    Ok(left)
}

/// To the end, held after each call against the serial run from the image, and against that of the
/// whole list.
fn finish(whole: &[u8], random: &mut Random, play: &mut Play) -> Played {
    let schedule = to_the_end(random, play.host(), MOST);
    for piece in schedule.chunks(schedule.len() / CALLS + 1) {
        play.take(Step::Advance(piece.to_vec()))?;
        play.take(Step::Serial)?;
        play.take(Step::Unbroken(whole.to_vec()))?;
    }
    reports(play)
}

/// 4,096 entries in any order, and 4,096 commands of which the last is a checkpoint; then a run from
/// its image, with nothing left to do, and one with a list of its own.
fn largest(random: &mut Random, play: &mut Play) -> Played {
    let draft = Draft::any(random, LARGEST, LARGEST.into());
    let source = draft.bytes();
    let keys = image::read(&source).map_or(Vec::new(), |store| store.keys);
    let mut commands: Vec<u8> = (1..MOST_COMMANDS)
        .flat_map(|_| {
            let kind = random.pick(&[Read, Update, Insert]);
            let key = random.pick(&keys);
            with_key(random, kind, key)
        })
        .collect();
    commands.extend(checkpoint(0));
    let opening = Opening {
        size: 3,
        workers: 2,
        room: LARGEST.into(),
        commands,
    };
    opening.clone().open_from(source, play)?;
    for _ in 0..3 {
        play.take(Step::Advance([0, 1, 2].repeat(ROUNDS / 3)))?;
        play.take(Step::Serial)?;
    }
    let left = swap(&opening.commands, opening.room, random, play)?;
    play.take(Step::Advance(vec![0, 1, 0, 1]))?;
    if !left.is_empty() {
        return Err("the checkpoint is the last command".to_string());
    }
    play.take(Step::Serial)?;
    Ok(())
}

#[cfg(test)]
mod tests {
    use std::sync::LazyLock;

    use super::*;
    use crate::generate::runs::SWAPS;
    use crate::generate::runs::dealings::testing::{
        Done, assert_made_from_the_seed, assert_nearly_all_finish, assert_scenes, played,
    };
    use crate::met::images::Scene;

    static PLAYED: LazyLock<Vec<Done>> = LazyLock::new(|| played(SWAPS, COUNT));

    /// Document 02, A.3: swaps in every situation, often enough, and the largest once.
    #[test]
    fn every_situation_of_a_swap_is_met() {
        let scenes = [
            (Scene::Swapped, 500),
            (Scene::SwappedShuffled, 200),
            (Scene::SwappedAtWork, 100),
            (Scene::SwappedSettings, 200),
            (Scene::SwappedEmpty, 50),
            (Scene::AfterImage, 100),
            (Scene::FromFull, 50),
            (Scene::FromFull4096, 2),
            (Scene::FromPlace4096, 1),
            (Scene::AtPlace4096, 1),
            (Scene::OfFull4096, 1),
        ];
        assert_scenes(&PLAYED, &scenes);
    }

    /// Runs are swapped once, twice and three times.
    #[test]
    fn runs_are_swapped_several_times() {
        let swaps = |done: &Done| {
            let from = |step: &&Step| matches!(step, Step::Open(open) if open.source.is_some());
            done.steps.iter().filter(from).count()
        };
        for times in 1..=3 {
            let runs = PLAYED.iter().filter(|done| swaps(done) == times);
            assert!(runs.count() >= 40, "{times}");
        }
    }

    #[test]
    fn nearly_all_runs_come_to_their_end() {
        assert_nearly_all_finish(&PLAYED);
    }

    #[test]
    fn a_seed_gives_the_same_runs_again_and_another_gives_others() {
        assert_made_from_the_seed(SWAPS + 1, COUNT - 1);
    }
}
