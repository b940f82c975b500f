//! Checkpoints in lists: of empty, part-full and full stores, one behind the other, with tables that
//! get longer and shorter between them. They are dealt in orders of every sort, and some are handed
//! back as no dealing leaves them: with anything in the image, an image of a wrong length, another
//! finding, another store, at another place, and a refused checkpoint.

use super::changes::{set_bytes, set_command, set_party, set_store, step_on};
use super::dealings::{Change, Dealing, Entry, Played, WAYS, keys};
use super::openings::Opening;
use super::{reports, schedules};
use crate::bytes::{NUMBER, PLACE};
use crate::command::Kind::{Delete, Insert, Read, Update};
use crate::generate::checkpoints::perhaps_wrong;
use crate::generate::commands::{checkpoint, random_count, with_key, workers};
use crate::generate::images;
use crate::host::Host;
use crate::play::Play;
use crate::random::Random;
use crate::run::{Party, Run};
use crate::script::{List, Step};
use crate::store::Store;

/// How many runs there are: each form of a list once in each way of dealing.
pub const COUNT: u64 = FORMS * WAYS;
pub const FORMS: u64 = 128;

const SIZES: [u64; 5] = [2, 3, 4, 6, 8];
const WORKERS: [u64; 5] = [1, 2, 2, 3, 4];
const ITEMS: usize = 3;

/// What stands before a checkpoint, one after the other from some place on.
const BETWEEN: [&[Entry]; 8] = [
    &[],
    &[(Insert, 0)],
    &[(Insert, 1), (Read, 0), (Update, 0)],
    &[(Delete, 0), (Delete, 1)],
    &[(Insert, 2), (Insert, 0), (Insert, 1), (Read, 2)],
    &[(Read, 1), (Update, 2)],
    &[(Delete, 0), (Read, 2)],
    &[(Insert, 1), (Insert, 1), (Delete, 2)],
];

/// A worker that has just looked a command up.
#[derive(Clone, Copy)]
struct Seen {
    own: u8,
    /// The place of its command.
    place: usize,
    count: usize,
    room: u16,
}

/// What is done to lists that are handed back then.
const CHANGES: [Change<Seen>; 6] = [
    over_anything,
    with_a_wrong_length,
    with_a_finding,
    with_another_store,
    at_another_place,
    with_a_refused_checkpoint,
];

const DEALING: Dealing<Seen> = Dealing {
    to_the_end,
    seen,
    changes: &CHANGES,
};

/// Plays the run of a number below the count.
pub fn play(number: u64, random: &mut Random, play: &mut Play) -> Played {
    let opening = opening(number % FORMS, random);
    DEALING.play(opening, number / FORMS, random, play)
}

/// With and without workers that are left in their states for a while.
fn to_the_end(random: &mut Random, host: &Host, most: usize) -> Vec<u8> {
    match random.below(2) {
        0 => schedules::to_the_end(random, host, most),
        _ => schedules::with_pauses(random, host, most),
    }
}

/// An opening of a form: how many checkpoints, where the commands between them begin, and the room.
pub fn opening(form: u64, random: &mut Random) -> Opening {
    let mut keys = keys(random, ITEMS);
    if random.below(4) != 0 && !keys.contains(&0) {
        keys[0] = 0;
    }
    let first = form / 4 % 8;
    let mut parts = Vec::new();
    for index in 0..=form % 4 + 1 {
        let items = BETWEEN[((first + index) % 8) as usize];
        parts.extend(items.iter().map(|it| with_key(random, it.0, keys[it.1])));
        if random.below(4) == 0 {
            parts.push(workers(random_count(random).min(8)));
        }
        if index <= form % 4 || random.below(2) == 0 {
            parts.push(checkpoint(0));
        }
    }
    Opening {
        size: random.pick(&SIZES),
        workers: random.pick(&WORKERS),
        room: 1 + form / 32 % 3,
        commands: parts.concat(),
    }
}

/// What is seen of a party that has just looked a command up.
fn seen(run: &Run, party: u8) -> Option<Seen> {
    match run.parties[usize::from(party)] {
        Party::LookedUp { own, .. } => Some(Seen {
            own,
            place: run.records.place[usize::from(own)].into(),
            count: run.commands.len(),
            room: run.settings.room,
        }),
        _ => None,
    }
}

/// The worker's command is a checkpoint, and the image holds anything: nothing of it is left.
fn over_anything(worker: u8, seen: Seen, random: &mut Random, play: &mut Play) -> Played {
    let length = play.host().list(List::Image).len();
    let other = images::perhaps_wrong(random, seen.room);
    let anything = match random.below(2) {
        0 => random.bytes(length),
        _ => other.into_iter().cycle().take(length).collect(),
    };
    set_bytes(play, List::Image, 0, &anything)?;
    play.take(Step::Advance(vec![]))?;
    written(worker, seen, random, play)
}

/// The image is longer or shorter: no dealing is accepted, and the reports are.
fn with_a_wrong_length(worker: u8, _: Seen, random: &mut Random, play: &mut Play) -> Played {
    let length = play.host().list(List::Image).len();
    let by = random.pick(&[-16, -2, -1, 1, 2, 16, -(length as isize)]);
    play.take(Step::Resize(List::Image, length.saturating_add_signed(by)))?;
    play.take(Step::Advance(vec![worker]))?;
    play.take(Step::Advance(vec![]))?;
    reports(play)
}

fn with_a_finding(worker: u8, seen: Seen, random: &mut Random, play: &mut Play) -> Played {
    let found = random.pick(&[1, 7, 512, 513, u16::MAX]);
    let party = Party::LookedUp {
        own: seen.own,
        found,
    };
    set_party(play, worker, party)?;
    written(worker, seen, random, play)
}

/// The store is another one, in every third case a full one and in every third an empty one.
fn with_another_store(worker: u8, seen: Seen, random: &mut Random, play: &mut Play) -> Played {
    let any = random.below(u64::from(seen.room) + 1);
    let count = random.pick(&[0, u64::from(seen.room), any]);
    let mut store = Store::new(seen.room);
    for (key, chute) in images::entries(random, count as usize) {
        store.insert(key, chute);
    }
    set_store(play, &store)?;
    written(worker, seen, random, play)
}

/// The record is that of another place, whose command is a checkpoint.
fn at_another_place(worker: u8, seen: Seen, random: &mut Random, play: &mut Play) -> Played {
    let place = 1 + random.below(seen.count as u64) as usize;
    let offset = PLACE + NUMBER * usize::from(seen.own);
    set_bytes(play, List::State, offset, &(place as u16).to_be_bytes())?;
    written(worker, Seen { place, ..seen }, random, play)
}

/// The worker's command is a checkpoint that opening refuses, in most cases.
fn with_a_refused_checkpoint(
    worker: u8,
    seen: Seen,
    random: &mut Random,
    play: &mut Play,
) -> Played {
    set_command(play, seen.place, &perhaps_wrong(random))?;
    play.take(Step::Advance(vec![worker]))?;
    step_on(random, play)
}

/// The worker's command is a checkpoint, which it writes.
fn written(worker: u8, seen: Seen, random: &mut Random, play: &mut Play) -> Played {
    set_command(play, seen.place, &checkpoint(0))?;
    play.take(Step::Advance(vec![worker]))?;
    reports(play)?;
    step_on(random, play)
}

#[cfg(test)]
mod tests {
    use std::sync::LazyLock;

    use super::*;
    use crate::generate::runs::CHECKPOINTS;
    use crate::generate::runs::dealings::testing::{
        Done, assert_made_from_the_seed, assert_nearly_all_finish, assert_scenes, played,
    };
    use crate::met::images::Scene;

    static PLAYED: LazyLock<Vec<Done>> = LazyLock::new(|| played(CHECKPOINTS, COUNT));

    /// Document 02, A.3: what checkpoints meet, each often enough.
    #[test]
    fn every_situation_of_a_checkpoint_is_met() {
        let scenes = [
            Scene::Opened,
            Scene::LookBesideKey0,
            Scene::WrittenFirst,
            Scene::WrittenAgain,
            Scene::OverAnything,
            Scene::OfNone,
            Scene::OfSome,
            Scene::OfFull,
            Scene::Shorter,
            Scene::Longer,
            Scene::WithAFinding,
            Scene::AdvanceLength,
        ];
        assert_scenes(&PLAYED, &scenes.map(|scene| (scene, 50)));
    }

    #[test]
    fn nearly_all_runs_come_to_their_end() {
        assert_nearly_all_finish(&PLAYED);
    }

    #[test]
    fn a_seed_gives_the_same_runs_again_and_another_gives_others() {
        assert_made_from_the_seed(CHECKPOINTS, COUNT);
    }
}
