//! What tests of runs look at: the turns that look up and write, and who stands beside them.

use std::collections::BTreeMap;

use super::dealings::testing::{Done, noted};
use crate::bytes::standing;
use crate::command::Kind;
use crate::run::{Party, Run};

/// The states of a worker that has a record, by number.
pub const HOLDING: u8 = 3;
pub const LOOKED_UP: u8 = 4;
pub const WRITTEN: u8 = 5;
pub const WALKING: u8 = 6;
pub const CLEARING: u8 = 7;

/// A turn of a worker that holds a record or is looked-up.
pub struct Service {
    pub before: Party,
    pub after: Party,
    pub kind: Option<Kind>,
    /// What the store has of the item before the turn, 0 for none, and whether it is full.
    pub chute: u16,
    pub full: bool,
    /// After the turn.
    pub answer: u16,
    pub beside: Vec<Beside>,
    /// Whether it is on a copy, which may have been changed.
    pub apart: bool,
}

/// The command of another worker.
#[derive(Clone, Copy, Debug, PartialEq, Eq, PartialOrd, Ord)]
pub struct Beside {
    /// The numbers of its kind and of the worker's state.
    pub kind: u8,
    pub state: u8,
    pub same_item: bool,
    /// Whether it was delivered before that of the turn.
    pub earlier: bool,
    /// How many places up the turn moves the entry of its item.
    pub moved: isize,
}

/// The services of runs, in order.
pub fn services(runs: &[Done]) -> Vec<Service> {
    let all = runs.iter().flat_map(|done| noted(&done.steps, service));
    all.collect()
}

/// Deals a turn, and notes it if the worker holds a record or is looked-up.
pub fn service(run: &mut Run, worker: u8, apart: bool) -> Option<Service> {
    let party = usize::from(worker);
    let (Party::Holding { own } | Party::LookedUp { own, .. }) = run.parties[party] else {
        run.turn(worker);
        return None;
    };
    let before = run.clone();
    run.turn(worker);
    let command = run.command(own);
    let place = usize::from(run.records.place[usize::from(own)]);
    let others = (1..=run.largest).filter(|other| *other != worker);
    Some(Service {
        before: before.parties[party],
        after: run.parties[party],
        kind: command.map(|it| it.kind),
        chute: command.map_or(0, |it| before.store.chute(it.key)),
        full: before.store.is_full(),
        answer: place.checked_sub(1).map_or(0, |index| run.answers[index]),
        beside: others
            .filter_map(|other| beside(&before, run, own, other))
            .collect(),
        apart,
    })
}

fn beside(before: &Run, after: &Run, own: u8, other: u8) -> Option<Beside> {
    let party = before.parties[usize::from(other)];
    let record = party.own()?;
    let command = before.command(record)?;
    let places = [record, own].map(|record| before.records.place[usize::from(record)]);
    let [from, to] = [before, after].map(|run| {
        let used = &run.store.keys[..run.store.used.into()];
        used.iter().position(|key| *key == command.key)
    });
    Some(Beside {
        kind: command.kind.number(),
        state: standing(party)[0],
        same_item: before.command(own).map(|it| it.key) == Some(command.key),
        earlier: places[0] < places[1],
        moved: from
            .zip(to)
            .map_or(0, |(from, to)| to as isize - from as isize),
    })
}

/// How often each of these is met.
pub fn counts<T: Ord>(met: impl Iterator<Item = T>) -> BTreeMap<T, usize> {
    let mut counts = BTreeMap::new();
    for it in met {
        *counts.entry(it).or_default() += 1;
    }
    counts
}
