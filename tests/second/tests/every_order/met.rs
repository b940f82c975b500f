//! What the turns of searches meet: commands that pass others, and entries that move; and the
//! states, tables that tell the written commands from others.

use std::cmp::Ordering;
use std::collections::HashMap;

use second::command::Kind;
use second::image;
use second::run::{HEAD, Party, Run};

use crate::judge::is_written;

/// A command is written while one that was delivered earlier is not.
#[derive(Clone, Copy, Debug, PartialEq, Eq, Hash)]
pub struct Pass {
    pub earlier: Kind,
    pub later: Kind,
    pub same_item: bool,
    /// Whether a worker is between the look-up and the writing of the earlier one.
    pub looked_up: bool,
    /// Whether the store is full.
    pub full: bool,
}

/// The passes of a turn that writes the command of a record.
pub fn passes(run: &Run, own: u8) -> impl Iterator<Item = Pass> {
    let places = 1..run.records.place[usize::from(own)];
    let unwritten = places.filter(|place| !is_written(run, *place));
    unwritten.filter_map(move |place| {
        let earlier = run.commands[usize::from(place) - 1];
        let later = run.command(own)?;
        Some(Pass {
            earlier: earlier.kind,
            later: later.kind,
            same_item: earlier.key == later.key,
            looked_up: looked_up(run).any(|own| run.records.place[usize::from(own)] == place),
            full: run.store.is_full(),
        })
    })
}

/// A turn of a worker, with what the worker count has to do with it (document 02, A.2).
#[derive(Clone, Copy, Debug, PartialEq, Eq, Hash)]
pub enum Counted {
    /// A worker above the count in force waits idle, with the head free.
    Idle,
    /// It goes on with a search that it began before, comes to its end, or waits at a lock.
    Search,
    SearchEnds,
    SearchWaits,
    /// It goes on with the worker change that it has written, and removes it.
    Holder,
    HolderRemoves,
    /// A worker above the opening's count takes a command.
    Taken,
    /// A worker change is written that leaves more workers, fewer, or as many.
    Up,
    Down,
    Same,
}

impl Counted {
    pub const ALL: [Counted; 10] = [
        Counted::Idle,
        Counted::Search,
        Counted::SearchEnds,
        Counted::SearchWaits,
        Counted::Holder,
        Counted::HolderRemoves,
        Counted::Taken,
        Counted::Up,
        Counted::Down,
        Counted::Same,
    ];

    /// What a worker's turn is, if it is one of these.
    fn of(run: &Run, worker: u8, after: &Run) -> Option<Counted> {
        let [before, now] = [run, after].map(|run| run.parties[usize::from(worker)]);
        let above = !run.allows(worker);
        let change = before.own().and_then(|own| run.command(own)?.count());
        match (before, now, change) {
            (Party::Idle, ..) if above => {
                let free = !run.records.locked[usize::from(HEAD)];
                free.then_some(Counted::Idle)
            }
            (Party::Searching { .. }, Party::Idle, _) if above => Some(Counted::SearchEnds),
            (Party::Searching { .. }, ..) if above && after == run => Some(Counted::SearchWaits),
            (Party::Searching { .. }, ..) if above => Some(Counted::Search),
            (Party::Searching { .. }, Party::Holding { .. }, _) => {
                (worker > run.settings.workers).then_some(Counted::Taken)
            }
            (Party::LookedUp { .. }, _, Some(count)) => Some(match count.cmp(&run.in_force) {
                Ordering::Greater => Counted::Up,
                Ordering::Less => Counted::Down,
                Ordering::Equal => Counted::Same,
            }),
            (Party::Clearing { .. }, Party::Idle, Some(_)) if above => Some(Counted::HolderRemoves),
            (_, _, Some(_)) if above => Some(Counted::Holder),
            _ => None,
        }
    }
}

/// A turn of a worker, with what a checkpoint has to do with it (document 02, A.3).
#[derive(Clone, Copy, Debug, PartialEq, Eq, Hash)]
pub enum Imaged {
    /// A checkpoint is written over zeros, or over another's image.
    First,
    Again,
    /// Of an empty store, and of a full one.
    OfNone,
    OfFull,
    /// Of fewer entries than the image has, and of more.
    Shorter,
    Longer,
    /// Another worker has a turn while one is between the look-up and the writing of a checkpoint.
    Beside,
    /// The store is changed behind a checkpoint.
    Behind,
}

impl Imaged {
    pub const ALL: [Imaged; 8] = [
        Imaged::First,
        Imaged::Again,
        Imaged::OfNone,
        Imaged::OfFull,
        Imaged::Shorter,
        Imaged::Longer,
        Imaged::Beside,
        Imaged::Behind,
    ];

    /// What a worker's turn is of these.
    fn of(run: &Run, worker: u8) -> Vec<Imaged> {
        let kind = |own: u8| run.command(own).map(|it| it.kind);
        let image = run.image.as_deref().unwrap_or_default();
        let checkpoints = looked_up(run).filter(|own| kind(*own) == Some(Kind::Checkpoint));
        let Party::LookedUp { own, .. } = run.parties[usize::from(worker)] else {
            return checkpoints.map(|_| Imaged::Beside).collect();
        };
        let before = image::read(image).map_or(0, |store| store.used);
        let used = run.store.used;
        let written = image::place(image) > 0;
        let holds = match kind(own) {
            Some(Kind::Checkpoint) => [
                (Imaged::First, !written),
                (Imaged::Again, written),
                (Imaged::OfNone, used == 0),
                (Imaged::OfFull, run.store.is_full()),
                (Imaged::Shorter, used < before),
                (Imaged::Longer, written && used > before),
            ]
            .to_vec(),
            Some(Kind::Insert | Kind::Delete | Kind::Update) => vec![(Imaged::Behind, written)],
            _ => Vec::new(),
        };
        let holds = holds.into_iter();
        holds
            .filter_map(|(it, holds)| holds.then_some(it))
            .collect()
    }
}

#[derive(Default)]
pub struct Met {
    pub states: usize,
    /// How many searches there were.
    pub settings: usize,
    /// How many turns are each.
    pub counted: HashMap<Counted, usize>,
    pub imaged: HashMap<Imaged, usize>,
    /// How many turns have each.
    passes: HashMap<Pass, usize>,
    /// Turns at which an entry goes up, and goes down, while a worker is between the look-up and
    /// the writing of a command of its item.
    pub moves: [usize; 2],
    /// States whose table is not that of all commands up to the last that is written, and states
    /// whose table is not that of all loaded ones.
    pub others: [usize; 2],
    /// Of the dispatch that came nearest to its bound, the turns that it used, and the bound.
    pub nearest: (u64, u64),
}

impl Met {
    /// How many passes are so.
    pub fn count(&self, so: impl Fn(&Pass) -> bool) -> usize {
        let passes = self.passes.iter().filter(|(pass, _)| so(pass));
        passes.map(|(_, turns)| turns).sum()
    }

    pub fn note_pass(&mut self, pass: Pass) {
        *self.passes.entry(pass).or_default() += 1;
    }

    /// Notes whether the table of a state is another than each of those.
    pub fn note_tables(&mut self, others: [bool; 2]) {
        for (count, other) in self.others.iter_mut().zip(others) {
            *count += usize::from(other);
        }
    }

    /// Notes how many turns a dispatch used, and its bound.
    pub fn note_dispatch(&mut self, used: u64, bound: u64) {
        let (most, of) = self.nearest;
        if used * of >= most * bound {
            self.nearest = (used, bound);
        }
    }

    /// Notes a turn of a worker.
    pub fn note_count(&mut self, run: &Run, worker: u8, after: &Run) {
        if let Some(counted) = Counted::of(run, worker, after) {
            *self.counted.entry(counted).or_default() += 1;
        }
    }

    /// Notes a turn of a worker, before it is taken.
    pub fn note_image(&mut self, run: &Run, worker: u8) {
        if !run.commands.iter().any(|it| it.kind == Kind::Checkpoint) {
            return;
        }
        for imaged in Imaged::of(run, worker) {
            *self.imaged.entry(imaged).or_default() += 1;
        }
    }

    /// Notes what a writing turn moves.
    pub fn note_moves(&mut self, run: &Run, after: &Run) {
        for own in looked_up(run) {
            let key = run.command(own).map(|command| command.key);
            let [before, now] = [run, after].map(|run| {
                let used = &run.store.keys[..run.store.used.into()];
                used.iter().position(|it| Some(*it) == key)
            });
            if let (Some(before), Some(now)) = (before, now) {
                self.moves[0] += usize::from(now > before);
                self.moves[1] += usize::from(now < before);
            }
        }
    }
}

/// The records of the workers that are looked-up.
fn looked_up(run: &Run) -> impl Iterator<Item = u8> {
    let workers = &run.parties[1..=usize::from(run.largest)];
    workers.iter().filter_map(|party| match party {
        Party::LookedUp { own, .. } => Some(*own),
        _ => None,
    })
}
