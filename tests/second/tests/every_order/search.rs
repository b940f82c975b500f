//! The search of all states that dealings reach from a run.

use std::collections::HashMap;

use second::bytes::party_bytes;
use second::dispatch::dispatch;
use second::run::{Party, Run};
use second::serial::Entries;

use crate::judge::{Judge, bound, hold_count, hold_pass, hold_turn};
use crate::met::{Met, passes};
use crate::round_robin::Turns;

/// The states of one setting, numbered as they are met, and which leads to which.
#[derive(Default)]
struct Search {
    numbers: HashMap<Vec<u8>, usize>,
    /// For each state, those that a turn leads from to it.
    before: Vec<Vec<usize>>,
    finished: Vec<usize>,
}

/// Searches all states that dealings reach from a run that was opened with an empty store, judges
/// each and each turn, and notes what is met.
pub fn every_order(first: Run, met: &mut Met) {
    let judge = Judge::of(&first, &Entries::new());
    every_order_by(&judge, first, met);
}

/// The same with a judge of its own.
pub fn every_order_by(judge: &Judge, first: Run, met: &mut Met) {
    let mut search = Search::default();
    let mut turns = Turns::of(usize::from(first.largest) + 1);
    let most = most_rounds(&first) * (u32::from(first.largest) + 1);
    let mut left = Vec::from([(search.meet(&first), first)]);
    while let Some((number, run)) = left.pop() {
        judge.hold(&run);
        met.note_tables(judge.others(&run));
        hold_dispatch(judge, &run, met);
        for party in 0..=run.largest {
            let mut after = run.clone();
            let moved = after.turn(party);
            hold_worker(&run, party, &after, met);
            if !moved {
                assert_eq!(after, run, "a wait changes nothing");
                turns.note(number, party, number);
                continue;
            }
            hold_step(&run, party, &after, met);
            let known = search.before.len();
            let to = search.meet(&after);
            assert_ne!(to, number, "a turn that is no wait changes something");
            search.before[to].push(number);
            turns.note(number, party, to);
            if to == known {
                left.push((to, after));
            }
        }
    }
    let states = search.before.len();
    assert_eq!(search.leading_to_a_finish(), states, "{judge:?}");
    assert!(
        turns.most_to_a_finish(&search.finished) <= most,
        "{judge:?}"
    );
    met.states += states;
    met.settings += 1;
}

/// How many rounds of round-robin finish a list, as far as was tried.
fn most_rounds(first: &Run) -> u32 {
    let [workers, size] = [first.largest, first.settings.size].map(u32::from);
    first.commands.len() as u32 * (2 * workers + size + 6) + 2
}

/// Judges a dispatch from a state, on a copy, and notes how many turns it used.
fn hold_dispatch(judge: &Judge, run: &Run, met: &mut Met) {
    let mut after = run.clone();
    let turns = dispatch(&mut after);
    judge.hold_dispatch(run, &turns, &after);
    met.note_dispatch(turns.len() as u64, bound(run));
}

/// Judges a turn that is no wait by the order of a party's states, and a writing turn by whom it
/// passes.
fn hold_step(run: &Run, party: u8, after: &Run, met: &mut Met) {
    hold_turn(run, party, after);
    if let Party::Written { own } = after.parties[usize::from(party)] {
        passes(run, own).for_each(|pass| {
            hold_pass(&pass);
            met.note_pass(pass);
        });
        met.note_moves(run, after);
    }
}

/// Judges a turn by the worker counts, and notes it, if it is a worker's.
fn hold_worker(run: &Run, party: u8, after: &Run, met: &mut Met) {
    if party > 0 {
        hold_count(run, party, after);
        met.note_count(run, party, after);
        met.note_image(run, party);
    }
}

impl Search {
    /// The number of a state, a new one where it is met first.
    fn meet(&mut self, run: &Run) -> usize {
        let new = self.before.len();
        let number = *self.numbers.entry(short(run)).or_insert(new);
        if number == new {
            self.before.push(Vec::new());
            if run.is_finished() {
                self.finished.push(number);
            }
        }
        number
    }

    /// How many states some dealing leads from to a finished one.
    fn leading_to_a_finish(&self) -> usize {
        let mut leads = vec![false; self.before.len()];
        let mut left = self.finished.clone();
        while let Some(number) = left.pop() {
            if !leads[number] {
                leads[number] = true;
                left.extend(&self.before[number]);
            }
        }
        leads.into_iter().filter(|it| *it).count()
    }
}

/// All that can differ between two states of a setting with fewer than 64 records.
fn short(run: &Run) -> Vec<u8> {
    let records = &run.records;
    let mut bytes = Vec::with_capacity(128);
    bytes.extend([run.loaded as u8, records.free, run.store.used as u8]);
    bytes.push(run.in_force as u8);
    for record in 0..=usize::from(run.settings.size) {
        bytes.push(records.next[record]);
        bytes.push(records.place[record] as u8);
        bytes.push(u8::from(records.executing[record]) + 2 * u8::from(records.locked[record]));
        bytes.push(records.set[record][0] as u8);
    }
    for party in &run.parties[..=usize::from(run.largest)] {
        bytes.extend(party_bytes(*party));
    }
    bytes.extend(run.store.keys.iter().map(|key| *key as u8));
    bytes.extend(run.store.chutes.iter().map(|chute| *chute as u8));
    bytes.extend(run.answers.iter().flat_map(|answer| answer.to_be_bytes()));
    bytes.extend(run.image.iter().flatten());
    bytes
}
