//! The dispatcher of document 02's A.6: the turns that it gives, and how many are enough.
//!
//! "With n commands that are not yet loaded or whose records are not yet returned, w the largest
//! worker count and s the graph size, it uses at most (n + w) × (3 × s + 6) turns." Which turns is
//! left open; chosen is that first whoever stands furthest along the chain walks to its end, so that
//! nobody is in the way, then whoever has a record finishes with it, and then worker 1 and the loader
//! do all the rest, a record after the other.

use crate::run::{Party, Run};

/// How many turns are enough; n counts the commands that are not loaded, and each record, up to the
/// graph size, that has a command.
pub fn turns_needed(run: &Run) -> u64 {
    let size = run.settings.size;
    let not_loaded = run.commands.len().saturating_sub(run.loaded.into());
    let places = &run.records.place[..=usize::from(size)];
    let not_returned = places.iter().filter(|place| **place != 0).count();
    let parts = (not_loaded + not_returned) as u64 + u64::from(run.largest);
    parts * (3 * u64::from(size) + 6)
}

/// Makes turns up to the end of the run, or as many as are enough where that is no end; these turns.
pub fn dispatch(run: &mut Run) -> Vec<u8> {
    let mut dispatcher = Dispatcher {
        left: turns_needed(run),
        run,
        turns: Vec::new(),
    };
    while let Some(party) = foremost(dispatcher.run).filter(|_| dispatcher.left > 0) {
        dispatcher.give(party, |party| party.at().is_some());
    }
    while let Some(party) = alone(dispatcher.run).filter(|_| dispatcher.left > 0) {
        dispatcher.give(party, |party| party != Party::Idle);
    }
    dispatcher.turns
}

struct Dispatcher<'a> {
    run: &'a mut Run,
    /// How many turns may still be given.
    left: u64,
    turns: Vec<u8>,
}

impl Dispatcher<'_> {
    /// Gives a party turns, one at least, for as long as it is so behind them.
    fn give(&mut self, party: u8, goes_on: fn(Party) -> bool) {
        while self.left > 0 {
            self.run.turn(party);
            self.turns.push(party);
            self.left -= 1;
            if !goes_on(self.run.parties[usize::from(party)]) {
                return;
            }
        }
    }
}

/// The party of the largest rank, the first of several; none where all are idle.
fn foremost(run: &Run) -> Option<u8> {
    let parties = (0..=run.largest).filter(|party| rank(run, *party) > 0);
    parties.rev().max_by_key(|party| rank(run, *party))
}

/// How far along a party is: by the place of the record where it stands, behind all of these if it
/// has a record and stands nowhere, and 0 if it is idle.
fn rank(run: &Run, party: u8) -> u32 {
    match run.parties[usize::from(party)] {
        Party::Idle => 0,
        party => party.at().map_or(1, |at| {
            let place = run.records.place[usize::from(at)];
            2 + u32::from(place)
        }),
    }
}

/// Who goes on when all were idle: worker 1 while there is a record in the chain, and else the loader
/// while there is a command to load.
fn alone(run: &Run) -> Option<u8> {
    let chained = run.chain().next().is_some();
    let unloaded = usize::from(run.loaded) < run.commands.len();
    match (chained, unloaded) {
        (true, _) => Some(1),
        (false, true) => Some(0),
        (false, false) => None,
    }
}

#[cfg(test)]
mod tests {
    use super::*;
    use crate::command::{Command, Kind};
    use crate::run::Settings;

    fn run(size: u8, workers: u8, kinds: &[Kind]) -> Run {
        let settings = Settings {
            size,
            workers,
            room: 2,
        };
        let command = |kind: &Kind| Command {
            kind: *kind,
            key: 5,
            chute: if kind.carries_chute() { 7 } else { 0 },
        };
        Run::open(settings, kinds.iter().map(command).collect())
    }

    /// Document 01's example, from its opening: (2 + 1) × (3 × 2 + 6) turns are enough.
    #[test]
    fn the_example_from_its_opening() {
        let mut run = run(2, 1, &[Kind::Insert, Kind::Read]);
        assert_eq!(turns_needed(&run), 36);
        let insert = [0, 0, 1, 1, 1, 1, 1, 1, 1];
        let read = [0, 0, 1, 1, 1, 1, 1, 1];
        assert_eq!(dispatch(&mut run), [&insert[..], &read].concat());
        assert!(run.is_finished());
        assert_eq!(run.answers, [1000, 7]);
        assert_eq!(turns_needed(&run), 12);
        assert_eq!(dispatch(&mut run), []);
    }

    /// Worker 1 holds command 1, worker 2 command 2, worker 3 searches at record 3 and the loader
    /// stands on record 1. Worker 3 stands furthest along and walks to its end first, then the
    /// loader; of the two that hold, worker 1 finishes first.
    #[test]
    fn who_is_furthest_along_goes_first() {
        let mut run = run(4, 3, &[Kind::Read, Kind::Read, Kind::Insert, Kind::Read]);
        let loaded = [0; 2 + 3 + 4];
        run.advance(&[&loaded[..], &[1, 1, 2, 2, 2], &[3, 3, 3, 3], &[0, 0]].concat());
        let parties = [
            Party::Loading { at: 1, own: 4 },
            Party::Holding { own: 1 },
            Party::Holding { own: 2 },
            Party::Searching { at: 3 },
        ];
        assert_eq!(run.parties[..4], parties);
        assert_eq!(turns_needed(&run), (4 + 3) * 18);
        let turns = dispatch(&mut run);
        let walks = [3, 0, 0, 0];
        // Each holder writes, locks the head, walks to its record, bypasses it and clears to the end.
        let holders = [[1; 7].as_slice(), &[2; 6]].concat();
        assert_eq!(turns[..17], [&walks[..], &holders].concat());
        assert!(turns[17..].iter().all(|party| *party == 1));
        assert!(run.is_finished());
    }

    /// Two that stand on records of one place, as no dealing leaves them: the smaller number first.
    #[test]
    fn of_equal_ranks_the_smallest_number_goes_first() {
        let mut run = run(2, 3, &[]);
        run.parties[2] = Party::Searching { at: 1 };
        run.parties[3] = Party::Searching { at: 2 };
        run.records.place[..3].copy_from_slice(&[0, 1, 1]);
        run.records.next.fill(0);
        assert_eq!(dispatch(&mut run), [2, 3]);
    }

    /// A head that stays locked, and a chain that leads back to itself, as no dealing leaves them:
    /// the bound ends it.
    #[test]
    fn no_more_turns_than_are_enough() {
        let mut locked = run(2, 1, &[Kind::Read]);
        locked.records.locked[0] = true;
        assert_eq!(dispatch(&mut locked), [0; 24]);
        let mut circle = run(2, 2, &[]);
        circle.parties[2] = Party::Searching { at: 1 };
        circle.records.next[..3].copy_from_slice(&[1, 2, 1]);
        circle.records.executing.fill(true);
        assert_eq!(dispatch(&mut circle), [2; 24]);
    }

    /// The head's own place counts, as does a record's that is in no chain; one past the graph size
    /// does not.
    #[test]
    fn records_with_a_place_count() {
        let mut run = run(3, 2, &[Kind::Read, Kind::Read]);
        assert_eq!(turns_needed(&run), (2 + 2) * 15);
        run.records.place[..5].copy_from_slice(&[1, 0, 0, 2, 2]);
        assert_eq!(turns_needed(&run), (2 + 2 + 2) * 15);
        run.loaded = 2;
        assert_eq!(turns_needed(&run), (2 + 2) * 15);
    }
}
