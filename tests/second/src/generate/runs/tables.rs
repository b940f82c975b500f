//! Depots that show another table than document 02's A.10 asks for, each by a rule that is near it,
//! as long as a run is not at its end: what they do, and how the run ends, is the second program's.
//! They are played on both sides, so that nothing but serial runs can tell. Two written commands
//! whose effects are exchanged are no such rule where they are independent: the table is the same.

use std::cell::RefCell;
use std::collections::HashMap;
use std::ops::Range;

use super::dealings::WAYS;
use super::openings::Opening;
use super::{
    ANNOUNCEMENTS, CHECKPOINTS, DISPATCHES, FIXED, PASSES, READS, ROUND, SHIFTS, SWAPS,
    announcements, checkpoints, limits, passes, play, reads, schedules, shifts,
};
use crate::bytes::{self, FREE, USED};
use crate::calls::{Given, LentLists};
use crate::command::Kind;
use crate::depot::altered::Altered;
use crate::depot::{Depot, Second};
use crate::generate::images::Draft;
use crate::image;
use crate::play::Play;
use crate::random::Random;
use crate::run::{Party, Run};
use crate::script::Step;
use crate::serial::{self, Entries, written};
use crate::store::Store;

/// Whose table is shown.
#[derive(Clone, Copy, Debug, PartialEq, Eq)]
enum Shown {
    /// The written commands but the last of them.
    Behind,
    /// Those, and the ones that workers have taken.
    Ahead,
    /// All commands up to the last that is written.
    UpToTheLast,
    /// All commands that are loaded.
    Loaded,
    /// Those before the last checkpoint, once it is written.
    Imaged,
    /// All commands, once a worker change is written.
    Changed,
    /// The written commands, on an empty store whatever the run was opened from.
    FromNothing,
}

impl Shown {
    const ALL: [Shown; 7] = [
        Shown::Behind,
        Shown::Ahead,
        Shown::UpToTheLast,
        Shown::Loaded,
        Shown::Imaged,
        Shown::Changed,
        Shown::FromNothing,
    ];

    /// Whether the command of a place is one of them.
    fn has(self, run: &Run, place: usize) -> bool {
        let written = written(&run.answers);
        let last_of = |kinds: &[Kind]| {
            let of = |place: &usize| kinds.contains(&run.commands[place - 1].kind);
            (1..=run.commands.len()).rfind(|place| of(place) && written(*place))
        };
        let last = last_of(&Kind::ALL);
        match self {
            Shown::Behind => written(place) && Some(place) != last,
            Shown::Ahead => written(place) || is_taken(run, place),
            Shown::UpToTheLast => Some(place) <= last,
            Shown::Loaded => place <= run.loaded.into(),
            Shown::Imaged => match last_of(&[Kind::Checkpoint]) {
                Some(checkpoint) => place < checkpoint,
                None => written(place),
            },
            Shown::Changed => written(place) || last_of(&[Kind::Workers]).is_some(),
            Shown::FromNothing => written(place),
        }
    }

    /// The table that is shown of a run whose store had these entries at its opening.
    fn table(self, run: &Run, entries: &Entries) -> Store {
        let (room, commands) = (run.settings.room, &run.commands);
        let nothing = Entries::new();
        let first = match self {
            Shown::FromNothing => &nothing,
            _ => entries,
        };
        match run.is_finished() {
            true => serial::table_of(entries, room, commands, |_| true),
            false => serial::table_of(first, room, commands, |place| self.has(run, place)),
        }
    }
}

/// Whether a worker has taken the command of a place and not written it.
fn is_taken(run: &Run, place: usize) -> bool {
    run.parties.iter().any(|party| match party {
        Party::Holding { own } | Party::LookedUp { own, .. } => {
            usize::from(run.records.place[usize::from(*own)]) == place
        }
        _ => false,
    })
}

/// The second program, which shows such a table.
struct Showing {
    shown: Shown,
    /// What the store had when a list was opened.
    opened: RefCell<HashMap<Vec<u8>, Entries>>,
}

impl Showing {
    fn new(shown: Shown) -> Showing {
        Showing {
            shown,
            opened: RefCell::default(),
        }
    }

    /// Shows the table of the lists as the calls left them.
    fn show(&self, lent: &mut LentLists, commands: &[u8], entries: &Entries) {
        if let Ok(run) = bytes::read(lent.handed(commands)) {
            put(lent, &self.shown.table(&run, entries));
        }
    }
}

/// Puts a table into lists of its room.
fn put(lent: &mut LentLists, table: &Store) {
    bytes::write_words(&table.keys, lent.keys);
    bytes::write_numbers(&table.chutes, lent.chutes);
    bytes::write_numbers(&[table.used], &mut lent.state[USED..FREE]);
}

/// A dispatch goes on with the table that is shown.
impl Altered for Showing {
    fn open(&self, lent: &mut LentLists, given: Given) -> u64 {
        let answer = Second.open(lent, given);
        if answer == 0 {
            let store = given.source.and_then(|source| image::read(source).ok());
            let entries = store.map_or(Entries::new(), |store| store.entries().collect());
            self.show(lent, given.commands, &entries);
            let commands = given.commands.to_vec();
            self.opened.borrow_mut().insert(commands, entries);
        }
        answer
    }

    /// Goes on with the table of the written commands, and shows the other.
    fn advance(&self, lent: &mut LentLists, commands: &[u8], schedule: &[u8]) -> u64 {
        let opened = self.opened.borrow().get(commands).cloned();
        let run = bytes::read_with_image(lent.handed(commands), lent.image);
        let (Some(entries), Ok(run)) = (opened, run) else {
            return Second.advance(lent, commands, schedule);
        };
        let room = run.settings.room;
        let right = serial::table_of(&entries, room, &run.commands, written(&run.answers));
        put(lent, &right);
        match Second.advance(lent, commands, schedule) {
            0 => self.show(lent, commands, &entries),
            refused => {
                put(lent, &run.store);
                return refused;
            }
        }
        0
    }
}

/// Asserts that serial runs tell such a table in one of these runs, where no dispatch from it is told
/// first.
fn assert_told(shown: Shown, runs: Vec<u64>) {
    let first = runs[0];
    let told = runs.into_iter().find_map(|index| {
        let depot = Showing::new(shown);
        let mut playing = Play::alone(&depot);
        let told = play(1, index, &mut playing).err();
        told.filter(|_| !matches!(playing.steps.last(), Some(Step::Dispatch(_))))
    });
    let difference = told.unwrap_or_else(|| panic!("{shown:?}, {first} and on"));
    println!("{shown:?}, {first} and on: {difference}");
    assert!(difference.contains("of the written commands alone"));
}

/// Random runs of these kinds of a round.
fn rounds(kinds: Range<u64>) -> Vec<u64> {
    let rounds = (0..60).map(|round| FIXED + round * ROUND);
    let runs = rounds.flat_map(|first| kinds.clone().map(move |kind| first + kind));
    runs.collect()
}

/// The runs of each way of dealing, of a sort that begins at an index.
fn ways(first: u64, forms: u64, ways: u64) -> impl Iterator<Item = Vec<u64>> {
    let starts = (0..ways).map(move |way| first + way * forms);
    starts.map(move |start| (start..start + forms).collect())
}

/// Runs of every sort that deals turns, and of every way of dealing them: whole, wide and long
/// ones, ones whose lists are changed later, ones with a call for each turn, swaps, and the rest.
fn sorts() -> Vec<Vec<u64>> {
    let mut sorts = vec![
        rounds(0..16),
        rounds(16..17),
        vec![limits::COUNT + 3, limits::COUNT + 7],
        rounds(17..20),
        rounds(21..22),
        (SWAPS + 1..DISPATCHES).collect(),
    ];
    sorts.extend(ways(ANNOUNCEMENTS, announcements::FORMS, WAYS));
    sorts.extend(ways(READS, reads::FORMS, WAYS));
    sorts.extend(ways(PASSES, passes::FORMS, WAYS));
    sorts.extend(ways(SHIFTS, shifts::FORMS, WAYS + 1));
    sorts.extend(ways(CHECKPOINTS, checkpoints::FORMS, WAYS));
    sorts
}

/// Document 02, A.10: "after every turn of every dealing, the store shall equal what the commands
/// already written give when run alone in delivery order". A table that lacks one of them, or has
/// one that is not written, is told in runs of every sort.
#[test]
fn a_table_behind_or_ahead_is_told_in_every_sort_of_runs() {
    for shown in [Shown::Behind, Shown::Ahead, Shown::Loaded] {
        for runs in sorts() {
            assert_told(shown, runs);
        }
    }
}

/// Every other rule is told where it can be: in lists with commands that pass others, with a
/// checkpoint, with a worker change, and in runs that are opened from an image.
#[test]
fn other_tables_are_told() {
    for runs in [rounds(0..16), (PASSES..SHIFTS).collect()] {
        assert_told(Shown::UpToTheLast, runs);
    }
    for runs in [CHECKPOINTS..SWAPS, SWAPS + 1..DISPATCHES] {
        assert_told(Shown::UpToTheLast, runs.clone().collect());
        assert_told(Shown::Imaged, runs.collect());
    }
    for runs in [SHIFTS..CHECKPOINTS, CHECKPOINTS..SWAPS] {
        assert_told(Shown::Changed, runs.collect());
    }
    assert_told(Shown::FromNothing, (SWAPS + 1..DISPATCHES).collect());
}

/// At the end of a run, whose turns have a call each, none of them is told.
#[test]
fn no_such_table_is_told_at_the_end() {
    for shown in Shown::ALL {
        for form in (0..checkpoints::FORMS).step_by(17) {
            let random = &mut Random::new(form);
            let depot = Showing::new(shown);
            let play = &mut Play::alone(&depot);
            let opening: Opening = checkpoints::opening(form, random);
            let source = Draft::any(random, opening.room as u16, 1).bytes();
            let opened = opening.open_from(source, play);
            opened.expect("it is opened");
            let turns = schedules::to_the_end(random, play.host(), 20_000);
            let calls = turns.into_iter().map(|party| Step::Advance(vec![party]));
            let ended = play.take_all(calls.chain([Step::Serial]));
            assert_eq!(ended, Ok(0), "{shown:?}");
            assert!(play.host().run().is_some_and(|run| run.is_finished()));
        }
    }
}
