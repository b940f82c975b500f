//! Every order of turns of small settings: all states that any dealing reaches, judged by the
//! serial run, and all turns that lead from one to another. Demand 3 of document 00 is what is held
//! against the states, and the order of a worker's states against the turns; the sets of the
//! records, and who is written before whom, are held against the dependence of documents 01 and 02,
//! who begins a search and takes a command against the worker counts of document 02's A.2, the
//! image against its A.3, and the table of every state against its A.10. From every state is
//! dispatched on a copy, which is held against A.6; and from every state and party plain round-robin
//! is followed to its finish.

mod judge;
mod lists;
mod met;
mod round_robin;
mod search;

use std::panic::{AssertUnwindSafe, catch_unwind};

use judge::{Judge, depends};
use lists::{beside, changing, lists, served, settings, with_checkpoints};
use met::{Counted, Imaged, Met};
use search::{every_order, every_order_by};
use second::command::Command;
use second::command::Kind::{self, Delete, Insert, Read, Update};
use second::dispatch::dispatch;
use second::image;
use second::run::{Party, Run};
use second::serial::{self, Entries};
use second::store::Store;

/// What the settings of these sizes meet, with these commands, and up to two workers and two
/// entries.
fn met_by(sizes: &[u8], lists: &[Vec<Command>]) -> Met {
    let mut met = Met::default();
    for size in sizes {
        for workers in 1..=2 {
            for room in 1..=2 {
                for list in lists {
                    every_order(served(settings(*size, workers, room), &[], list), &mut met);
                }
            }
        }
    }
    met
}

#[test]
fn every_order_of_up_to_two_commands() {
    for count in 0..=2 {
        assert!(met_by(&[1, 2, 3], &lists(count, 2)).states >= 12);
    }
}

/// Also: each command passes, in one order of turns or another, each that it does not depend on.
/// That it passes no other is held at each turn. And there are states whose table tells the written
/// commands from all up to the last of them, and from all that are loaded.
#[test]
fn every_order_of_three_commands() {
    let met = met_by(&[1, 2, 3], &lists(3, 2));
    assert!(met.states > 1_000_000);
    // In a graph of one record with one worker: the end of a search, and nine turns a command.
    assert_eq!(met.nearest, (1 + 3 * 9, (3 + 1) * 9));
    assert!(met.others.iter().all(|it| *it > 1000), "{:?}", met.others);
    for earlier in Kind::OF_ITEMS {
        for later in Kind::OF_ITEMS {
            for same_item in [true, false] {
                let it = (earlier, later, same_item);
                let passes = met.count(|pass| (pass.earlier, pass.later, pass.same_item) == it);
                assert_eq!(passes > 0, !depends(earlier, later, same_item), "{it:?}");
            }
        }
    }
}

/// Four commands: all lists on one key, and every ninth on two keys.
#[test]
fn every_order_of_four_commands() {
    let two_keys: Vec<Vec<Command>> = lists(4, 2).into_iter().step_by(9).collect();
    let met = met_by(&[3], &[lists(4, 1), two_keys].concat());
    assert!(met.states > 1_000_000);
}

/// A store that is filled first, and the lists that come then.
struct Stocked {
    keys: &'static [u64],
    room: u16,
    /// The lists have keys below this.
    below: u64,
    /// Of how many lists one is searched with two workers, and with three.
    steps: [usize; 2],
}

impl Stocked {
    const fn new(keys: &'static [u64], room: u16, below: u64, steps: [usize; 2]) -> Stocked {
        Stocked {
            keys,
            room,
            below,
            steps,
        }
    }

    fn met(&self) -> Met {
        let mut met = Met::default();
        let lists = beside(self.below);
        for (workers, step) in [2, 3].into_iter().zip(self.steps) {
            for list in lists.iter().step_by(step) {
                let first = served(settings(3, workers, self.room), self.keys, list);
                every_order(first, &mut met);
            }
        }
        met
    }

    fn is_full(&self) -> bool {
        self.keys.len() == self.room.into()
    }
}

/// Full ones and ones with a place left. Key 0 is absent at first and below all others.
const STOCKED: [Stocked; 4] = [
    Stocked::new(&[1], 1, 2, [1, 11]),
    Stocked::new(&[1], 2, 2, [1, 11]),
    Stocked::new(&[1, 2], 2, 3, [7, 59]),
    Stocked::new(&[1, 2], 3, 3, [7, 59]),
];

/// Document 02, A.5: reads and updates are written while an insert or a delete of another item that
/// was delivered earlier is looked-up and unwritten, in full stores and in others; and entries move
/// up and down between a worker's look-up and its writing, where there is more than one.
#[test]
fn every_order_beside_inserts_and_deletes() {
    for stocked in STOCKED {
        let met = stocked.met();
        for earlier in [Insert, Delete] {
            for later in [Read, Update] {
                let passes = met.count(|pass| {
                    let pair = (pass.earlier, pass.later) == (earlier, later);
                    pair && pass.looked_up && pass.full == stocked.is_full()
                });
                assert!(passes > 0, "{earlier:?}, {later:?}, {:?}", stocked.keys);
            }
        }
        let moved = met.moves.map(|turns| turns > 0);
        assert_eq!(moved, [stocked.room > 1; 2], "{:?}", stocked.keys);
    }
}

/// Searches lists with openings of one to three workers, in graphs of these sizes.
fn met_changing(lists: &[Vec<Command>], sizes: &[u8]) -> Met {
    let mut met = Met::default();
    for size in sizes {
        for workers in 1..=3 {
            for list in lists {
                every_order(served(settings(*size, workers, 1), &[], list), &mut met);
            }
        }
    }
    println!(
        "{} settings, {} states, {:?}",
        met.settings, met.states, met.counted
    );
    met
}

/// Document 02, A.2: all lists of up to three commands with a worker change among them. Counts go
/// up and down, to 1 and above the opening's, and each situation is met.
#[test]
fn every_order_with_worker_changes() {
    met_changing(&changing(1, 3), &[1, 2]);
    met_changing(&changing(2, 3), &[1, 2, 3]);
    let met = met_changing(&changing(3, 3), &[1, 2, 3]);
    for counted in Counted::ALL {
        assert!(met.counted.get(&counted) > Some(&0), "{counted:?}");
    }
}

/// The same with four commands: every so many of the lists.
#[test]
fn every_order_with_worker_changes_among_four_commands() {
    let lists: Vec<Vec<Command>> = changing(4, 3).into_iter().step_by(61).collect();
    let met = met_changing(&lists, &[3, 4]);
    for counted in Counted::ALL {
        assert!(met.counted.get(&counted) > Some(&0), "{counted:?}");
    }
}

/// Document 02, A.3: all lists of up to three commands with a checkpoint among them, and every so many
/// of four, with the image judged in each state. Each situation is met, a table that gets shorter by
/// four commands alone.
#[test]
fn every_order_with_checkpoints() {
    met_by(&[1, 2], &with_checkpoints(1));
    met_by(&[1, 2, 3], &with_checkpoints(2));
    let three = met_by(&[1, 2, 3], &with_checkpoints(3));
    let mut lists: Vec<Vec<Command>> = with_checkpoints(4).into_iter().step_by(11).collect();
    lists.push(insert_and_delete());
    let four = met_by(&[2, 4], &lists);
    for (count, met) in [(3, three), (4, four)] {
        println!(
            "{} settings, {} states, {:?}",
            met.settings, met.states, met.imaged
        );
        for imaged in Imaged::ALL {
            let expected = count == 4 || imaged != Imaged::Shorter;
            let found = met.imaged.contains_key(&imaged);
            assert_eq!(found, expected, "{imaged:?}, {count} commands");
        }
    }
}

/// A list with a checkpoint behind an insert, and another behind the item's delete.
fn insert_and_delete() -> Vec<Command> {
    let item = |kind, chute| Command {
        kind,
        key: 0,
        chute,
    };
    let checkpoint = Command::CHECKPOINT;
    vec![item(Insert, 7), checkpoint, item(Delete, 0), checkpoint]
}

/// Each image that a run of a list writes, with the place of its checkpoint.
fn images(run: &mut Run) -> Vec<(usize, Vec<u8>)> {
    let mut images = Vec::new();
    while !run.is_finished() {
        for party in 0..=run.largest {
            let before = run.image.clone();
            run.turn(party);
            if let (true, Some(image)) = (run.image != before, &run.image) {
                images.push((image::place(image) as usize, image.clone()));
            }
        }
    }
    images
}

/// Document 02, A.3: "A run opened from an image with the rest of the list must give the answers and
/// table of the unbroken run", here in every order of turns of the rest, with another size and other
/// workers, and from the image of every checkpoint of a list.
#[test]
fn every_order_from_the_image_of_every_checkpoint() {
    let mut met = Met::default();
    for list in with_checkpoints(4).into_iter().step_by(3) {
        for room in 1..=2 {
            let whole = serial::run(room.into(), &list);
            for (place, image) in images(&mut Run::open(settings(2, 1, room), list.clone())) {
                let store = image::read(&image).expect("a right image");
                let entries: Entries = store.entries().collect();
                let rest = list[place..].to_vec();
                let first = Run::open_with(settings(3, 2, room), rest, store);
                let judge = Judge::of(&first, &entries);
                assert_eq!(judge.outcome.answers, whole.answers[place..]);
                assert_eq!(judge.outcome.entries, whole.entries);
                every_order_by(&judge, first, &mut met);
            }
        }
    }
    assert!(met.settings > 500 && met.states > 100_000, "{}", met.states);
}

/// The judge notices an image that is written at the look-up, that is not written at the writing
/// turn, that has the place of the next command or none, and that keeps records of an earlier one.
#[test]
fn the_judge_notices_a_wrong_image() {
    let mut run = Run::open(settings(1, 1, 1), insert_and_delete());
    let judge = Judge::of(&run, &Entries::new());
    let notices = |run: &Run, change: &dyn Fn(&mut Vec<u8>)| {
        let mut other = run.clone();
        change(other.image.as_mut().expect("an image"));
        catch_unwind(AssertUnwindSafe(|| judge.hold(&other))).is_err()
    };
    for place in [2, 4] {
        let looked_up = Party::LookedUp { own: 1, found: 0 };
        while run.loaded < place || run.parties[1] != looked_up {
            run.advance(&[0, 1]);
        }
        let before = run.image.clone().expect("an image");
        let store = run.store.clone();
        assert!(notices(&run, &|image| image::write(&store, place, image)));
        run.advance(&[1]);
        judge.hold(&run);
        assert!(notices(&run, &|image| image.clone_from(&before)));
        assert!(notices(&run, &|image| image[image::KEY + 7] += 1));
        assert!(notices(&run, &|image| image[image::KEY + 7] = 0));
        let stale = |image: &mut Vec<u8>| image[image::RECORD..].fill(1);
        assert!(notices(&run, &stale));
        assert!(!notices(&run, &|_| {}));
    }
}

/// A list on a store with item 9: the second and the third command pass the first where it is held.
fn passing() -> Vec<Command> {
    let item = |kind, key, chute| Command { kind, key, chute };
    vec![
        item(Insert, 5, 7),
        item(Update, 9, 8),
        item(Read, 9, 0),
        Command::workers(1),
        item(Delete, 9, 0),
    ]
}

/// Tables of the list of `passing` that are not those of its written commands: without the last of
/// them, with the insert, of all up to the last of them, of all loaded, of all, and without what
/// the run was opened from.
fn other_tables(run: &Run, entries: &Entries) -> [Store; 6] {
    let written = |place: usize| judge::is_written(run, place as u16);
    let last = (1..=5).rfind(|place| written(*place)).unwrap_or(0);
    let loaded = usize::from(run.loaded);
    let of = |chosen: &dyn Fn(usize) -> bool| serial::table_of(entries, 2, &run.commands, chosen);
    [
        of(&|place| written(place) && place != last),
        of(&|place| written(place) || place == 1),
        of(&|place| place <= last),
        of(&|place| place <= loaded),
        of(&|_| true),
        serial::table_of(&Entries::new(), 2, &run.commands, written),
    ]
}

/// Document 02, A.10: the judge notices each of these tables in every state in which it is another,
/// however soon it is the right one again; and nothing where it is not. The insert is taken, and
/// the update and the read are removed before it.
#[test]
fn the_judge_notices_a_wrong_table() {
    let entries = Entries::from([(9, 4)]);
    let store = serial::table(2, &entries);
    let mut run = Run::open_with(settings(4, 2, 2), passing(), store);
    let judge = Judge::of(&run, &entries);
    let mut noticed = [0; 6];
    let first = [[0; 14].as_slice(), &[1, 1, 1], &[2; 30]].concat();
    for party in [first, [0, 1, 2].repeat(40)].concat() {
        run.turn(party);
        judge.hold(&run);
        for (count, table) in noticed.iter_mut().zip(other_tables(&run, &entries)) {
            let mut other = run.clone();
            other.store = table;
            let notices = catch_unwind(AssertUnwindSafe(|| judge.hold(&other))).is_err();
            assert_eq!(notices, other.store != run.store);
            *count += usize::from(notices);
        }
    }
    assert!((1..=5).all(|place| judge::is_written(&run, place)));
    assert!(noticed.iter().all(|states| *states >= 3), "{noticed:?}");
}

/// Document 02, A.6: the judge notices a dispatch that stops before its last turn, one that reports
/// other turns than it makes, a turn too many or too few, and one that makes more than the bound, in
/// every state from which there is something to do.
#[test]
fn the_judge_notices_a_wrong_dispatch() {
    let mut run = Run::open(settings(2, 2, 2), passing());
    let judge = Judge::of(&run, &Entries::new());
    let notices = |run: &Run, turns: &[u8], after: &Run| {
        let held = || judge.hold_dispatch(run, turns, after);
        catch_unwind(AssertUnwindSafe(held)).is_err()
    };
    let mut states = 0;
    while !run.is_finished() {
        let mut after = run.clone();
        let turns = dispatch(&mut after);
        assert!(!notices(&run, &turns, &after));
        let (_, fewer) = turns.split_last().expect("a turn");
        let mut stopped = run.clone();
        stopped.advance(fewer);
        assert!(notices(&run, fewer, &stopped));
        assert!(notices(&run, fewer, &after));
        assert!(notices(&run, &[&turns[..], &[1]].concat(), &after));
        let waits = vec![0; judge::bound(&run) as usize + 1 - turns.len()];
        let allowed = [&turns[..], &waits[1..]].concat();
        assert!(!notices(&run, &allowed, &after));
        assert!(notices(&run, &[allowed, vec![0]].concat(), &after));
        run.advance(&[states % 3]);
        states += 1;
    }
    assert!(states > 50, "{states}");
}
