//! A run: records, parties, store and answers, and what each turn does to them.
//!
//! It is written as document 01's "Records and turns" says it, on arrays, with no allocation in a
//! turn, but the first checkpoint's of a call, and no reading of text, so that it is also the plain
//! program that speed is measured against. Where a state that no dealing reaches leaves the outcome open, it does what
//! docs/DECISIONS.md chose; what an insert, a looked-up read and a record without a command do
//! there is chosen here, by `write` and `look_up`.
//!
//! Document 02, A.2, of kind 5: "From its writing turn, a worker above the count starts no search
//! and waits when idle. One already searching walks to the end and takes nothing; the one that holds
//! the kind 5 command finishes its removal." The count in force at a turn decides of that turn.

use crate::command::{Command, Kind, dependent};
use crate::image;
use crate::serial::{ANNOUNCED_AGAIN, DONE, NO_SUCH_ITEM, STORE_FULL};
use crate::store::Store;

/// Records of the table, the head among them.
pub const RECORDS: usize = 151;
/// Parties of the table, the loader among them.
pub const PARTIES: usize = 65;
/// The record at which every walk begins.
pub const HEAD: u8 = 0;
/// As a next index, the end of a chain.
const END: u8 = 0;

/// What an opening is given besides its commands, each within the bounds that opening tests.
#[derive(Clone, Copy, Debug, PartialEq, Eq)]
pub struct Settings {
    pub size: u8,
    /// The count in force until a worker change is written.
    pub workers: u8,
    pub room: u16,
}

/// A set of records: record n is bit n % 64 of word n / 64.
pub type Set = [u64; 3];

/// The table of records, a list for each thing that a record has.
#[derive(Clone, Debug, PartialEq, Eq, Hash)]
pub struct Records {
    pub next: [u8; RECORDS],
    /// The place of the record's command, from 1; 0 for none.
    pub place: [u16; RECORDS],
    pub executing: [bool; RECORDS],
    pub locked: [bool; RECORDS],
    /// The records that the record waits for.
    pub set: [Set; RECORDS],
    /// The first unused record, 0 for none.
    pub free: u8,
}

/// What a party is doing. `at` is the record it stands on and has locked, `own` the record it
/// loads or removes, `found` the chute that its look-up found, 0 for none and for a command that
/// names no item.
///
/// Document 02, A.5: "A store entry may now move between a worker's look and its writing, so the
/// look keeps what was found and not its place in the store."
#[derive(Clone, Copy, Debug, PartialEq, Eq, Hash)]
pub enum Party {
    Idle,
    /// The loader's walking.
    Loading {
        at: u8,
        own: u8,
    },
    Searching {
        at: u8,
    },
    Holding {
        own: u8,
    },
    /// Between look-up and writing. A read's are one turn, so that no dealing leaves it here.
    LookedUp {
        own: u8,
        found: u16,
    },
    Written {
        own: u8,
    },
    Walking {
        at: u8,
        own: u8,
    },
    Clearing {
        at: u8,
        own: u8,
    },
}

impl Party {
    /// The record that it loads, holds or removes, if it has one.
    pub fn own(self) -> Option<u8> {
        match self {
            Party::Loading { own, .. }
            | Party::Holding { own }
            | Party::LookedUp { own, .. }
            | Party::Written { own }
            | Party::Walking { own, .. }
            | Party::Clearing { own, .. } => Some(own),
            Party::Idle | Party::Searching { .. } => None,
        }
    }

    /// The record that it stands on in the chain, if it stands there.
    pub fn at(self) -> Option<u8> {
        match self {
            Party::Loading { at, .. }
            | Party::Searching { at }
            | Party::Walking { at, .. }
            | Party::Clearing { at, .. } => Some(at),
            Party::Idle
            | Party::Holding { .. }
            | Party::LookedUp { .. }
            | Party::Written { .. } => None,
        }
    }
}

#[derive(Clone, Debug, PartialEq, Eq)]
pub struct Run {
    pub settings: Settings,
    /// The largest worker count of the opening and of the list: the last party that may be named.
    pub largest: u8,
    /// The count in force: the last worker that may begin a search or take a record. It is 1 up to
    /// the largest count at the beginning of a call, and any number behind a worker change that no
    /// opening accepted.
    pub in_force: u16,
    pub commands: Vec<Command>,
    /// How many commands are loaded.
    pub loaded: u16,
    pub records: Records,
    pub parties: [Party; PARTIES],
    pub store: Store,
    /// One a command, 0 where not yet given.
    pub answers: Vec<u16>,
    /// What is written of the image: zeros by opening, and what the last checkpoint wrote. None in a
    /// run that is handed back, up to its next checkpoint: then the image stays as it was.
    pub image: Option<Vec<u8>>,
}

impl Run {
    /// A run at its beginning. Settings and command count are those that opening accepts.
    pub fn open(settings: Settings, commands: Vec<Command>) -> Run {
        Run {
            settings,
            largest: largest_count(settings.workers, &commands),
            in_force: settings.workers.into(),
            loaded: 0,
            records: Records::new(settings.size),
            parties: [Party::Idle; PARTIES],
            store: Store::new(settings.room),
            answers: vec![0; commands.len()],
            image: Some(image::zeros(settings.room)),
            commands,
        }
    }

    /// The same with a store of that room, which an image held.
    pub fn open_with(settings: Settings, commands: Vec<Command>, store: Store) -> Run {
        Run {
            store,
            ..Run::open(settings, commands)
        }
    }

    /// Deals turns to these parties, each at most the largest worker count.
    pub fn advance(&mut self, schedule: &[u8]) {
        for party in schedule {
            self.turn(*party);
        }
    }

    /// One turn of a party that is at most the largest worker count; whether it was more than a
    /// wait.
    #[inline]
    pub fn turn(&mut self, party: u8) -> bool {
        let now = self.parties[usize::from(party)];
        let after = match now {
            Party::Idle if party == 0 => self.load(),
            Party::Idle if !self.allows(party) => None,
            Party::Idle => self.lock_head().map(|at| Party::Searching { at }),
            Party::Loading { at, own } => self.walk_loading(at, own),
            Party::Searching { at } => self.search(at, self.allows(party)),
            Party::Holding { own } => Some(self.look_up(own)),
            Party::LookedUp { own, found } => Some(self.write(own, found)),
            Party::Written { own } => self.lock_head().map(|at| Party::Walking { at, own }),
            Party::Walking { at, own } => self.walk_to_own(at, own),
            Party::Clearing { at, own } => self.clear(at, own),
        };
        if let Some(after) = after {
            self.parties[usize::from(party)] = after;
        }
        after.is_some()
    }

    /// Whether a worker is not above the count in force.
    pub fn allows(&self, worker: u8) -> bool {
        u16::from(worker) <= self.in_force
    }

    /// Whether every command is removed and every party idle.
    pub fn is_finished(&self) -> bool {
        usize::from(self.loaded) == self.commands.len()
            && self.records.next[usize::from(HEAD)] == END
            && self.parties.iter().all(|party| *party == Party::Idle)
    }

    /// The records of the chain in order, cut after as many as can be in it.
    pub fn chain(&self) -> impl Iterator<Item = u8> {
        let next = |record: u8| self.records.next[usize::from(record)];
        std::iter::successors(Some(next(HEAD)), move |record| Some(next(*record)))
            .take_while(|record| *record != END)
            .take(RECORDS - 1)
    }

    /// The loader, idle: takes a record for the next command and stands on the head.
    fn load(&mut self) -> Option<Party> {
        if usize::from(self.loaded) == self.commands.len() || self.records.free == END {
            return None;
        }
        let at = self.lock_head()?;
        self.loaded += 1;
        let own = self.records.take(self.loaded);
        Some(Party::Loading { at, own })
    }

    fn walk_loading(&mut self, at: u8, own: u8) -> Option<Party> {
        if self.records.next[usize::from(at)] == END {
            self.records.next[usize::from(at)] = own;
            self.records.executing[usize::from(own)] = false;
            self.records.locked[usize::from(at)] = false;
            return Some(Party::Idle);
        }
        let at = self.records.step_on(at)?;
        if self.dependent(at, own) {
            add(&mut self.records.set[usize::from(own)], at);
        }
        Some(Party::Loading { at, own })
    }

    /// A worker above the count in force may take nothing, and walks to the end.
    fn search(&mut self, at: u8, may_take: bool) -> Option<Party> {
        if self.records.next[usize::from(at)] == END {
            self.records.locked[usize::from(at)] = false;
            return Some(Party::Idle);
        }
        let at = self.records.step_on(at)?;
        let index = usize::from(at);
        if !may_take || self.records.executing[index] || self.records.set[index] != [0; 3] {
            return Some(Party::Searching { at });
        }
        self.records.executing[index] = true;
        self.records.locked[index] = false;
        Some(Party::Holding { own: at })
    }

    /// Document 02, A.8: "A worker's look and writing become one turn for kind 3; other kinds keep
    /// two." A worker change and a checkpoint name no item, and their look finds nothing. A record
    /// without a command, which no dealing lets a worker hold, is of no kind and keeps two.
    fn look_up(&mut self, own: u8) -> Party {
        let found = |key: u64| self.store.chute(key);
        match self.command(own).map(|it| (it.kind, it.key)) {
            Some((Kind::Read, key)) => self.write(own, found(key)),
            Some((Kind::Insert | Kind::Delete | Kind::Update, key)) => Party::LookedUp {
                own,
                found: found(key),
            },
            Some((Kind::Workers | Kind::Checkpoint, _)) | None => Party::LookedUp { own, found: 0 },
        }
    }

    /// Writes store and answer. The answer follows from what the look-up found, as the chute that a
    /// read answers does, and the store does what the answer says, to the entry of the command's key
    /// at whatever place it stands now.
    ///
    /// This holds too in a run that no dealing reaches, where the store may not have what the
    /// look-up found:
    /// - An insert found nothing, and the item is there. With a place free the answer is 1000, and
    ///   the entry that is there gets the chute: a done insert leaves its item with its chute, and
    ///   ascending keys hold no key twice. In a full store it is 1003, which changes no entry.
    /// - It found a chute, and the item is not there. The answer is 1004, which sets the chute of
    ///   an entry and puts none in: with or without a free place nothing changes, as by an update.
    /// - A delete or an update found nothing, and the item is there. The answer is 1002, which
    ///   changes no entry.
    /// - It found a chute, and the item is not there. The answer is 1000, and there is no entry to
    ///   take out or to set.
    ///
    /// There a worker may also be looked-up for a read: its turn answers what the look-up found and
    /// does not look again, as the turn of every looked-up worker. A worker change or a checkpoint is
    /// done whatever was found. The change's count comes into force even above the largest, which the
    /// next call tests; the checkpoint puts the places in use into the image, whatever they hold.
    fn write(&mut self, own: u8, found: u16) -> Party {
        if let Some(Command { kind, key, chute }) = self.command(own) {
            let place = self.records.place[usize::from(own)];
            let answer = match (kind, found) {
                (Kind::Insert, 0) if self.store.is_full() => STORE_FULL,
                (Kind::Insert, 0) => {
                    self.store.insert(key, chute);
                    DONE
                }
                (Kind::Insert, _) => {
                    self.store.replace(key, chute);
                    ANNOUNCED_AGAIN
                }
                (Kind::Delete | Kind::Read | Kind::Update, 0) => NO_SUCH_ITEM,
                (Kind::Read, chute) => chute,
                (Kind::Delete, _) => {
                    self.store.remove(key);
                    DONE
                }
                (Kind::Update, _) => {
                    self.store.replace(key, chute);
                    DONE
                }
                (Kind::Workers, _) => {
                    self.in_force = chute;
                    DONE
                }
                (Kind::Checkpoint, _) => {
                    let image = self.image.get_or_insert_default();
                    image::write(&self.store, place, image);
                    DONE
                }
            };
            self.answers[usize::from(place) - 1] = answer;
        }
        Party::Written { own }
    }

    /// Walks to the own record and bypasses it. The end of the chain, which no dealing meets
    /// here, is a wait.
    fn walk_to_own(&mut self, at: u8, own: u8) -> Option<Party> {
        let next = self.records.next[usize::from(at)];
        if next == END || self.records.locked[usize::from(next)] {
            return None;
        }
        if next == own {
            self.records.next[usize::from(at)] = self.records.next[usize::from(own)];
            return Some(Party::Clearing { at, own });
        }
        let at = self.records.step_on(at)?;
        Some(Party::Walking { at, own })
    }

    fn clear(&mut self, at: u8, own: u8) -> Option<Party> {
        if self.records.next[usize::from(at)] == END {
            self.records.locked[usize::from(at)] = false;
            self.records.give_back(own);
            return Some(Party::Idle);
        }
        let at = self.records.step_on(at)?;
        take_out(&mut self.records.set[usize::from(at)], own);
        Some(Party::Clearing { at, own })
    }

    /// Locks the head, unless it is locked.
    fn lock_head(&mut self) -> Option<u8> {
        let locked = &mut self.records.locked[usize::from(HEAD)];
        let free = !*locked;
        *locked = true;
        free.then_some(HEAD)
    }

    fn dependent(&self, first: u8, second: u8) -> bool {
        match (self.command(first), self.command(second)) {
            (Some(first), Some(second)) => dependent(&first, &second),
            _ => false,
        }
    }

    /// The command of a record, if it has one.
    pub fn command(&self, record: u8) -> Option<Command> {
        let place = usize::from(self.records.place[usize::from(record)]);
        self.commands.get(place.checked_sub(1)?).copied()
    }
}

/// The largest of the opening's worker count and those that an accepted list sets, loaded or not; these
/// are at most 64.
pub fn largest_count(workers: u8, commands: &[Command]) -> u8 {
    let counts = commands.iter().filter_map(Command::count);
    counts.fold(workers.into(), u16::max) as u8
}

impl Records {
    /// All unused, those up to the graph size linked in order.
    fn new(size: u8) -> Records {
        let mut next = [END; RECORDS];
        for record in 1..size {
            next[usize::from(record)] = record + 1;
        }
        Records {
            next,
            place: [0; RECORDS],
            executing: [false; RECORDS],
            locked: [false; RECORDS],
            set: [[0; 3]; RECORDS],
            free: 1,
        }
    }

    /// Takes the first unused record, which there is, for the command of a place.
    fn take(&mut self, place: u16) -> u8 {
        let record = self.free;
        let index = usize::from(record);
        self.free = self.next[index];
        self.next[index] = END;
        self.place[index] = place;
        record
    }

    /// Returns a record to the front of the unused ones, as clean as they are.
    fn give_back(&mut self, record: u8) {
        let index = usize::from(record);
        self.place[index] = 0;
        self.executing[index] = false;
        self.locked[index] = false;
        self.set[index] = [0; 3];
        self.next[index] = self.free;
        self.free = record;
    }

    /// Locks the next record and unlocks this one, unless the next is locked.
    fn step_on(&mut self, at: u8) -> Option<u8> {
        let next = self.next[usize::from(at)];
        if self.locked[usize::from(next)] {
            return None;
        }
        self.locked[usize::from(next)] = true;
        self.locked[usize::from(at)] = false;
        Some(next)
    }
}

fn add(set: &mut Set, record: u8) {
    set[usize::from(record / 64)] |= 1 << (record % 64);
}

fn take_out(set: &mut Set, record: u8) {
    set[usize::from(record / 64)] &= !(1 << (record % 64));
}

#[cfg(test)]
mod tests {
    use super::*;

    fn command(kind: Kind, key: u64, chute: u16) -> Command {
        Command { kind, key, chute }
    }

    fn settings(size: u8, workers: u8, room: u16) -> Settings {
        Settings {
            size,
            workers,
            room,
        }
    }

    fn example() -> Run {
        let commands = vec![command(Kind::Insert, 0, 7), command(Kind::Read, 0, 0)];
        Run::open(settings(2, 1, 4), commands)
    }

    const EXAMPLE: [u8; 19] = [0, 0, 0, 0, 0, 1, 1, 1, 1, 1, 1, 1, 1, 1, 1, 1, 1, 1, 1];

    /// Document 01, marked case (k).
    #[test]
    fn the_example_runs_to_its_end() {
        let mut run = example();
        run.advance(&EXAMPLE);
        assert_eq!(run.answers, [1000, 7]);
        assert_eq!((run.store.used, run.chain().count()), (1, 0));
        assert!(run.is_finished());
    }

    /// Document 02, A.8: the whole run needs 14 bytes 1. Each is a turn that is no wait, and none
    /// before the last leaves the worker idle and every command removed.
    #[test]
    fn the_worker_of_the_example_needs_14_turns() {
        let mut run = example();
        run.advance(&[0; 5]);
        let (walking, clearing) = (
            |at, own| Party::Walking { at, own },
            |at, own| Party::Clearing { at, own },
        );
        let turns = [
            (Party::Searching { at: 0 }, [0, 0]),
            (Party::Holding { own: 1 }, [0, 0]),
            (Party::LookedUp { own: 1, found: 0 }, [0, 0]),
            (Party::Written { own: 1 }, [1000, 0]),
            (walking(0, 1), [1000, 0]),
            (clearing(0, 1), [1000, 0]),
            (clearing(2, 1), [1000, 0]),
            (Party::Idle, [1000, 0]),
            (Party::Searching { at: 0 }, [1000, 0]),
            (Party::Holding { own: 2 }, [1000, 0]),
            (Party::Written { own: 2 }, [1000, 7]),
            (walking(0, 2), [1000, 7]),
            (clearing(0, 2), [1000, 7]),
            (Party::Idle, [1000, 7]),
        ];
        for (worker, answers) in turns {
            assert!(!run.is_finished());
            assert!(run.turn(1));
            assert_eq!(run.parties[..2], [Party::Idle, worker]);
            assert_eq!(run.answers, answers);
        }
        assert!(run.is_finished());
        assert!(run.turn(1), "a fifteenth turn searches again");
        assert_eq!(run.parties[1], Party::Searching { at: 0 });
    }

    /// Document 01, marked case (l).
    #[test]
    fn the_example_stopped_after_9_turns() {
        let mut run = example();
        run.advance(&EXAMPLE[..9]);
        assert_eq!(run.answers, [1000, 0]);
        assert_eq!((run.store.used, run.chain().count()), (1, 2));
        assert!(!run.is_finished());
    }

    /// Document 01, "Records and turns", each turn of the example by name.
    #[test]
    fn the_loader_walks_and_links_at_the_end() {
        let mut run = example();
        let loading = |at, own| Party::Loading { at, own };
        let steps = [
            loading(0, 1),
            Party::Idle,
            loading(0, 2),
            loading(1, 2),
            Party::Idle,
        ];
        for expected in steps {
            assert!(run.turn(0));
            assert_eq!(run.parties[0], expected);
        }
        assert_eq!(run.records.set[2], [2, 0, 0]);
        assert_eq!(run.chain().collect::<Vec<u8>>(), [1, 2]);
        assert!(!run.turn(0), "every command is loaded");
    }

    /// Document 01, "Records and turns": a locked record is not passed, by anyone.
    #[test]
    fn a_walker_waits_before_a_locked_record() {
        let mut run = example();
        run.advance(&[0, 0, 0, 0]);
        assert_eq!(run.parties[0], Party::Loading { at: 1, own: 2 });
        assert!(run.turn(1));
        let before = run.clone();
        assert!(!run.turn(1), "record 1 is locked");
        assert_eq!(run, before);
    }

    /// Document 01, "Records and turns": the loader waits while no record is free.
    #[test]
    fn the_loader_waits_for_a_free_record() {
        let commands = vec![command(Kind::Read, 0, 0); 2];
        let mut run = Run::open(settings(1, 1, 1), commands);
        run.advance(&[0, 0]);
        assert!(!run.turn(0));
        run.advance(&[1; 6]);
        assert_eq!(run.answers, [1002, 0]);
        assert!(run.turn(0));
    }

    /// A worker holds record 1 with this command, and the store has these items, each with ten
    /// times its key as chute.
    fn holding(command: Command, room: u16, items: [u64; 2]) -> Run {
        let mut run = Run::open(settings(1, 1, room), vec![command]);
        run.advance(&[0, 0, 1, 1]);
        assert_eq!(run.parties[1], Party::Holding { own: 1 });
        assert_eq!(run.answers, [0], "taking a command answers nothing");
        for item in items {
            run.store.insert(item, 10 * item as u16);
        }
        run
    }

    /// Document 02, A.8: the turn that looks up also answers, and nothing else changes.
    #[test]
    fn a_read_looks_up_and_writes_in_one_turn() {
        for (key, answer) in [(4, 40), (5, 50), (6, 1002), (0, 1002)] {
            let mut run = holding(command(Kind::Read, key, 0), 3, [4, 5]);
            let mut expected = run.clone();
            assert!(run.turn(1));
            expected.parties[1] = Party::Written { own: 1 };
            expected.answers = vec![answer];
            assert_eq!(run, expected);
        }
    }

    /// Document 02, A.8: the look-up of other kinds answers nothing, whatever it finds.
    #[test]
    fn other_kinds_keep_two_turns() {
        for kind in [Kind::Insert, Kind::Delete, Kind::Update] {
            for (key, found) in [(5, 50), (6, 0)] {
                let mut run = holding(command(kind, key, 9), 3, [4, 5]);
                let mut expected = run.clone();
                assert!(run.turn(1));
                expected.parties[1] = Party::LookedUp { own: 1, found };
                assert_eq!(run, expected, "{kind:?} of {key}");
                assert!(run.turn(1));
                assert_eq!(run.parties[1], Party::Written { own: 1 });
                assert_ne!(run.answers, [0], "{kind:?} of {key}");
            }
        }
    }

    /// Document 02, A.8, by turns: a read is answered while another worker is between the look-up
    /// and the writing of an update of another item; a third worker's read finds nothing.
    #[test]
    fn a_read_is_answered_between_look_up_and_writing_of_an_update() {
        let commands = vec![
            command(Kind::Update, 5, 9),
            command(Kind::Read, 4, 0),
            command(Kind::Read, 6, 0),
        ];
        let mut run = Run::open(settings(3, 3, 3), commands);
        run.store.insert(4, 40);
        run.store.insert(5, 50);
        run.advance(&[0; 9]);
        run.advance(&[1, 1, 1, 2, 2, 2, 3, 3, 3, 3]);
        let looked_up = Party::LookedUp { own: 1, found: 50 };
        let holding = |own| Party::Holding { own };
        assert_eq!(run.parties[1..4], [looked_up, holding(2), holding(3)]);
        assert_eq!(run.answers, [0; 3]);
        run.advance(&[2]);
        let written = |own| Party::Written { own };
        assert_eq!(run.parties[1..4], [looked_up, written(2), holding(3)]);
        assert_eq!(run.answers, [0, 40, 0]);
        run.advance(&[1, 3]);
        assert_eq!(run.parties[1..4], [1, 2, 3].map(written));
        assert_eq!(run.answers, [1000, 40, 1002]);
        assert_eq!(run.store.chutes, [40, 9, 0]);
    }

    /// Document 02, A.7, by turns: worker 1 inserts, worker 2 announces again, and the store is
    /// full. The read that waits for both gives the corrected chute.
    #[test]
    fn an_item_is_announced_again_by_another_worker() {
        let commands = vec![
            command(Kind::Insert, 5, 7),
            command(Kind::Insert, 5, 8),
            command(Kind::Read, 5, 0),
        ];
        let mut run = Run::open(settings(3, 2, 1), commands);
        run.advance(&[0; 9]);
        run.advance(&[1; 9]);
        assert_eq!((run.store.chute(5), run.store.is_full()), (7, true));
        run.advance(&[2; 3]);
        let looked_up = Party::LookedUp { own: 2, found: 7 };
        assert_eq!(run.parties[2], looked_up);
        run.advance(&[2]);
        assert_eq!((run.store.chute(5), run.store.used), (8, 1));
        assert_eq!(run.answers, [1000, 1004, 0]);
        run.advance(&[2; 4]);
        run.advance(&[1; 3]);
        assert_eq!(run.parties[1], Party::Written { own: 3 });
        assert_eq!(run.answers, [1000, 1004, 8]);
    }

    /// A run whose store has items 4 and 5, with chutes 40 and 50, and whose commands are loaded.
    fn beside(workers: u8, room: u16, commands: &[Command]) -> Run {
        let count = commands.len();
        let mut run = Run::open(settings(count as u8, workers, room), commands.to_vec());
        run.store.insert(4, 40);
        run.store.insert(5, 50);
        run.advance(&vec![0; count * (count + 3) / 2]);
        assert_eq!((run.chain().count(), run.parties[0]), (count, Party::Idle));
        run
    }

    /// Document 02, A.5, by turns: worker 1 is between the look-up and the writing of an insert or a
    /// delete, with and without a place free. Worker 2 answers the read of another item that was
    /// delivered later; the read of the same item waits.
    #[test]
    fn a_read_is_answered_between_look_up_and_writing_of_an_insert_or_delete() {
        let cases = [
            (Kind::Insert, 6, 3, 1000),
            (Kind::Insert, 6, 2, 1003),
            (Kind::Insert, 4, 2, 1004),
            (Kind::Delete, 4, 2, 1000),
            (Kind::Delete, 6, 2, 1002),
        ];
        for (kind, key, room, answer) in cases {
            let commands = [
                command(kind, key, 9),
                command(Kind::Read, key, 0),
                command(Kind::Read, 5, 0),
            ];
            let mut run = beside(2, room, &commands);
            let sets = [1, 2, 3].map(|record| run.records.set[record]);
            assert_eq!(sets, [[0; 3], [2, 0, 0], [0; 3]]);
            run.advance(&[1, 1, 1, 2, 2, 2, 2]);
            assert_eq!(run.parties[2], Party::Holding { own: 3 });
            assert!(matches!(run.parties[1], Party::LookedUp { own: 1, .. }));
            run.advance(&[2]);
            assert_eq!(run.answers, [0, 0, 50], "{kind:?} of {key}");
            run.advance(&[1]);
            assert_eq!(run.answers, [answer, 0, 50], "{kind:?} of {key}");
        }
    }

    /// Document 02, A.5, by turns: an update is looked-up, an entry is put in or taken out below its
    /// own or above, and the update is written.
    #[test]
    fn an_update_is_written_where_its_entry_stands_then() {
        let cases = [
            (Kind::Insert, 3, [3, 4, 5], [9, 40, 8]),
            (Kind::Insert, 6, [4, 5, 6], [40, 8, 9]),
            (Kind::Delete, 4, [5, 0, 0], [8, 0, 0]),
        ];
        for (kind, key, keys, chutes) in cases {
            let commands = [command(kind, key, 9), command(Kind::Update, 5, 8)];
            let mut run = beside(2, 3, &commands);
            run.advance(&[1, 1, 1, 2, 2, 2, 2]);
            let looked_up = Party::LookedUp { own: 2, found: 50 };
            assert_eq!(run.parties[2], looked_up);
            run.advance(&[1]);
            assert_eq!(
                (run.parties[2], &run.answers[..]),
                (looked_up, &[1000, 0][..])
            );
            run.advance(&[2]);
            assert_eq!(run.answers, [1000; 2]);
            assert_eq!(
                (run.store.keys, run.store.chutes),
                (keys.to_vec(), chutes.to_vec())
            );
        }
    }

    /// Document 02, A.5: inserts and deletes wait for one another, and so does what follows on
    /// their items; an update of another item waits for none of them.
    #[test]
    fn inserts_and_deletes_keep_their_order() {
        let commands = [
            command(Kind::Insert, 6, 9),
            command(Kind::Delete, 4, 0),
            command(Kind::Update, 5, 8),
            command(Kind::Update, 4, 7),
            command(Kind::Insert, 5, 6),
        ];
        let mut run = beside(3, 3, &commands);
        let sets = [1, 2, 3, 4, 5].map(|record| run.records.set[record][0]);
        assert_eq!(sets, [0, 0b10, 0, 0b100, 0b1110]);
        run.advance(&[1, 1, 1, 2, 2, 2, 2, 2, 2]);
        assert!(matches!(run.parties[1], Party::LookedUp { own: 1, .. }));
        assert_eq!(run.parties[2], Party::Written { own: 3 });
        run.advance(&[3; 7]);
        assert_eq!(run.parties[3], Party::Idle, "all others wait");
        assert_eq!(run.answers, [0, 0, 1000, 0, 0]);
    }

    /// Document 02, A.2: the largest of the opening's count and those of the whole list.
    #[test]
    fn the_largest_count_is_that_of_the_opening_and_the_list() {
        for (workers, counts, largest) in [
            (2, &[][..], 2),
            (2, &[1], 2),
            (2, &[3, 1], 3),
            (1, &[1, 2, 64], 64),
        ] {
            let mut commands = vec![command(Kind::Insert, 5, 512)];
            commands.extend(counts.iter().map(|count| Command::workers(*count)));
            let run = Run::open(settings(1, workers, 1), commands);
            assert_eq!((run.largest, run.in_force), (largest, workers.into()));
        }
    }

    /// A.2: a worker change takes two turns. The look finds nothing, with an item of key 0 in the
    /// store too, and sets nothing; the writing sets the count, answers 1000 and changes no entry.
    #[test]
    fn a_worker_change_sets_the_count_at_its_writing_turn() {
        for (count, items) in [(1, [0, 5]), (2, [4, 5]), (64, [0, 6])] {
            let mut run = holding(Command::workers(count), 2, items);
            run.store.chutes[0] = 7;
            let mut expected = run.clone();
            assert!(run.turn(1));
            expected.parties[1] = Party::LookedUp { own: 1, found: 0 };
            assert_eq!((run.in_force, &run), (1, &expected));
            assert!(run.turn(1));
            expected.parties[1] = Party::Written { own: 1 };
            expected.answers = vec![1000];
            expected.in_force = count;
            assert_eq!(run, expected);
        }
    }

    /// In a run that no dealing reaches: whatever was found, and above the largest count.
    #[test]
    fn a_worker_change_is_done_whatever_was_found() {
        for found in [0, 1, 50, 513, u16::MAX] {
            let mut run = holding(Command::workers(3), 2, [0, 5]);
            run.parties[1] = Party::LookedUp { own: 1, found };
            run.largest = 2;
            let mut expected = run.clone();
            assert!(run.turn(1));
            expected.parties[1] = Party::Written { own: 1 };
            expected.answers = vec![1000];
            expected.in_force = 3;
            assert_eq!(run, expected);
        }
    }

    /// Document 02, A.3: a checkpoint takes two turns. The look finds nothing, with an item of key 0 in
    /// the store too, and writes nothing; the writing puts the store into the image, answers 1000 and
    /// changes no entry, whatever was found.
    #[test]
    fn a_checkpoint_writes_the_image_at_its_writing_turn() {
        for (items, found) in [([0, 5], 0), ([4, 5], 0), ([0, 6], 50), ([4, 5], u16::MAX)] {
            let mut run = holding(Command::CHECKPOINT, 3, items);
            let mut expected = run.clone();
            assert_eq!(run.image, Some(image::zeros(3)));
            assert!(run.turn(1));
            expected.parties[1] = Party::LookedUp { own: 1, found: 0 };
            assert_eq!(run, expected);
            run.parties[1] = Party::LookedUp { own: 1, found };
            assert!(run.turn(1));
            expected.parties[1] = Party::Written { own: 1 };
            expected.answers = vec![1000];
            let mut right = Vec::new();
            image::write(&run.store, 1, &mut right);
            expected.image = Some(right);
            assert_eq!(run, expected);
            run.image = None;
            run.parties[1] = Party::LookedUp { own: 1, found };
            assert!(run.turn(1));
            assert_eq!(run, expected, "an image that was handed back");
        }
    }

    /// A.3, by turns: a checkpoint waits for both reads before it, and the delete behind it for the
    /// checkpoint; the image keeps what the delete takes out, until the next one.
    #[test]
    fn a_checkpoint_keeps_its_place_in_the_list() {
        let commands = [
            command(Kind::Read, 4, 0),
            command(Kind::Read, 5, 0),
            Command::CHECKPOINT,
            command(Kind::Delete, 4, 0),
            Command::CHECKPOINT,
        ];
        let mut run = beside(2, 2, &commands);
        let sets = [1, 2, 3, 4, 5].map(|record| run.records.set[record][0]);
        assert_eq!(sets, [0, 0, 0b110, 0b1010, 0b11110]);
        let mut images = Vec::new();
        while !run.is_finished() {
            run.advance(&[1, 2]);
            let image = run.image.clone().expect("opening writes one");
            let entries: Vec<(u64, u16)> =
                image::read(&image).expect("an image").entries().collect();
            let now = (image::place(&image), entries);
            if images.last() != Some(&now) {
                images.push(now);
            }
        }
        let expected = [(0, vec![]), (3, vec![(4, 40), (5, 50)]), (5, vec![(5, 50)])];
        assert_eq!(images, expected);
        assert_eq!(run.answers, [40, 50, 1000, 1000, 1000]);
    }

    /// Two reads of items 4 and 5 and a worker change are loaded, with three workers.
    fn with_three_workers() -> Run {
        let commands = [
            command(Kind::Read, 4, 0),
            command(Kind::Read, 5, 0),
            Command::workers(1),
        ];
        beside(3, 2, &commands)
    }

    /// A.2: a worker above the count waits when idle, whether the head is locked or not and though
    /// there is something to take; the others do not.
    #[test]
    fn an_idle_worker_above_the_count_in_force_waits() {
        for in_force in 1..=3 {
            for worker in 1..=3 {
                let mut run = with_three_workers();
                run.in_force = in_force;
                let before = run.clone();
                let allowed = u16::from(worker) <= in_force;
                assert_eq!(run.turn(worker), allowed);
                if !allowed {
                    assert_eq!(run, before);
                    run.records.locked[0] = true;
                    assert!(!run.turn(worker));
                }
            }
        }
    }

    /// A.2: "One already searching walks to the end and takes nothing". Here no dealing leads, as
    /// nothing is ready while a worker change is written: records 1 and 2 are, and it steps on both.
    #[test]
    fn a_searching_worker_above_the_count_takes_nothing() {
        let mut run = with_three_workers();
        run.advance(&[2]);
        run.in_force = 1;
        for at in [1, 2, 3] {
            run.records.locked[at] = true;
            let before = run.clone();
            assert!(!run.turn(2), "record {at} is locked");
            assert_eq!(run, before);
            run.records.locked[at] = false;
            assert!(run.turn(2));
            assert_eq!(run.parties[2], Party::Searching { at: at as u8 });
            assert!(run.records.executing.iter().all(|it| !it));
            let locked: Vec<usize> = (0..4).filter(|it| run.records.locked[*it]).collect();
            assert_eq!(locked, [at]);
        }
        assert!(run.turn(2));
        assert_eq!(run.parties[2], Party::Idle);
        assert_eq!(run.records, with_three_workers().records);
        assert!(!run.turn(2), "it begins no other search");
    }

    /// The count in force at a turn decides of that turn: a search that goes on when its worker is
    /// allowed again takes what it meets, and one that is not any more does not.
    #[test]
    fn the_count_in_force_at_the_turn_decides() {
        let mut run = with_three_workers();
        run.advance(&[3]);
        run.in_force = 2;
        run.advance(&[3]);
        assert_eq!(run.parties[3], Party::Searching { at: 1 });
        run.in_force = 3;
        run.advance(&[3]);
        assert_eq!(run.parties[3], Party::Holding { own: 2 });
        run.advance(&[2]);
        run.in_force = 1;
        run.advance(&[2]);
        assert_eq!(run.parties[2], Party::Searching { at: 1 });
    }

    /// A.2: a worker with a record goes on whatever the count, and rests when it is idle.
    #[test]
    fn a_worker_with_a_record_finishes_above_the_count() {
        for kind in Kind::OF_ITEMS {
            let needed = if kind == Kind::Read { 7 } else { 8 };
            for turns in 2..needed {
                let commands = [command(kind, 5, 9), command(Kind::Insert, 4, 9)];
                let mut run = beside(2, 3, &commands);
                let mut other = run.clone();
                run.advance(&[2; 8][..turns]);
                assert!(run.parties[2].own().is_some());
                run.in_force = 1;
                run.advance(&[2; 8][turns..needed]);
                other.advance(&[2; 8][..needed]);
                other.in_force = 1;
                assert_eq!(run, other, "{kind:?} after {turns}");
                assert_eq!(run.parties[2], Party::Idle);
                assert!(!run.turn(2));
            }
        }
    }

    /// A.2, by turns: one worker, then three, then one. Worker 3 takes a command that was delivered
    /// after the first change, holds the second, removes it above its count and rests.
    #[test]
    fn the_count_goes_up_and_down() {
        let commands = [
            Command::workers(3),
            command(Kind::Read, 5, 0),
            Command::workers(1),
            command(Kind::Read, 4, 0),
        ];
        let mut run = beside(1, 2, &commands);
        let sets = [1, 2, 3, 4].map(|record| run.records.set[record][0]);
        assert_eq!(sets, [0, 0b10, 0b110, 0b1010]);
        assert!(!run.turn(3), "worker 1 alone is allowed");
        run.advance(&[1; 10]);
        assert_eq!((run.parties[1], run.in_force), (Party::Idle, 3));
        run.advance(&[3; 3]);
        assert_eq!(run.parties[3], Party::Written { own: 2 });
        run.advance(&[3; 5]);
        run.advance(&[3; 4]);
        let written = Party::Written { own: 3 };
        assert_eq!((run.parties[3], run.in_force), (written, 1));
        assert_eq!(run.answers, [1000, 50, 1000, 0]);
        assert!(!run.turn(2), "worker 2 rests");
        run.advance(&[3; 4]);
        assert_eq!(run.parties[3], Party::Idle);
        assert!(!run.turn(3) && !run.turn(2));
        run.advance(&[1; 6]);
        assert!(run.is_finished());
        assert_eq!(run.answers, [1000, 50, 1000, 40]);
    }

    /// A store with two entries.
    fn store(keys: &[u64], chutes: &[u16]) -> Store {
        Store {
            keys: keys.to_vec(),
            chutes: chutes.to_vec(),
            used: 2,
        }
    }

    /// The answer and the store after a writing turn in a run that no dealing reaches: the worker
    /// of `holding` is looked-up, and its look-up found this.
    fn written(command: Command, room: u16, items: [u64; 2], found: u16) -> (u16, Store) {
        let mut run = holding(command, room, items);
        run.parties[1] = Party::LookedUp { own: 1, found };
        assert!(run.turn(1));
        assert_eq!(run.parties[1], Party::Written { own: 1 });
        (run.answers[0], run.store)
    }

    const INSERT: Command = Command {
        kind: Kind::Insert,
        key: 5,
        chute: 9,
    };

    #[test]
    fn an_insert_that_found_nothing_of_a_present_item_is_done_or_finds_the_store_full() {
        let part_full = store(&[4, 5, 0], &[40, 9, 0]);
        assert_eq!(written(INSERT, 3, [4, 5], 0), (1000, part_full));
        let full = store(&[4, 5], &[40, 50]);
        assert_eq!(written(INSERT, 2, [4, 5], 0), (1003, full));
    }

    #[test]
    fn an_insert_that_found_an_item_now_absent_answers_1004_and_puts_nothing_in() {
        for found in [1, 9, 512, 513, u16::MAX] {
            let part_full = store(&[4, 6, 0], &[40, 60, 0]);
            assert_eq!(written(INSERT, 3, [4, 6], found), (1004, part_full));
            let full = store(&[4, 6], &[40, 60]);
            assert_eq!(written(INSERT, 2, [4, 6], found), (1004, full));
        }
    }

    /// As the answers say: 1002 changes no entry, and 1000 none where the item is not there.
    #[test]
    fn a_delete_or_update_answers_what_it_found() {
        for kind in [Kind::Delete, Kind::Update] {
            let it = command(kind, 5, 9);
            let present = store(&[4, 5, 0], &[40, 50, 0]);
            assert_eq!(written(it, 3, [4, 5], 0), (1002, present));
            for found in [1, 9, 50, 512, 513, u16::MAX] {
                let absent = store(&[4, 6, 0], &[40, 60, 0]);
                assert_eq!(written(it, 3, [4, 6], found), (1000, absent));
            }
        }
    }

    /// A read that is looked-up answers what was found, whether the store has the same chute of its
    /// item, another one or none.
    #[test]
    fn a_looked_up_read_answers_what_it_found() {
        let read = command(Kind::Read, 5, 0);
        for (found, answer) in [
            (0, 1002),
            (50, 50),
            (9, 9),
            (513, 513),
            (u16::MAX, u16::MAX),
        ] {
            let present = store(&[4, 5, 0], &[40, 50, 0]);
            assert_eq!(written(read, 3, [4, 5], found), (answer, present));
            let absent = store(&[4, 6, 0], &[40, 60, 0]);
            assert_eq!(written(read, 3, [4, 6], found), (answer, absent));
        }
    }

    /// A worker that holds a record without a command has two turns, and they change only its
    /// state.
    #[test]
    fn a_record_without_a_command_keeps_two_turns() {
        for kind in Kind::ALL {
            let mut run = holding(command(kind, 5, 9), 3, [4, 5]);
            run.records.place[1] = 0;
            let looked_up = Party::LookedUp { own: 1, found: 0 };
            for after in [looked_up, Party::Written { own: 1 }] {
                let mut expected = run.clone();
                expected.parties[1] = after;
                assert!(run.turn(1));
                assert_eq!(run, expected);
            }
        }
    }
}
