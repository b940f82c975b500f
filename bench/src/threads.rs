//! What one would pick instead of a controller that is dealt its turns: the same list carried out by
//! threads of the machine on a chain with a mutex a record, walked hand over hand. It is Algorithms 3
//! and 4 of the paper that document 01's chain is taken from, in safe Rust: a loader that links each
//! command behind those that it depends on, and workers that take the first free one, serve it and
//! take it out.

use std::sync::atomic::{AtomicU16, AtomicUsize, Ordering::Relaxed};
use std::sync::{Condvar, Mutex, MutexGuard, RwLock};
use std::thread;
use std::time::{Duration, Instant};

use second::command::{Command, Kind, dependent};
use second::run::{RECORDS, Set};
use second::serial::{ANNOUNCED_AGAIN, DONE, NO_SUCH_ITEM, STORE_FULL};
use second::store::Store;

/// A record: the one behind it, its command's place from 0, whether a worker has it, and the records
/// that it waits for.
#[derive(Default)]
struct Record {
    next: usize,
    place: usize,
    executing: bool,
    set: Set,
}

/// Counts what there is of something, and lets threads wait for it.
struct Semaphore {
    count: Mutex<usize>,
    more: Condvar,
}

impl Semaphore {
    fn new(count: usize) -> Semaphore {
        Semaphore {
            count: Mutex::new(count),
            more: Condvar::new(),
        }
    }

    fn take(&self) {
        let mut count = lock(&self.count);
        while *count == 0 {
            count = self.more.wait(count).expect("no thread panics");
        }
        *count -= 1;
    }

    fn add(&self, more: usize) {
        *lock(&self.count) += more;
        for _ in 0..more {
            self.more.notify_one();
        }
    }
}

fn lock<T>(mutex: &Mutex<T>) -> MutexGuard<'_, T> {
    mutex.lock().expect("no thread panics")
}

/// What the threads share. Record 0 is the head; next index 0 is the end.
struct Shared<'a> {
    commands: &'a [Command],
    records: Vec<Mutex<Record>>,
    free: Mutex<Vec<usize>>,
    /// How many records are free, and how many commands may be taken.
    space: Semaphore,
    ready: Semaphore,
    store: RwLock<Store>,
    answers: Vec<AtomicU16>,
    removed: AtomicUsize,
    workers: usize,
}

/// Carries a list of inserts, deletes, reads and updates out with so many records and workers, on a
/// store of that room: how long it takes, the answers and the store.
pub fn carry_out(
    commands: &[Command],
    size: usize,
    workers: usize,
    room: u16,
) -> (Duration, Vec<u16>, Store) {
    let shared = Shared {
        commands,
        records: (0..RECORDS).map(|_| Mutex::default()).collect(),
        free: Mutex::new((1..=size).rev().collect()),
        space: Semaphore::new(size),
        ready: Semaphore::new(0),
        store: RwLock::new(Store::new(room)),
        answers: commands.iter().map(|_| AtomicU16::new(0)).collect(),
        removed: AtomicUsize::new(0),
        workers,
    };
    let before = Instant::now();
    thread::scope(|scope| {
        for _ in 0..workers {
            scope.spawn(|| shared.work());
        }
        (0..commands.len()).for_each(|place| shared.load(place));
    });
    let time = before.elapsed();
    let answers = shared.answers.into_iter().map(AtomicU16::into_inner);
    let store = shared.store.into_inner().expect("no thread panics");
    (time, answers.collect(), store)
}

impl Shared<'_> {
    /// Walks to the end, notes whom the command depends on, and links it there.
    fn load(&self, place: usize) {
        self.space.take();
        let own = lock(&self.free).pop().expect("there is space");
        let mut set = Set::default();
        let mut at = lock(&self.records[0]);
        while at.next != 0 {
            let record = at.next;
            at = lock(&self.records[record]);
            if dependent(&self.commands[at.place], &self.commands[place]) {
                set[record / 64] |= 1 << (record % 64);
            }
        }
        *lock(&self.records[own]) = Record {
            next: 0,
            place,
            executing: false,
            set,
        };
        at.next = own;
        drop(at);
        self.ready.add(usize::from(set == Set::default()));
    }

    /// A worker's life: it takes, serves and removes, until all is removed.
    fn work(&self) {
        loop {
            self.ready.take();
            if self.removed.load(Relaxed) == self.commands.len() {
                return;
            }
            let (own, place) = self.take();
            self.serve(place);
            self.remove(own);
            if self.removed.fetch_add(1, Relaxed) + 1 == self.commands.len() {
                self.ready.add(self.workers);
            }
        }
    }

    /// The first record that may be taken. There is one for each that is ready, and nobody overtakes.
    fn take(&self) -> (usize, usize) {
        let mut at = lock(&self.records[0]);
        loop {
            let record = at.next;
            assert_ne!(record, 0, "one is ready");
            at = lock(&self.records[record]);
            if !at.executing && at.set == Set::default() {
                at.executing = true;
                return (record, at.place);
            }
        }
    }

    /// Writes store and answer.
    fn serve(&self, place: usize) {
        let Command { kind, key, chute } = self.commands[place];
        let answer = if kind == Kind::Read {
            let store = self.store.read().expect("no thread panics");
            match store.chute(key) {
                0 => NO_SUCH_ITEM,
                chute => chute,
            }
        } else {
            let mut store = self.store.write().expect("no thread panics");
            written(&mut store, kind, key, chute)
        };
        self.answers[place].store(answer, Relaxed);
    }

    /// Walks to the own record, bypasses it, and takes it out of every later set. It goes on from the
    /// record before its own, which it keeps locked, so that nobody comes between.
    fn remove(&self, own: usize) {
        let mut at = lock(&self.records[0]);
        while at.next != own {
            let record = at.next;
            at = lock(&self.records[record]);
        }
        at.next = lock(&self.records[own]).next;
        let mut ready = 0;
        while at.next != 0 {
            let record = at.next;
            at = lock(&self.records[record]);
            let waited = at.set[own / 64] >> (own % 64) & 1 == 1;
            at.set[own / 64] &= !(1 << (own % 64));
            ready += usize::from(waited && at.set == Set::default());
        }
        drop(at);
        lock(&self.free).push(own);
        self.space.add(1);
        self.ready.add(ready);
    }
}

/// Changes the store, and gives the answer, to a command that is no read.
fn written(store: &mut Store, kind: Kind, key: u64, chute: u16) -> u16 {
    match (kind, store.chute(key)) {
        (Kind::Insert, 0) if store.is_full() => STORE_FULL,
        (Kind::Insert, 0) => {
            store.insert(key, chute);
            DONE
        }
        (Kind::Insert, _) => {
            store.replace(key, chute);
            ANNOUNCED_AGAIN
        }
        (_, 0) => NO_SUCH_ITEM,
        (Kind::Delete, _) => {
            store.remove(key);
            DONE
        }
        _ => {
            store.replace(key, chute);
            DONE
        }
    }
}

#[cfg(test)]
mod tests {
    use super::*;
    use second::random::Random;
    use second::serial;

    /// Random lists, few items and small stores, by one worker up to eight: the serial run's answers
    /// and table.
    #[test]
    fn threads_answer_as_the_serial_run() {
        let random = &mut Random::new(14);
        for _ in 0..300 {
            let commands: Vec<Command> = (0..1 + random.below(200))
                .map(|_| {
                    let kind = random.pick(&Kind::OF_ITEMS);
                    let chute = match kind {
                        Kind::Insert | Kind::Update => 1 + random.below(512) as u16,
                        _ => 0,
                    };
                    let key = random.below(8);
                    Command { kind, key, chute }
                })
                .collect();
            let [size, workers] = [1 + random.below(20), 1 + random.below(8)].map(|it| it as usize);
            let room = 1 + random.below(6) as u16;
            let (_, answers, store) = carry_out(&commands, size, workers, room);
            let whole = serial::run(room.into(), &commands);
            assert_eq!(answers, whole.answers);
            assert!(store.entries().eq(whole.entries));
        }
    }
}
