//! What both sides are given: settings, a list of commands, and turns up to the one that removes
//! the last command.

use std::collections::BTreeSet;

use second::calls::Asked;
use second::command::{self, Kind};
use second::identifier;
use second::random::Random;
use second::run::{Run, Settings};

use crate::waiting::Waiting;

/// In a list with inserts, one in this many commands is one; the rest read.
const INSERT_EVERY: usize = 10;
/// The items that a mailing's reads ask for.
const MAILING_READS: usize = 64;

/// Which commands a list has.
#[derive(Clone, Copy, PartialEq, Eq)]
pub enum Kinds {
    InsertsAndReads,
    Reads,
    /// Every second command inserts a new item; the rest read a few others, which none inserts.
    Mailing,
}

/// How turns are dealt.
#[derive(Clone, Copy)]
pub enum Order {
    Random,
    RoundRobin,
    /// Random turns without those that are waits.
    Moving,
    /// The loader's turn until it waits, then a random worker's, and so on: the chain fills up.
    LongChain,
}

pub struct Input {
    pub settings: Settings,
    /// The list as bytes.
    pub commands: Vec<u8>,
    pub schedule: Vec<u8>,
    /// Turns of the schedule that were waits.
    pub waits: usize,
    /// Whether the schedule removes every command.
    pub done: bool,
    /// How long its reads wait.
    pub waiting: Waiting,
}

impl Input {
    /// The turns end with the list, or are `most` where it takes more.
    pub fn new(settings: Settings, kinds: Kinds, count: usize, order: Order, most: usize) -> Input {
        let random = &mut Random::new(2026);
        let commands = match kinds {
            Kinds::Mailing => mailing(random, count),
            Kinds::InsertsAndReads | Kinds::Reads => list(random, kinds, count),
        };
        let mut input = Input::given(settings, commands, Vec::new());
        input.deal(random, order, most);
        input
    }

    /// A list and turns that are given.
    pub fn given(settings: Settings, commands: Vec<u8>, schedule: Vec<u8>) -> Input {
        Input {
            settings,
            commands,
            schedule,
            waits: 0,
            done: false,
            waiting: Waiting::default(),
        }
    }

    /// The settings as an opening asks for them.
    pub fn asked(&self) -> Asked {
        let Settings {
            size,
            workers,
            room,
        } = self.settings;
        [size.into(), workers.into(), room.into()]
    }

    /// The run that opening gives.
    pub fn opened(&self) -> Run {
        let commands = command::read_list(&self.commands).expect("the list is accepted");
        Run::open(self.settings, commands)
    }

    pub fn count(&self) -> usize {
        self.commands.len() / command::LENGTH
    }

    /// Plays the run, and keeps the turns.
    fn deal(&mut self, random: &mut Random, order: Order, most: usize) {
        let mut run = self.opened();
        let parties = u64::from(run.largest) + 1;
        let mut loader_waits = false;
        while !self.done && self.schedule.len() < most {
            let party = match order {
                Order::RoundRobin => self.schedule.len() as u64 % parties,
                Order::LongChain if loader_waits => 1 + random.below(parties - 1),
                Order::LongChain => 0,
                Order::Random | Order::Moving => random.below(parties),
            };
            let before = run.parties[party as usize];
            let waits = !run.turn(party as u8);
            loader_waits = waits && party == 0;
            if waits && matches!(order, Order::Moving) {
                continue;
            }
            self.waits += usize::from(waits);
            self.schedule.push(party as u8);
            self.waiting
                .note(self.schedule.len(), before, &run, party as u8);
            self.done = removed(&run);
        }
    }
}

/// Whether every command is removed: all are loaded and no record has one.
fn removed(run: &Run) -> bool {
    usize::from(run.loaded) == run.commands.len()
        && run.chain().next().is_none()
        && run.records.place.iter().all(|place| *place == 0)
}

/// A list in which the reads ask for keys that its inserts put in, before or after them; without
/// inserts they find nothing.
fn list(random: &mut Random, kinds: Kinds, count: usize) -> Vec<u8> {
    let inserts = count.div_ceil(INSERT_EVERY).max(1);
    let keys: Vec<u64> = (0..inserts)
        .map(|_| random.below(identifier::LARGEST_KEY + 1))
        .collect();
    let mut list = Vec::new();
    for index in 0..count {
        let is_insert = kinds == Kinds::InsertsAndReads && index % INSERT_EVERY == 0;
        if is_insert {
            list.extend(insert(random, keys[index / INSERT_EVERY]));
        } else {
            list.extend(read(random.pick(&keys)));
        }
    }
    list
}

/// A list in which every second command inserts a new item and the rest read others.
fn mailing(random: &mut Random, count: usize) -> Vec<u8> {
    let keys = different_keys(random, MAILING_READS + count.div_ceil(2));
    let (others, new) = keys.split_at(MAILING_READS);
    let mut list = Vec::new();
    for index in 0..count {
        if index % 2 == 0 {
            list.extend(insert(random, new[index / 2]));
        } else {
            list.extend(read(random.pick(others)));
        }
    }
    list
}

pub fn different_keys(random: &mut Random, count: usize) -> Vec<u64> {
    let mut met = BTreeSet::new();
    let mut keys = Vec::new();
    while keys.len() < count {
        let key = random.below(identifier::LARGEST_KEY + 1);
        if met.insert(key) {
            keys.push(key);
        }
    }
    keys
}

fn insert(random: &mut Random, key: u64) -> Vec<u8> {
    let chute = 1 + random.below(u64::from(command::LARGEST_CHUTE)) as u16;
    encode(Kind::Insert, key, chute)
}

fn read(key: u64) -> Vec<u8> {
    encode(Kind::Read, key, 0)
}

pub fn encode(kind: Kind, key: u64, chute: u16) -> Vec<u8> {
    let text = identifier::text(key).expect("the key is in range");
    command::encode(kind.number(), &text, chute)
}

#[cfg(test)]
mod tests {
    use super::*;
    use second::command::Command;

    fn mailing_of(count: usize) -> Input {
        let settings = Settings {
            size: 2,
            workers: 1,
            room: 4096,
        };
        Input::new(
            settings,
            Kinds::Mailing,
            count,
            Order::RoundRobin,
            1_000_000,
        )
    }

    #[test]
    fn a_mailing_inserts_new_items_and_reads_others() {
        let commands = mailing_of(4096).opened().commands;
        let keys = |kind: Kind| -> BTreeSet<u64> {
            let those = commands.iter().filter(|it| it.kind == kind);
            those.map(|it| it.key).collect()
        };
        let second = |it: &Command| it.kind == Kind::Read;
        assert!(commands.iter().skip(1).step_by(2).all(second));
        assert_eq!(keys(Kind::Insert).len(), 2048);
        assert_eq!(keys(Kind::Read).len(), MAILING_READS);
        assert!(keys(Kind::Insert).is_disjoint(&keys(Kind::Read)));
    }

    /// The loader links the read at step 11, and the worker, which has the insert to clear first,
    /// answers it at step 24.
    #[test]
    fn a_read_waits_from_its_linking_to_its_answer() {
        let input = mailing_of(2);
        assert!(input.done);
        assert_eq!(input.waiting.mean(), Some(13.0));
        assert_eq!(mailing_of(1).waiting.mean(), None);
    }
}
