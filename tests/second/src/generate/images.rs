//! Images to open from: right ones, in order and out of it and with anything off the chain, and wrong
//! ones: with each fault, each two of them, a wrong command behind them, every byte changed, and of
//! every length about the right one.

use std::collections::BTreeSet;

use super::commands::{self, checkpoint};
use super::runs::openings::Opening;
use super::{Case, every_byte_everywhere, random_key, with_byte};
use crate::bytes::MOST_COMMANDS;
use crate::command::{self, LARGEST_CHUTE};
use crate::identifier::LARGEST_KEY;
use crate::image::{self, RECORD, Record};
use crate::random::Random;
use crate::script::Step;

/// Values for a byte at the bounds of what the fields hold.
const VALUES: [u8; 12] = [0, 1, 2, 3, 4, 5, 16, 17, 41, 42, 128, 255];
/// Rooms of small images, and of the largest.
const ROOMS: [u16; 6] = [1, 2, 3, 4, 5, 8];
const LARGEST: u16 = 4096;

/// What can be wrong with an image of the right length.
#[derive(Clone, Copy, Debug, PartialEq, Eq)]
pub enum Fault {
    /// Of the chain: refusal 15.
    FirstIndex,
    Index,
    Equal,
    Descending,
    Loop,
    /// Of record 0 and of the records on the chain: refusal 16.
    FirstChute,
    FirstPlace,
    FirstZeros,
    Key,
    NoChute,
    Chute,
    Zeros,
}

impl Fault {
    pub const ALL: [Fault; 12] = [
        Fault::FirstIndex,
        Fault::Index,
        Fault::Equal,
        Fault::Descending,
        Fault::Loop,
        Fault::FirstChute,
        Fault::FirstPlace,
        Fault::FirstZeros,
        Fault::Key,
        Fault::NoChute,
        Fault::Chute,
        Fault::Zeros,
    ];
}

/// An image in the making.
#[derive(Clone)]
pub struct Draft {
    records: Vec<Record>,
    /// The records on the chain, by index, as they follow one another.
    chain: Vec<usize>,
}

impl Draft {
    /// An image of entries by ascending keys, of a checkpoint's place; the records that have them
    /// stand in any order, with anything off the chain.
    pub fn shuffled(random: &mut Random, room: u16, entries: &[(u64, u16)], place: u64) -> Draft {
        let mut chain: Vec<usize> = (1..=room.into()).collect();
        for index in 0..entries.len() {
            let other = index as u64 + random.below((chain.len() - index) as u64);
            chain.swap(index, other as usize);
        }
        chain.truncate(entries.len());
        let any = |random: &mut Random| match random.below(3) {
            0 => Record::default(),
            1 => Record::read(&random.bytes(RECORD), 0),
            _ => right_record(random, room),
        };
        let mut records: Vec<Record> = (0..=room).map(|_| any(random)).collect();
        for (index, (key, chute)) in chain.iter().zip(entries) {
            records[*index] = Record {
                chute: *chute,
                key: *key,
                ..Record::default()
            };
        }
        records[0] = Record {
            key: place,
            ..Record::default()
        };
        let mut before = 0;
        for index in &chain {
            records[before].next = *index as u16;
            before = *index;
        }
        Draft { records, chain }
    }

    /// With so many entries and any place.
    pub fn any(random: &mut Random, room: u16, count: usize) -> Draft {
        let entries = entries(random, count);
        let far = random.below(MOST_COMMANDS as u64 + 1);
        let place = random.pick(&[0, 1, MOST_COMMANDS as u64, far]);
        Draft::shuffled(random, room, &entries, place)
    }

    pub fn bytes(&self) -> Vec<u8> {
        let records = self.records.iter().flat_map(|record| record.bytes());
        records.collect()
    }

    /// Puts a fault in, at any record where it can be, if there is one.
    pub fn damage(&mut self, random: &mut Random, fault: Fault) {
        let Some(last) = self.chain.len().checked_sub(1) else {
            return self.damage_first(random, fault);
        };
        let at = random.below(self.chain.len() as u64) as usize;
        self.damage_at(random, fault, at.max(last.min(1)));
    }

    /// Puts a fault of record 0 in, if it is one.
    fn damage_first(&mut self, random: &mut Random, fault: Fault) {
        let above = above(random, self.records.len());
        let first = &mut self.records[0];
        match fault {
            Fault::FirstIndex => first.next = above,
            Fault::FirstChute => first.chute = random.pick(&[1, 7, 512, 513, 256, u16::MAX]),
            Fault::FirstPlace => first.key = random.pick(&[4097, 8192, 1 << 16, 1 << 63, u64::MAX]),
            Fault::FirstZeros => first.zeros = one_byte(random),
            _ => {}
        }
    }

    /// Puts a fault in at the record of a place in the chain; where keys do not ascend, it is the
    /// first that does not.
    fn damage_at(&mut self, random: &mut Random, fault: Fault, at: usize) {
        let above = above(random, self.records.len());
        let behind = self.chain[random.below(at as u64 + 1) as usize];
        let before = at.checked_sub(1).map(|before| self.chain[before]);
        let before = before.map_or(0, |index| self.records[index].key);
        let last = self.chain[self.chain.len() - 1];
        let record = &mut self.records[self.chain[at]];
        match fault {
            Fault::Index => record.next = above,
            Fault::Equal if at > 0 => record.key = before,
            Fault::Descending if at > 0 => record.key = before.saturating_sub(1),
            Fault::Loop => record.next = behind as u16,
            Fault::Key => {
                let larger = random.pick(&[LARGEST_KEY + 1, 1 << 62, u64::MAX]);
                self.records[last].key = larger;
            }
            Fault::NoChute => record.chute = 0,
            Fault::Chute => record.chute = random.pick(&[513, 514, 768, 1024, u16::MAX]),
            Fault::Zeros => record.zeros = one_byte(random),
            _ => self.damage_first(random, fault),
        }
    }
}

/// An index above the room, where there are so many records.
fn above(random: &mut Random, records: usize) -> u16 {
    let records = records as u16;
    random.pick(&[records, records + 1, records + 256, u16::MAX])
}

/// One byte of four that is not 0.
fn one_byte(random: &mut Random) -> u32 {
    (1 + random.below(255) as u32) << (8 * random.below(4))
}

/// A record as one of the chain is, leading anywhere.
fn right_record(random: &mut Random, room: u16) -> Record {
    Record {
        next: random.below(u64::from(room) + 1) as u16,
        chute: 1 + random.below(LARGEST_CHUTE.into()) as u16,
        key: random_key(random),
        zeros: 0,
    }
}

/// So many entries by ascending keys, in most cases with one of the two ends.
pub fn entries(random: &mut Random, count: usize) -> Vec<(u64, u16)> {
    let mut keys = BTreeSet::new();
    while keys.len() < count {
        let far = random_key(random);
        keys.insert(match keys.len() {
            0 => random.pick(&[0, LARGEST_KEY, far]),
            _ => far,
        });
    }
    let chute = |random: &mut Random| 1 + random.below(LARGEST_CHUTE.into()) as u16;
    let entries = keys.into_iter().map(|key| (key, chute(random)));
    entries.collect()
}

/// An image for a room: half of them right, the others with one fault or two or of a wrong length.
pub fn perhaps_wrong(random: &mut Random, room: u16) -> Vec<u8> {
    let count = random.below(u64::from(room) + 1) as usize;
    let mut draft = Draft::any(random, room, count);
    let faults = random.pick(&[0, 0, 0, 1, 1, 2]);
    for _ in 0..faults {
        let fault = random.pick(&Fault::ALL);
        draft.damage(random, fault);
    }
    let mut bytes = draft.bytes();
    if random.below(8) == 0 {
        let by = random.pick(&[-16, -2, -1, 1, 16]);
        bytes.resize(bytes.len().saturating_add_signed(by), 0);
    }
    bytes
}

pub fn cases(random: &mut Random) -> Vec<Case> {
    let images = [
        right(random),
        with_faults(random),
        every_byte(random),
        every_length(random),
        largest(random),
    ];
    let cases = images
        .concat()
        .into_iter()
        .map(|image| dealt(image, checkpoint(0), &[0, 0, 1, 1, 1, 1]));
    cases
        .chain(with_commands(random))
        .chain(with_settings(random))
        .collect()
}

/// Opens from an image and deals turns, which are refused where the opening is; else the lists are
/// held against the serial run.
fn dealt((room, image): Image, commands: Vec<u8>, schedule: &[u8]) -> Case {
    let right = image.len() == image::length(room) && image::read(&image).is_ok();
    let judged = right && command::read_list(&commands).is_ok();
    let mut case = opening(room, commands).steps_from(image).to_vec();
    case.push(Step::Advance(schedule.to_vec()));
    case.extend(judged.then_some(Step::Serial));
    case
}

/// An image for an opening of a room.
type Image = (u16, Vec<u8>);

fn opening(room: u16, commands: Vec<u8>) -> Opening {
    Opening {
        size: 2,
        workers: 1,
        room: room.into(),
        commands,
    }
}

/// Zeros, and images of every number of entries, out of order and in it.
fn right(random: &mut Random) -> Vec<Image> {
    let mut images = vec![(LARGEST, image::zeros(LARGEST))];
    for room in ROOMS {
        images.push((room, image::zeros(room)));
        for count in 0..=room.into() {
            for _ in 0..20 {
                images.push((room, Draft::any(random, room, count).bytes()));
            }
        }
    }
    images
}

/// Each fault in images of several rooms, and each two.
fn with_faults(random: &mut Random) -> Vec<Image> {
    let mut images = Vec::new();
    for first in Fault::ALL {
        for second in Fault::ALL {
            for round in 0..12 {
                let room = random.pick(&ROOMS[1..]);
                let count = 2 + random.below(u64::from(room) - 1) as usize;
                let mut draft = Draft::any(random, room, count);
                draft.damage(random, first);
                if round % 3 > 0 {
                    draft.damage(random, second);
                }
                images.push((room, draft.bytes()));
            }
        }
    }
    images
}

/// Small images with every byte changed: one to each of the 256 values, others to several.
fn every_byte(random: &mut Random) -> Vec<Image> {
    let whole = Draft::any(random, 2, 2).bytes();
    let mut images: Vec<Image> = every_byte_everywhere(&whole)
        .into_iter()
        .map(|image| (2, image))
        .collect();
    for (room, count) in [(1, 0), (1, 1), (2, 1), (3, 2), (3, 3), (4, 4)] {
        let image = Draft::any(random, room, count).bytes();
        for position in 0..image.len() {
            images.extend(VALUES.map(|value| (room, with_byte(&image, position, value))));
        }
    }
    images
}

/// Images that are shorter and longer than the room asks for.
fn every_length(random: &mut Random) -> Vec<Image> {
    let mut images = Vec::new();
    for room in [1, 3] {
        let image = Draft::any(random, room, 1).bytes();
        for length in 0..=image.len() + 2 * RECORD {
            let bytes = image.iter().copied().cycle().take(length);
            images.push((room, bytes.collect()));
        }
    }
    images
}

/// Images of 4,096 records and one, full or nearly so: right, and with each fault at the end of the
/// chain.
fn largest(random: &mut Random) -> Vec<Image> {
    let full = Draft::any(random, LARGEST, LARGEST.into());
    let mut images = vec![
        (LARGEST, full.bytes()),
        (LARGEST, Draft::any(random, LARGEST, 4095).bytes()),
    ];
    for fault in Fault::ALL {
        let mut draft = full.clone();
        draft.damage_at(random, fault, usize::from(LARGEST) - 1);
        images.push((LARGEST, draft.bytes()));
    }
    images
}

/// Right and wrong images with right and wrong commands behind them.
pub fn with_commands(random: &mut Random) -> Vec<Case> {
    let mut cases = Vec::new();
    for _ in 0..5000 {
        let room = random.pick(&ROOMS);
        let image = perhaps_wrong(random, room);
        let list = [(); 2].map(|()| commands::perhaps_wrong(random)).concat();
        cases.push(dealt((room, image), list, &[0, 0, 0, 1, 1, 1, 1, 1, 1]));
    }
    cases
}

/// Settings and lists that are wrong besides, with images that are wrong and right.
fn with_settings(random: &mut Random) -> Vec<Case> {
    let mut cases = Vec::new();
    for fault in 0..6 {
        for right in [true, false] {
            let mut draft = Draft::any(random, 3, 2);
            if !right {
                draft.damage(random, Fault::Loop);
            }
            let mut opening = opening(3, checkpoint(0));
            let mut lengths = opening.lengths();
            match fault {
                0 => opening.size = 151,
                1 => opening.workers = 0,
                2 => opening.room = 0,
                3 => opening.commands.push(0),
                4 => opening.commands = checkpoint(0).repeat(MOST_COMMANDS + 1),
                _ => lengths[4] -= RECORD,
            }
            cases.push(vec![Step::Lend(lengths), opening.step_from(draft.bytes())]);
        }
    }
    cases
}

#[cfg(test)]
mod tests {
    use super::*;
    use crate::depot::Second;
    use crate::generate::checkpoints;
    use crate::met::Met;
    use crate::met::images::Scene;
    use crate::play::Play;
    use crate::refusal::Refusal;

    /// Each cause of refusals 15 and 16, what stands before and behind them, and what is accepted, is
    /// met often; the rest is met by runs.
    #[test]
    fn every_cause_is_met() {
        let random = &mut Random::new(1);
        let commands = checkpoints::cases(random).into_iter();
        let commands = commands.flat_map(|(_, cases)| cases);
        let mut met = Met::default();
        for case in cases(random).into_iter().chain(commands) {
            let mut play = Play::new(&Second);
            play.take_all(case).expect("the second program is itself");
            met += &play.met;
        }
        println!("{}", met.lines().join("\n"));
        let first = Scene::FromZeros as usize;
        let last = Scene::CommandBehindImage as usize;
        for scene in &Scene::ALL[first..=last] {
            let least = match scene {
                Scene::FromZeros | Scene::FromFull4096 => 1,
                _ => 20,
            };
            let count = met.images.count(*scene);
            assert!(count >= least, "{scene:?}: {count}");
        }
        for scene in [Scene::Opened, Scene::Refused10, Scene::SourceLength] {
            assert!(met.images.count(scene) >= 50, "{scene:?}");
        }
    }

    /// What a fault alone makes of an image with three entries.
    #[test]
    fn each_fault_is_refused_with_its_number() {
        let random = &mut Random::new(1);
        for (index, fault) in Fault::ALL.into_iter().enumerate() {
            for _ in 0..50 {
                let mut draft = Draft::any(random, 5, 3);
                let read = image::read(&draft.bytes()).expect("a right image");
                assert_eq!(read.used, 3);
                draft.damage(random, fault);
                let number = if index < 5 {
                    Refusal::Chain
                } else {
                    Refusal::Record
                };
                let read = image::read(&draft.bytes());
                assert_eq!(read, Err(number), "{fault:?} {:?}", draft.records);
            }
        }
    }

    /// Records stand in every order, and the entries are those that were asked for.
    #[test]
    fn a_shuffled_image_has_its_entries() {
        let random = &mut Random::new(2);
        let mut orders = BTreeSet::new();
        for _ in 0..200 {
            let entries = entries(random, 3);
            let draft = Draft::shuffled(random, 3, &entries, 7);
            let bytes = draft.bytes();
            let store = image::read(&bytes).expect("a right image");
            assert!(store.entries().eq(entries));
            assert_eq!(image::place(&bytes), 7);
            orders.insert(draft.chain);
        }
        assert_eq!(orders.len(), 6);
    }

    #[test]
    fn half_of_the_images_are_right() {
        let random = &mut Random::new(3);
        let mut right = 0;
        for _ in 0..1000 {
            let bytes = perhaps_wrong(random, 4);
            right += usize::from(bytes.len() == 80 && image::read(&bytes).is_ok());
        }
        assert!((300..700).contains(&right), "{right}");
    }
}
