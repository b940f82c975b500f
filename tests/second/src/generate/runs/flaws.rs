//! Depots with one flaw each in what document 02's A.3 asks for: the comparison finds every one,
//! and serial runs tell each wrong image without the second program.

use super::{CHECKPOINTS, SWAPS, play};
use crate::bytes;
use crate::calls::{Asked, Given, LentLists};
use crate::command::Kind;
use crate::depot::altered::Altered;
use crate::depot::{Depot, Second};
use crate::generate::{Sort, cases};
use crate::image::{self, RECORD, Record};
use crate::play::{Difference, Play};
use crate::run::{Party, Run};

#[derive(Clone, Copy, Debug, PartialEq, Eq)]
enum Flaw {
    /// The image is written when a checkpoint is looked up, and again when it is written.
    AtTheLook,
    /// The image has the place of the next command.
    NextPlace,
    /// The image has no place.
    NoPlace,
    /// The image is written by the first dealing that leaves a command behind the checkpoint
    /// written.
    Late,
    /// Records behind the entries keep what they had.
    Stale,
    /// The last entry leads to the record behind it.
    NoEnd,
    /// Opening leaves the image as it was.
    OpeningKeeps,
    /// Opening from an image hands that on.
    SourceStays,
    /// The entries are taken from records 1, 2 and on.
    InOrder,
    /// An index one above the room ends the chain.
    RoomAndOne,
    /// 16 is tested before 15.
    RecordFirst,
    /// The commands are tested before the image.
    CommandsFirst,
    /// The last bytes of record 0 are not tested.
    ZerosUnread,
    /// The place is not tested.
    PlaceUnread,
    /// The length of the image is not tested by a dealing.
    Unmeasured,
}

const FLAWS: [Flaw; 15] = [
    Flaw::AtTheLook,
    Flaw::NextPlace,
    Flaw::NoPlace,
    Flaw::Late,
    Flaw::Stale,
    Flaw::NoEnd,
    Flaw::OpeningKeeps,
    Flaw::SourceStays,
    Flaw::InOrder,
    Flaw::RoomAndOne,
    Flaw::RecordFirst,
    Flaw::CommandsFirst,
    Flaw::ZerosUnread,
    Flaw::PlaceUnread,
    Flaw::Unmeasured,
];

/// The second program with a flaw.
struct Flawed(Flaw);

impl Flawed {
    /// Spoils an image that a dealing has written.
    fn spoil(&self, before: &[u8], lent: &mut LentLists, commands: &[u8]) {
        let Ok(run) = bytes::read(lent.handed(commands)) else {
            return;
        };
        let end = RECORD * (usize::from(run.store.used) + 1);
        let written = before != lent.image;
        match self.0 {
            Flaw::AtTheLook => {
                if let Some(place) = looked_up(&run) {
                    let mut image = Vec::new();
                    image::write(&run.store, place, &mut image);
                    lent.image.copy_from_slice(&image);
                }
            }
            Flaw::NextPlace if written => lent.image[image::KEY + 7] += 1,
            Flaw::NoPlace => lent.image[image::KEY..image::ZEROS].fill(0),
            Flaw::Late => late(before, lent.image, &run),
            Flaw::Stale if written => {
                let length = chain_length(lent.image);
                lent.image[length..].copy_from_slice(&before[length..]);
            }
            Flaw::NoEnd if written && end < lent.image.len() => {
                let last = chain_length(lent.image) / RECORD;
                if last > 1 {
                    lent.image[(last - 1) * RECORD + 1] = last as u8;
                }
            }
            _ => {}
        }
    }

    fn open_from(&self, lent: &mut LentLists, source: &[u8], given: Given) -> u64 {
        let taken = self.taken(source, given.settings);
        let mut given = Given {
            source: Some(&taken),
            ..given
        };
        let answer = Second.open(lent, given);
        match (self.0, answer) {
            (Flaw::SourceStays, 0) => lent.image.copy_from_slice(source),
            (Flaw::RecordFirst, 15) if Record::read(source, 0).chute != 0 => return 16,
            (Flaw::CommandsFirst, 15 | 16) => {
                given.source = None;
                let other = Second.open(lent, given);
                return if other == 0 { answer } else { other };
            }
            _ => {}
        }
        answer
    }

    /// An image as the flaw takes it.
    fn taken(&self, source: &[u8], settings: Asked) -> Vec<u8> {
        let mut taken = source.to_vec();
        if source.len() != 16 * (settings[2].min(4096) as usize + 1) {
            return taken;
        }
        let next = Record::read(source, 0).next;
        match self.0 {
            Flaw::RoomAndOne if u64::from(next) == settings[2] + 1 => taken[..2].fill(0),
            Flaw::ZerosUnread => taken[image::ZEROS..RECORD].fill(0),
            Flaw::PlaceUnread => taken[image::KEY..image::ZEROS].fill(0),
            Flaw::InOrder => {
                if let Ok(store) = image::read(source) {
                    for place in 0..u8::try_from(store.used).unwrap_or(0) {
                        taken[usize::from(place) * RECORD + 1] = place + 1;
                    }
                }
            }
            _ => {}
        }
        taken
    }
}

/// The place of a checkpoint that a worker has looked up.
fn looked_up(run: &Run) -> Option<u16> {
    let own = run.parties.iter().find_map(|party| match party {
        Party::LookedUp { own, .. } => Some(*own),
        _ => None,
    })?;
    let checkpoint = run.command(own)?.kind == Kind::Checkpoint;
    checkpoint.then_some(run.records.place[usize::from(own)])
}

/// Leaves an image as it was before a call until a command behind its checkpoint is written.
fn late(before: &[u8], image: &mut [u8], run: &Run) {
    let checkpoint = |index: &usize| run.commands[*index].kind == Kind::Checkpoint;
    let mut written = (0..run.commands.len()).filter(|index| run.answers[*index] != 0);
    let Some(last) = written.clone().rfind(checkpoint) else {
        return;
    };
    let place = last as u16 + 1;
    if !written.any(|index| index > last) {
        image.copy_from_slice(before);
    } else if image::place(image) != u64::from(place) {
        let mut other = Vec::new();
        image::write(&run.store, place, &mut other);
        image.copy_from_slice(&other);
    }
}

/// The bytes of record 0 and of the entries, where these stand in order.
fn chain_length(image: &[u8]) -> usize {
    let used = image::read(image).map_or(0, |store| store.used);
    RECORD * (usize::from(used) + 1)
}

impl Altered for Flawed {
    fn open(&self, lent: &mut LentLists, given: Given) -> u64 {
        if let Some(source) = given.source {
            return self.open_from(lent, source, given);
        }
        let before = lent.image.to_vec();
        let answer = Second.open(lent, given);
        if self.0 == Flaw::OpeningKeeps {
            lent.image.copy_from_slice(&before);
        }
        answer
    }

    fn advance(&self, lent: &mut LentLists, commands: &[u8], schedule: &[u8]) -> u64 {
        let before = lent.image.to_vec();
        let answer = Second.advance(lent, commands, schedule);
        if answer == 0 {
            self.spoil(&before, lent, commands);
        }
        let unmeasured = answer == 6 && self.0 == Flaw::Unmeasured && schedule.is_empty();
        if unmeasured { 0 } else { answer }
    }
}

/// What serial runs alone tell of a flaw in runs from an index on.
fn told(flaw: Flaw, first: u64) -> Option<Difference> {
    let depot = Flawed(flaw);
    let mut indexes = (first..first + 500).step_by(9);
    indexes.find_map(|index| play(1, index, &mut Play::alone(&depot)).err())
}

/// What is found of a flaw in runs from an index on, or else in images.
fn found(flaw: Flaw, first: u64, images: &[Vec<crate::script::Step>]) -> Option<Difference> {
    let depot = Flawed(flaw);
    let mut indexes = (first..first + 500).step_by(9);
    let runs = indexes.find_map(|index| play(1, index, &mut Play::new(&depot)).err());
    runs.or_else(|| {
        let mut cases = images.iter();
        cases.find_map(|case| Play::new(&depot).take_all(case.clone()).err())
    })
}

#[test]
fn every_flaw_is_found() {
    let images = cases(1)
        .into_iter()
        .filter(|(sort, _)| *sort == Sort::Images);
    let images: Vec<_> = images.map(|(_, case)| case).collect();
    for flaw in FLAWS {
        let difference = found(flaw, CHECKPOINTS, &images).expect("it is found");
        println!("{flaw:?}: {difference}");
    }
    for flaw in [Flaw::AtTheLook, Flaw::NextPlace, Flaw::InOrder] {
        let difference = found(flaw, SWAPS + 1, &[]).expect("it is found by swaps");
        println!("{flaw:?}, in swaps: {difference}");
    }
}

/// Document 02, A.10: "the image written holds what the commands delivered before the last written
/// kind 6 leave, with its place, and zeros before any".
#[test]
fn wrong_images_are_told_by_serial_runs_alone() {
    let flaws = [
        Flaw::AtTheLook,
        Flaw::NextPlace,
        Flaw::NoPlace,
        Flaw::Late,
        Flaw::Stale,
        Flaw::NoEnd,
        Flaw::OpeningKeeps,
    ];
    for flaw in flaws {
        let difference = told(flaw, CHECKPOINTS).expect("it is told");
        println!("{flaw:?}: {difference}");
        assert!(difference.contains("the image is not"), "{flaw:?}");
    }
    let difference = told(Flaw::SourceStays, SWAPS + 1).expect("it is told");
    assert!(difference.contains("the image is not"), "{difference}");
}
