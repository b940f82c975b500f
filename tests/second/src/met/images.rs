//! How often the compared inputs meet what document 02's A.3 brings: checkpoints, the images that
//! they write, and images that are opened from, accepted, refused by each cause, and of a run that is
//! swapped for another.

use std::cmp::Ordering;

use crate::bytes::{self, KEY, MOST_COMMANDS, NUMBER, STATE};
use crate::calls::{Asked, Given};
use crate::command::{self, Kind, LARGEST_CHUTE, LENGTH};
use crate::host::Host;
use crate::identifier::{self, LARGEST_KEY};
use crate::image::{self, RECORD, Record};
use crate::met::refused_kind;
use crate::run::{Party, Run};
use crate::script::{List, Step};

named! {
    /// What is counted besides refusal 8.
    Scene:
    Opened "lists with a checkpoint opened",
    Refused10 "checkpoints refused 10",
    LookBesideKey0 "looks of a checkpoint beside an item of key 0",
    WrittenFirst "images written over zeros",
    WrittenAgain "images written over another's",
    OverAnything "images written over what is none",
    OfNone "images written of an empty store",
    OfSome "images written of a store with entries and places left",
    OfFull "images written of a full store",
    OfFull4096 "images written of a full store of room 4,096",
    Shorter "images written of fewer entries than before",
    Longer "images written of more entries than before",
    AtPlace4096 "images written at place 4,096",
    WithAFinding "checkpoints written with a finding",
    AfterImage "images written by a run that was opened from entries",
    OpenLength "openings refused 6 for the image alone",
    FromLength "openings from an image refused 6 for the lent one alone",
    SourceLength "openings from an image refused 6 for that one alone",
    AdvanceLength "dealings refused 6 for the image alone",
    FromZeros "zeros opened from",
    FromFull "images of a full store opened from",
    FromFull4096 "images of 4,096 entries opened from",
    FromInOrder "images in order opened from",
    FromOutOfOrder "images out of order opened from",
    FromBesideAnything "images with anything off the chain opened from",
    FromNoPlace "images of entries without a place opened from",
    FromPlace4096 "images of place 4,096 opened from",
    FirstIndex "15: index of record 0 above the room",
    Index "15: index on the chain above the room",
    Equal "15: equal keys",
    Descending "15: descending keys",
    Loop "15: a chain that comes back",
    LoopOfOne "15: a record that leads to itself",
    FirstChute "16: chute in record 0",
    FirstPlace "16: place above 4,096",
    FirstZeros "16: last bytes of record 0",
    Key "16: key above the largest",
    NoChute "16: chute 0",
    Chute "16: chute above 512",
    Zeros "16: last bytes on the chain",
    ChainBeforeRecord "15 where 16 holds too",
    ChainBeforeCommand "15 where a command is wrong too",
    RecordBeforeCommand "16 where a command is wrong too",
    CommandBehindImage "commands refused behind a right image",
    LengthBeforeImage "6 where the image is wrong too",
    SettingsBeforeImage "1 to 5 where the image is wrong too",
    Swapped "runs opened from another's image with the rest of its list",
    SwappedShuffled "the same with its records in another order",
    SwappedAtWork "the same while workers have records",
    SwappedSettings "the same with another size and another worker count",
    SwappedEmpty "the same with nothing left of the list",
}

/// Counts of all that is named above.
#[derive(Clone, Debug, PartialEq, Eq)]
pub struct Images {
    scenes: Vec<u64>,
    /// Checkpoints refused 8 at each character from 1.
    characters: [u64; identifier::LENGTH],
    /// What was there when lists were last lent afresh.
    left: Option<Left>,
}

/// A run with a checkpoint that is written, when its lists are given up.
#[derive(Clone, Debug, PartialEq, Eq)]
struct Left {
    image: Vec<u8>,
    /// The commands behind the checkpoint.
    commands: Vec<u8>,
    /// Size and workers.
    settings: [u64; 2],
    at_work: bool,
}

impl Left {
    fn of(host: &Host) -> Option<Left> {
        let image = host.list(List::Image);
        let run = host.run().filter(|_| image.len() >= RECORD)?;
        let place = image::place(image) as usize;
        let behind = host
            .list(List::Commands)
            .get(place.checked_mul(LENGTH)?..)?;
        (place > 0).then(|| Left {
            image: image.to_vec(),
            commands: behind.to_vec(),
            settings: [run.settings.size, run.settings.workers].map(u64::from),
            at_work: run.parties.iter().any(|it| it.own().is_some()),
        })
    }
}

impl Default for Images {
    fn default() -> Images {
        Images {
            scenes: vec![0; Scene::ALL.len()],
            characters: [0; identifier::LENGTH],
            left: None,
        }
    }
}

impl Images {
    /// All met so often, for tests.
    #[cfg(test)]
    pub fn met(times: u64) -> Images {
        Images {
            scenes: vec![times; Scene::ALL.len()],
            characters: [times; identifier::LENGTH],
            left: None,
        }
    }

    pub fn add(&mut self, other: &Images) {
        let scenes = self.scenes.iter_mut().zip(&other.scenes);
        let characters = self.characters.iter_mut().zip(&other.characters);
        for (count, more) in scenes.chain(characters) {
            *count += more;
        }
    }

    /// A line for each, with how often it was met.
    pub fn lines(&self) -> impl Iterator<Item = String> {
        let scenes = Scene::ALL.iter().zip(&self.scenes);
        let characters = self.characters.iter().enumerate().map(|(index, count)| {
            let character = index + 1;
            format!("checkpoints refused 8 at character {character}: {count}")
        });
        scenes
            .map(|(scene, count)| format!("{}: {count}", scene.name()))
            .chain(characters)
    }

    pub fn lacks_any(&self) -> bool {
        self.scenes.contains(&0) || self.characters.contains(&0)
    }

    pub fn count(&self, scene: Scene) -> u64 {
        self.scenes[scene as usize]
    }

    fn note(&mut self, scene: Scene, met: bool) {
        self.scenes[scene as usize] += u64::from(met);
    }

    /// Notes a step of a caller, before it is taken, with the answer that it gets.
    pub fn note_step(&mut self, host: &Host, step: &Step, answer: u64) {
        match step {
            Step::Open(open) => self.note_opening(host, open.given(), answer),
            Step::Lend(_) => self.left = Left::of(host),
            Step::Advance(schedule) => self.note_dealing(host, schedule, answer),
            _ => {}
        }
    }

    fn note_opening(&mut self, host: &Host, given: Given, answer: u64) {
        let refused = refused_kind(given.commands, answer);
        let checkpoint = refused == Some(Kind::Checkpoint.number());
        self.note(Scene::Opened, answer == 0 && has_checkpoint(given.commands));
        self.note(Scene::Refused10, checkpoint && answer & 0xff == 10);
        if checkpoint && answer & 0xff == 8 {
            self.characters[(answer >> 32) as usize - 1] += 1;
        }
        if answer == 6 {
            self.note_lengths(host, given);
        }
        if let Some(source) = given.source {
            self.note_source(source, given.commands, answer);
            if answer == 0 {
                self.note_swap(given.commands, source, given.settings);
            }
        }
    }

    /// Notes an opening that is refused 6 for one of its images alone.
    fn note_lengths(&mut self, host: &Host, given: Given) {
        let [_, _, room] = given.settings;
        let right = image::length(room as u16);
        let room = room as usize;
        let count = given.commands.len() / LENGTH;
        let others = [
            (List::State, STATE),
            (List::Keys, room * KEY),
            (List::Chutes, room * NUMBER),
            (List::Answers, count * NUMBER),
        ];
        if others
            .iter()
            .any(|(list, it)| host.list(*list).len() != *it)
        {
            return;
        }
        let lent = host.list(List::Image).len() == right;
        let source = given.source.is_none_or(|source| source.len() == right);
        self.note(Scene::OpenLength, !lent && given.source.is_none());
        self.note(Scene::FromLength, !lent && source && given.source.is_some());
        self.note(Scene::SourceLength, lent && !source);
    }

    /// Notes an image that is opened from.
    fn note_source(&mut self, source: &[u8], commands: &[u8], answer: u64) {
        let wrong_command = command::read_list(commands).is_err();
        let whole = source.len() >= 2 * RECORD && source.len().is_multiple_of(RECORD);
        let wrong = whole && image::read(source).is_err();
        match answer & 0xff {
            0 => self.note_accepted(source),
            1..=5 => self.note(Scene::SettingsBeforeImage, wrong),
            6 => self.note(Scene::LengthBeforeImage, wrong),
            15 => {
                self.note(Scene::ChainBeforeCommand, wrong_command);
                self.note_chain(source);
            }
            16 => {
                self.note(Scene::RecordBeforeCommand, wrong_command);
                causes(source, &walk(source).0).for_each(|cause| self.note(cause, true));
            }
            _ => self.note(Scene::CommandBehindImage, true),
        }
    }

    fn note_accepted(&mut self, source: &[u8]) {
        let chain = walk(source).0;
        let room = source.len() / RECORD - 1;
        let in_order = chain.iter().zip(1..).all(|(index, place)| *index == place);
        let off = (1..=room as u16).filter(|index| !chain.contains(index));
        let anything = off
            .map(|index| Record::read(source, index))
            .any(|it| it != Record::default());
        let place = image::place(source);
        self.note(Scene::FromZeros, source.iter().all(|byte| *byte == 0));
        self.note(Scene::FromFull, chain.len() == room);
        self.note(Scene::FromFull4096, chain.len() == 4096);
        self.note(Scene::FromInOrder, chain.len() > 1 && in_order);
        self.note(Scene::FromOutOfOrder, !in_order);
        self.note(Scene::FromBesideAnything, anything);
        self.note(Scene::FromNoPlace, !chain.is_empty() && place == 0);
        self.note(Scene::FromPlace4096, place == MOST_COMMANDS as u64);
    }

    /// Notes an image that is refused 15, by its first fault.
    fn note_chain(&mut self, source: &[u8]) {
        let (chain, fault) = walk(source);
        if let Some(fault) = fault {
            self.note(fault, true);
        }
        let other = causes(source, &chain).next().is_some();
        self.note(Scene::ChainBeforeRecord, other);
    }

    /// Notes an opening that goes on with the run that the caller had.
    fn note_swap(&mut self, commands: &[u8], source: &[u8], asked: Asked) {
        let Some(left) = &self.left else { return };
        let same = image::place(&left.image) == image::place(source)
            && left.image.len() == source.len()
            && image::read(&left.image) == image::read(source);
        if !same || left.commands != commands {
            return;
        }
        let [size, workers] = left.settings;
        let scenes = [
            (Scene::Swapped, true),
            (Scene::SwappedShuffled, left.image != source),
            (Scene::SwappedAtWork, left.at_work),
            (
                Scene::SwappedSettings,
                size != asked[0] && workers != asked[1],
            ),
            (Scene::SwappedEmpty, commands.is_empty()),
        ];
        for (scene, met) in scenes {
            self.note(scene, met);
        }
    }

    fn note_dealing(&mut self, host: &Host, schedule: &[u8], answer: u64) {
        let alone = answer == 6 && bytes::read(host.lists()).is_ok();
        self.note(Scene::AdvanceLength, alone);
        if answer != 0 || !has_checkpoint(host.list(List::Commands)) {
            return;
        }
        let Some(mut run) = host.run() else { return };
        run.image = Some(host.list(List::Image).to_vec());
        let from_entries = !host.entries().is_empty();
        for party in schedule {
            self.note_turn(&mut run, *party, from_entries);
        }
    }

    /// Deals a turn and notes it.
    fn note_turn(&mut self, run: &mut Run, party: u8, from_entries: bool) {
        let now = run.parties[usize::from(party)];
        let kind = now.own().and_then(|own| run.command(own)).map(|it| it.kind);
        let checkpoint = kind == Some(Kind::Checkpoint);
        match now {
            Party::Holding { .. } if checkpoint => {
                self.note(Scene::LookBesideKey0, run.store.chute(0) != 0);
            }
            Party::LookedUp { own, found } if checkpoint => {
                self.note(Scene::WithAFinding, found != 0);
                self.note(Scene::AfterImage, from_entries);
                let place = run.records.place[usize::from(own)];
                self.note(Scene::AtPlace4096, usize::from(place) == MOST_COMMANDS);
                self.note_image(run);
            }
            _ => {}
        }
        run.turn(party);
    }

    /// Notes the image that is about to be written.
    fn note_image(&mut self, run: &Run) {
        let Some(before) = &run.image else { return };
        let used = run.store.used;
        let full = run.store.is_full();
        self.note(Scene::OfNone, used == 0);
        self.note(Scene::OfSome, used > 0 && !full);
        self.note(Scene::OfFull, full);
        self.note(Scene::OfFull4096, full && used == 4096);
        let zeros = before.iter().all(|byte| *byte == 0);
        self.note(Scene::WrittenFirst, zeros);
        match image::read(before) {
            Ok(store) if !zeros => {
                self.note(Scene::WrittenAgain, true);
                self.note(Scene::Shorter, used < store.used);
                self.note(Scene::Longer, used > store.used);
            }
            Ok(_) => {}
            Err(_) => self.note(Scene::OverAnything, true),
        }
    }
}

/// The records of a chain up to its end or its first fault, and that.
fn walk(image: &[u8]) -> (Vec<u16>, Option<Scene>) {
    let room = image.len() / RECORD - 1;
    let mut chain: Vec<u16> = Vec::new();
    let mut next = Record::read(image, 0).next;
    while next != 0 {
        let last = chain.last().copied();
        let fault = match last {
            None if usize::from(next) > room => Some(Scene::FirstIndex),
            _ if usize::from(next) > room => Some(Scene::Index),
            Some(last) if last == next => Some(Scene::LoopOfOne),
            Some(last) => {
                let keys = [last, next].map(|index| Record::read(image, index).key);
                match keys[0].cmp(&keys[1]) {
                    Ordering::Less => None,
                    _ if chain.contains(&next) => Some(Scene::Loop),
                    Ordering::Equal => Some(Scene::Equal),
                    Ordering::Greater => Some(Scene::Descending),
                }
            }
            None => None,
        };
        if fault.is_some() {
            return (chain, fault);
        }
        chain.push(next);
        next = Record::read(image, next).next;
    }
    (chain, None)
}

/// What refusal 16 finds in record 0 and in these records.
fn causes(image: &[u8], chain: &[u16]) -> impl Iterator<Item = Scene> {
    let first = Record::read(image, 0);
    let mut causes = vec![
        (Scene::FirstChute, first.chute != 0),
        (Scene::FirstPlace, first.key > MOST_COMMANDS as u64),
        (Scene::FirstZeros, first.zeros != 0),
    ];
    for index in chain {
        let record = Record::read(image, *index);
        causes.extend([
            (Scene::Key, record.key > LARGEST_KEY),
            (Scene::NoChute, record.chute == 0),
            (Scene::Chute, record.chute > LARGEST_CHUTE),
            (Scene::Zeros, record.zeros != 0),
        ]);
    }
    let causes = causes.into_iter();
    causes.filter_map(|(cause, holds)| holds.then_some(cause))
}

fn has_checkpoint(commands: &[u8]) -> bool {
    let mut kinds = commands.iter().step_by(LENGTH);
    kinds.any(|kind| *kind == Kind::Checkpoint.number())
}

#[cfg(test)]
mod tests {
    use super::*;

    /// Nothing is met at first; one missing count of many is seen.
    #[test]
    fn what_is_never_met_is_told() {
        let mut images = Images::default();
        assert!(images.lacks_any());
        images = Images::met(2);
        assert!(!images.lacks_any());
        for index in 0..Scene::ALL.len() {
            assert_eq!(Scene::ALL[index] as usize, index);
            let mut other = images.clone();
            other.scenes[index] = 0;
            assert!(other.lacks_any());
        }
        let mut sum = images.clone();
        sum.add(&images);
        assert_eq!(sum.count(Scene::Loop), 4);
        let lines: Vec<String> = sum.lines().collect();
        assert_eq!(lines.len(), Scene::ALL.len() + identifier::LENGTH);
        assert_eq!(lines[1], "checkpoints refused 10: 4");
        let last = "checkpoints refused 8 at character 13: 4";
        assert_eq!(lines.last().map(String::as_str), Some(last));
    }
}
