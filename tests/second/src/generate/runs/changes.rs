//! Handed-back lists that were changed: single bytes at every offset, settings with lists that fit
//! them or do not, what a look-up found, and the store. What is accepted is stepped on, or dispatched.

use super::openings::Opening;
use super::{apart, dispatches, reports, schedules};
use crate::bytes::{
    COUNT, IN_FORCE, KEY, LARGEST, LOADED, NUMBER, PARTY, PARTY_BYTES, ROOM, SIZE, STATE, USED,
    WORKERS, party_bytes, write_numbers, write_words,
};
use crate::command::{LARGEST_CHUTE, LENGTH};
use crate::image;
use crate::play::{Difference, Play};
use crate::random::Random;
use crate::run::Party;
use crate::script::{List, Step};
use crate::store::Store;

/// Offsets that one run changes.
const OFFSETS: u64 = 24;
/// Of how many changed runs one is dispatched.
const DISPATCHED: u64 = 4;
/// Values at and next to bounds of the state's fields.
const VALUES: [u8; 14] = [0, 1, 2, 3, 4, 5, 6, 7, 8, 64, 65, 150, 151, 255];

/// Changes some bytes of the state, each alone; one run after the other goes over every offset.
pub fn bytes(number: u64, random: &mut Random, play: &mut Play) -> Result<(), Difference> {
    middle(random, play)?;
    for offset in number * OFFSETS..(number + 1) * OFFSETS {
        let offset = offset as usize % STATE;
        let value = value(random, play, offset);
        apart(play, |play| {
            set(play, List::State, offset, value)?;
            step_on(random, play)
        })?;
    }
    for _ in 0..4 {
        apart(play, |play| one_byte(random, play))?;
    }
    Ok(())
}

/// Changes any byte of any list.
pub fn one_byte(random: &mut Random, play: &mut Play) -> Result<(), Difference> {
    let list = random.pick(&List::HANDED);
    let length = play.host().list(list).len() as u64;
    if length > 0 {
        play.take(Step::Change {
            list,
            offset: random.below(length) as usize,
            bits: 1 + random.below(255) as u8,
        })?;
    }
    step_on(random, play)
}

/// Changes settings, counts and keys, with lists of the length that they ask for and of others.
pub fn settings(random: &mut Random, play: &mut Play) -> Result<(), Difference> {
    middle(random, play)?;
    for _ in 0..6 {
        apart(play, |play| {
            match random.below(6) {
                0 | 1 => change_room(random, play)?,
                2 | 3 => change_count(random, play)?,
                4 => change_used(random, play)?,
                _ => change_key(random, play)?,
            }
            step_on(random, play)
        })?;
    }
    Ok(())
}

/// Changes what the look-up of a worker found, from nothing to a chute or from a chute to nothing,
/// and deals the writing turn.
pub fn found(
    worker: u8,
    found: u16,
    random: &mut Random,
    play: &mut Play,
) -> Result<(), Difference> {
    let other = match found {
        0 => random.pick(&[1, 2, LARGEST_CHUTE, LARGEST_CHUTE + 1, u16::MAX]),
        _ => 0,
    };
    let last_two = PARTY + PARTY_BYTES * (usize::from(worker) + 1) - NUMBER;
    set_number(play, last_two, other)?;
    play.take(Step::Advance(vec![worker]))?;
    step_on(random, play)
}

/// A run that was opened and is somewhere in its middle, where it is judged.
fn middle(random: &mut Random, play: &mut Play) -> Result<(), Difference> {
    Opening::any(random).open(play)?;
    let mut schedule = schedules::any(random, play.host());
    schedule.truncate(random.below(schedule.len() as u64 + 1) as usize);
    play.take(Step::Advance(schedule))?;
    play.take(Step::Serial)?;
    Ok(())
}

/// Turns and reports on whatever state there is now, and then more turns or a dispatch.
pub fn step_on(random: &mut Random, play: &mut Play) -> Result<(), Difference> {
    let state = play.host().list(List::State);
    let workers = state.get(LARGEST).copied().unwrap_or(1);
    let schedule = schedules::some(random, workers.min(64), 60);
    play.take(Step::Advance(schedule))?;
    reports(play)?;
    if random.below(DISPATCHED) == 0 {
        return dispatches::dispatch(random, play);
    }
    let schedule = schedules::some(random, workers.min(64), 400);
    play.take(Step::Advance(schedule))?;
    Ok(())
}

/// Another room, in most cases with keys, chutes and image of its length.
fn change_room(random: &mut Random, play: &mut Play) -> Result<(), Difference> {
    let room = another(random, number(play, ROOM));
    set_number(play, ROOM, room)?;
    for (list, bytes) in [(List::Keys, KEY), (List::Chutes, NUMBER)] {
        if random.below(8) != 0 {
            play.take(Step::Resize(list, usize::from(room) * bytes))?;
        }
    }
    if random.below(8) != 0 {
        play.take(Step::Resize(List::Image, image::length(room)))?;
    }
    Ok(())
}

/// Another command count, in most cases with commands and answers of its length.
fn change_count(random: &mut Random, play: &mut Play) -> Result<(), Difference> {
    let count = another(random, number(play, COUNT));
    set_number(play, COUNT, count)?;
    for (list, bytes) in [(List::Commands, LENGTH), (List::Answers, NUMBER)] {
        if random.below(8) != 0 {
            play.take(Step::Resize(list, usize::from(count) * bytes))?;
        }
    }
    Ok(())
}

/// Another number of commands loaded or of places used.
fn change_used(random: &mut Random, play: &mut Play) -> Result<(), Difference> {
    let offset = random.pick(&[LOADED, USED]);
    let used = another(
        random,
        number(play, offset - 4).min(number(play, offset) + 1),
    );
    set_number(play, offset, used)
}

/// A key of the store made that of its neighbour, or another.
fn change_key(random: &mut Random, play: &mut Play) -> Result<(), Difference> {
    let keys = play.host().list(List::Keys);
    let places = (keys.len() / KEY) as u64;
    let used = u64::from(number(play, USED)).clamp(1, places);
    let from = random.below(used) as usize * KEY;
    let to = random.below(used) as usize * KEY;
    let key = keys[from..from + KEY].to_vec();
    set_bytes(play, List::Keys, to, &key)
}

/// A number at the ends of what is accepted, or next to this one.
fn another(random: &mut Random, number: u16) -> u16 {
    let near = [
        number.saturating_sub(1),
        number.saturating_add(1),
        number.saturating_add(20),
    ];
    match random.below(4) {
        0 => random.pick(&[0, 1, 4095, 4096, 4097, 4098]),
        _ => random.pick(&near),
    }
}

/// A value for a byte of the state that it does not have now.
fn value(random: &mut Random, play: &Play, offset: usize) -> u8 {
    let state = play.host().list(List::State);
    let now = state[offset];
    let value = match random.below(5) {
        0 => random.pick(&VALUES),
        1 => random.pick(&[
            state[SIZE],
            state[SIZE] + 1,
            state[WORKERS],
            state[LARGEST],
            state[IN_FORCE],
            state[COUNT + 1],
            state[COUNT + 1].wrapping_add(1),
        ]),
        2 => random.pick(&[now.wrapping_add(1), now.wrapping_sub(1)]),
        3 => now ^ (1 << random.below(8)),
        _ => random.below(u64::from(state[SIZE]) + 2) as u8,
    };
    if value == now { now ^ 1 } else { value }
}

/// Gives a byte of a list a value, if it has another.
fn set(play: &mut Play, list: List, offset: usize, value: u8) -> Result<(), Difference> {
    let bits = value ^ play.host().list(list)[offset];
    if bits != 0 {
        play.take(Step::Change { list, offset, bits })?;
    }
    Ok(())
}

fn number(play: &Play, offset: usize) -> u16 {
    let state = play.host().list(List::State);
    u16::from_be_bytes([state[offset], state[offset + 1]])
}

/// Makes the store another one of the same room.
pub fn set_store(play: &mut Play, store: &Store) -> Result<(), Difference> {
    let mut keys = vec![0; store.keys.len() * KEY];
    let mut chutes = vec![0; store.chutes.len() * NUMBER];
    write_words(&store.keys, &mut keys);
    write_numbers(&store.chutes, &mut chutes);
    set_bytes(play, List::Keys, 0, &keys)?;
    set_bytes(play, List::Chutes, 0, &chutes)?;
    set_number(play, USED, store.used)
}

/// Gives two bytes of the state a number.
pub fn set_number(play: &mut Play, offset: usize, number: u16) -> Result<(), Difference> {
    set_bytes(play, List::State, offset, &number.to_be_bytes())
}

/// Gives the command of a place, from 1, these bytes.
pub fn set_command(play: &mut Play, place: usize, bytes: &[u8]) -> Result<(), Difference> {
    set_bytes(play, List::Commands, (place - 1) * LENGTH, bytes)
}

pub fn set_party(play: &mut Play, number: u8, party: Party) -> Result<(), Difference> {
    let offset = PARTY + PARTY_BYTES * usize::from(number);
    set_bytes(play, List::State, offset, &party_bytes(party))
}

/// Gives the bytes of a list from an offset on these values.
pub fn set_bytes(
    play: &mut Play,
    list: List,
    offset: usize,
    values: &[u8],
) -> Result<(), Difference> {
    let mut values = values.iter().enumerate();
    values.try_for_each(|(index, value)| set(play, list, offset + index, *value))
}
