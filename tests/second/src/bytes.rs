//! The state as the caller keeps it: 4,718 bytes, laid out as docs/STATE-LAYOUT.md says, and the
//! lists that go with it.

use crate::command::{self, Command, Kind};
use crate::identifier;
use crate::image;
use crate::refusal::Refusal;
use crate::run::{PARTIES, Party, RECORDS, Records, Run, Set, Settings};
use crate::store::Store;

/// Bytes of a state.
pub const STATE: usize = 4718;
/// Bytes of a key in a list, of a chute and of an answer.
pub const KEY: usize = 8;
pub const NUMBER: usize = 2;

/// Where the fields stand.
pub const CHAIN: usize = 0;
pub const SIZE: usize = 1;
pub const WORKERS: usize = 2;
pub const LARGEST: usize = 3;
pub const ROOM: usize = 4;
pub const COUNT: usize = 6;
pub const LOADED: usize = 8;
pub const USED: usize = 10;
pub const FREE: usize = 12;
pub const IN_FORCE: usize = 13;
pub const NEXT: usize = 14;
pub const PLACE: usize = 165;
pub const EXECUTING: usize = 467;
pub const LOCKED: usize = 618;
pub const SETS: usize = 769;
pub const PARTY: usize = 4393;

/// What the first byte says: the run is one of the lock-coupled chain.
pub const LOCK_COUPLED: u8 = 1;

const SET_BYTES: usize = 24;
pub const PARTY_BYTES: usize = 5;

/// The largest settings and the most commands that opening accepts.
pub const MOST_SIZE: u64 = 150;
pub const MOST_WORKERS: u64 = 64;
pub const MOST_ROOM: u64 = 4096;
pub const MOST_COMMANDS: usize = 4096;

/// What is handed back of a run to every call; dealing is lent the image besides.
#[derive(Clone, Copy)]
pub struct Lists<'a> {
    pub state: &'a [u8],
    pub keys: &'a [u8],
    pub chutes: &'a [u8],
    pub answers: &'a [u8],
    pub commands: &'a [u8],
}

/// The settings, or refusal 1, 2 or 3, tested in that order.
pub fn settings(size: u64, workers: u64, room: u64) -> Result<Settings, Refusal> {
    let within = |number, most, refusal| {
        if (1..=most).contains(&number) {
            Ok(number)
        } else {
            Err(refusal)
        }
    };
    Ok(Settings {
        size: within(size, MOST_SIZE, Refusal::Size)? as u8,
        workers: within(workers, MOST_WORKERS, Refusal::Workers)? as u8,
        room: within(room, MOST_ROOM, Refusal::Room)? as u16,
    })
}

/// The run that is handed back, or refusal 6 or 12, tested in that order.
pub fn read(lists: Lists) -> Result<Run, Refusal> {
    if !lengths_fit(lists) {
        return Err(Refusal::Length);
    }
    read_whole(lists).ok_or(Refusal::OutOfRange)
}

/// The same where the image is lent, whose length is tested with the others. What it holds is not
/// read.
pub fn read_with_image(lists: Lists, image: &[u8]) -> Result<Run, Refusal> {
    let fits = lengths_fit(lists) && image.len() == image::length(number(lists.state, ROOM));
    if !fits {
        return Err(Refusal::Length);
    }
    read(lists)
}

/// Lays a run's state out; the list has its length. Of a count in force above 255, which no opening
/// accepts, the low byte is left.
pub fn write_state(run: &Run, state: &mut [u8]) {
    let records = &run.records;
    state[CHAIN] = LOCK_COUPLED;
    state[SIZE] = run.settings.size;
    state[WORKERS] = run.settings.workers;
    state[LARGEST] = run.largest;
    let numbers = [
        run.settings.room,
        run.commands.len() as u16,
        run.loaded,
        run.store.used,
    ];
    write_numbers(&numbers, &mut state[ROOM..FREE]);
    state[FREE] = records.free;
    state[IN_FORCE] = run.in_force as u8;
    state[NEXT..PLACE].copy_from_slice(&records.next);
    write_numbers(&records.place, &mut state[PLACE..EXECUTING]);
    write_bools(&records.executing, &mut state[EXECUTING..LOCKED]);
    write_bools(&records.locked, &mut state[LOCKED..SETS]);
    write_words(records.set.as_flattened(), &mut state[SETS..PARTY]);
    for (party, bytes) in run
        .parties
        .iter()
        .zip(state[PARTY..].chunks_mut(PARTY_BYTES))
    {
        bytes.copy_from_slice(&party_bytes(*party));
    }
}

/// Writes 16-bit numbers, high byte first.
pub fn write_numbers(numbers: &[u16], bytes: &mut [u8]) {
    for (number, bytes) in numbers.iter().zip(bytes.chunks_mut(NUMBER)) {
        bytes.copy_from_slice(&number.to_be_bytes());
    }
}

/// Writes 64-bit numbers, high byte first.
pub fn write_words(words: &[u64], bytes: &mut [u8]) {
    for (word, bytes) in words.iter().zip(bytes.chunks_mut(KEY)) {
        bytes.copy_from_slice(&word.to_be_bytes());
    }
}

/// The number of a party's state, and its own record, 0 where it has none.
pub fn standing(party: Party) -> [u8; 2] {
    let [state, _, own, _, _] = party_bytes(party);
    [state, own]
}

/// Refusal 6: whether each list is as long as the state says.
fn lengths_fit(lists: Lists) -> bool {
    let Lists { state, keys, .. } = lists;
    if state.len() != STATE {
        return false;
    }
    let room = usize::from(number(state, ROOM));
    let count = usize::from(number(state, COUNT));
    keys.len() == room * KEY
        && lists.chutes.len() == room * NUMBER
        && lists.answers.len() == count * NUMBER
        && lists.commands.len() == count * command::LENGTH
}

/// Refusal 12: the run, if nothing in it is out of range. The lists have their lengths.
fn read_whole(lists: Lists) -> Option<Run> {
    let state = lists.state;
    let room = number(state, ROOM);
    let settings = settings(state[SIZE].into(), state[WORKERS].into(), room.into()).ok()?;
    let [largest, in_force] = [state[LARGEST], state[IN_FORCE]];
    let count = number(state, COUNT);
    let loaded = number(state, LOADED);
    let fits = state[CHAIN] == LOCK_COUPLED
        && (1..=MOST_WORKERS).contains(&largest.into())
        && (1..=largest).contains(&in_force)
        && usize::from(count) <= MOST_COMMANDS
        && loaded <= count;
    if !fits {
        return None;
    }
    Some(Run {
        settings,
        largest,
        in_force: in_force.into(),
        loaded,
        records: read_records(state, settings.size, count)?,
        parties: read_parties(&state[PARTY..], settings.size)?,
        store: read_store(lists, number(state, USED), settings.room)?,
        answers: numbers(lists.answers).collect(),
        image: None,
        commands: lists
            .commands
            .as_chunks()
            .0
            .iter()
            .map(read_command)
            .collect(),
    })
}

fn read_records(state: &[u8], size: u8, count: u16) -> Option<Records> {
    let records = Records {
        next: state[NEXT..PLACE].try_into().ok()?,
        place: array(numbers(&state[PLACE..EXECUTING])),
        executing: read_bools(&state[EXECUTING..LOCKED])?,
        locked: read_bools(&state[LOCKED..SETS])?,
        set: read_sets(&state[SETS..PARTY]),
        free: state[FREE],
    };
    let fits = records.free <= size
        && records.next.iter().all(|next| *next <= size)
        && records.place.iter().all(|place| *place <= count)
        && records.set.iter().all(|set| set_fits(set, size));
    fits.then_some(records)
}

fn read_store(lists: Lists, used: u16, room: u16) -> Option<Store> {
    let store = Store {
        keys: words(lists.keys).collect(),
        chutes: numbers(lists.chutes).collect(),
        used,
    };
    let ascends = used <= room && store.keys[..used.into()].is_sorted_by(|a, b| a < b);
    ascends.then_some(store)
}

fn read_parties(bytes: &[u8], size: u8) -> Option<[Party; PARTIES]> {
    let mut parties = [Party::Idle; PARTIES];
    for (index, bytes) in bytes.chunks_exact(PARTY_BYTES).enumerate() {
        parties[index] = read_party(bytes, index == 0, size)?;
    }
    Some(parties)
}

/// A party, if its state is one that it can have, and what the state has none of is 0.
fn read_party(bytes: &[u8], loader: bool, size: u8) -> Option<Party> {
    let [state, at, own, ..] = *bytes else {
        return None;
    };
    let found = number(bytes, 3);
    let party = match (state, loader) {
        (0, _) => Party::Idle,
        (1, true) => Party::Loading { at, own },
        (2, false) => Party::Searching { at },
        (3, false) => Party::Holding { own },
        (4, false) => Party::LookedUp { own, found },
        (5, false) => Party::Written { own },
        (6, false) => Party::Walking { at, own },
        (7, false) => Party::Clearing { at, own },
        _ => return None,
    };
    (at <= size && own <= size && party_bytes(party) == bytes).then_some(party)
}

/// A party as the state has it.
pub fn party_bytes(party: Party) -> [u8; PARTY_BYTES] {
    let (state, at, own, found) = match party {
        Party::Idle => (0, 0, 0, 0),
        Party::Loading { at, own } => (1, at, own, 0),
        Party::Searching { at } => (2, at, 0, 0),
        Party::Holding { own } => (3, 0, own, 0),
        Party::LookedUp { own, found } => (4, 0, own, found),
        Party::Written { own } => (5, 0, own, 0),
        Party::Walking { at, own } => (6, at, own, 0),
        Party::Clearing { at, own } => (7, at, own, 0),
    };
    let [high, low] = found.to_be_bytes();
    [state, at, own, high, low]
}

/// A command of a handed-back list, which opening may not have tested. It "counts as its bytes say,
/// untested" (docs/DECISIONS.md, 26): a kind that is none is a read, the key is 0 where the kind names
/// no item, and the chute or count is whatever it is, 0 to 65,535.
fn read_command(part: &[u8; command::LENGTH]) -> Command {
    let [kind, text @ .., high, low] = part;
    let kind = Kind::from_number(*kind).unwrap_or(Kind::Read);
    let key = match kind {
        Kind::Insert | Kind::Delete | Kind::Read | Kind::Update => identifier::untested(text),
        Kind::Workers | Kind::Checkpoint => 0,
    };
    let chute = u16::from_be_bytes([*high, *low]);
    Command { kind, key, chute }
}

/// Whether a set has no member above the graph size.
fn set_fits(set: &Set, size: u8) -> bool {
    (0..3u32).zip(set).all(|(index, word)| {
        let below = (u32::from(size) + 1).saturating_sub(index * 64);
        word.checked_shr(below).unwrap_or(0) == 0
    })
}

fn read_sets(bytes: &[u8]) -> [Set; RECORDS] {
    let mut sets = [[0; 3]; RECORDS];
    for (set, bytes) in sets.iter_mut().zip(bytes.chunks_exact(SET_BYTES)) {
        *set = array(words(bytes));
    }
    sets
}

fn read_bools(bytes: &[u8]) -> Option<[bool; RECORDS]> {
    let named = bytes.iter().all(|byte| *byte <= 1);
    named.then(|| array(bytes.iter().map(|byte| *byte == 1)))
}

fn write_bools(bools: &[bool], bytes: &mut [u8]) {
    for (bool, byte) in bools.iter().zip(bytes) {
        *byte = u8::from(*bool);
    }
}

/// The two bytes from an offset on, as a number.
fn number(bytes: &[u8], offset: usize) -> u16 {
    u16::from_be_bytes([bytes[offset], bytes[offset + 1]])
}

fn numbers(bytes: &[u8]) -> impl Iterator<Item = u16> {
    bytes.chunks_exact(NUMBER).map(|bytes| number(bytes, 0))
}

fn words(bytes: &[u8]) -> impl Iterator<Item = u64> {
    bytes
        .as_chunks::<KEY>()
        .0
        .iter()
        .map(|bytes| u64::from_be_bytes(*bytes))
}

/// The first items, as an array; a missing one is the type's first value.
fn array<T: Copy + Default, const N: usize>(items: impl Iterator<Item = T>) -> [T; N] {
    let mut array = [T::default(); N];
    for (place, item) in array.iter_mut().zip(items) {
        *place = item;
    }
    array
}

#[cfg(test)]
mod tests {
    use super::*;
    use crate::command::encode;
    use crate::random::Random;

    fn untested(kind: u8, text: &[u8], chute: u16) -> Command {
        let part = encode(kind, text, chute);
        read_command(part.as_slice().try_into().expect("16 bytes"))
    }

    const FIRST: &[u8] = b"AA000000014AA";

    /// Decision 26: "On an accepted command this is that command".
    #[test]
    fn an_accepted_command_is_what_opening_reads() {
        let random = &mut Random::new(26);
        for _ in 0..20_000 {
            let kind = random.pick(&Kind::ALL);
            let text = match kind.names_item() {
                true => identifier::text(random.below(identifier::LARGEST_KEY + 1)).unwrap(),
                false => identifier::NONE,
            };
            let part = encode(kind.number(), &text, random.pick(&[0, 1, 7, 64, 256, 512]));
            let part = part.as_slice().try_into().expect("16 bytes");
            if let Ok(command) = command::read(part) {
                assert_eq!(read_command(part), command);
            }
        }
    }

    /// Decision 26: "a number that is no kind's counts as a read's", with its own key and chute.
    #[test]
    fn a_kind_that_is_none_is_a_read() {
        for kind in (0..=u8::MAX).filter(|kind| !(1..=6).contains(kind)) {
            let read = Command {
                kind: Kind::Read,
                key: 676,
                chute: 513,
            };
            assert_eq!(untested(kind, FIRST, 513), read);
        }
    }

    /// Decision 26: the last two bytes are the chute or count, high byte first, "whatever they are";
    /// the key is 0 where the kind names no item, whatever stands there.
    #[test]
    fn every_number_counts_as_it_stands() {
        for kind in Kind::ALL {
            let key = if kind.names_item() { 676 } else { 0 };
            for chute in 0..=u16::MAX {
                let command = Command { kind, key, chute };
                assert_eq!(untested(kind.number(), FIRST, chute), command);
            }
        }
        let count = untested(5, &[0xff; 13], 0x0102);
        assert_eq!((count.key, count.count()), (0, Some(258)));
    }

    /// Letters and digits out of their ranges carry over to the characters before them.
    #[test]
    fn a_text_out_of_range_has_the_key_of_another() {
        let key = |text: &[u8]| untested(3, text, 0).key;
        assert_eq!(key(b"AA000000014AA"), 676);
        assert_eq!(key(b"AA000000005A["), 26);
        assert_eq!(key(b"AA000000005@["), 0);
        assert_eq!(key(b"AA0000000:5AA"), key(b"AA000000102AA"));
        assert_eq!(key(b"A[000000005AA"), key(b"BA000000005AA"));
        assert_eq!(key(b"ZZ999999995Z["), identifier::LARGEST_KEY + 1);
    }
}
