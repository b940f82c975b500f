//! The image of a store: what a checkpoint writes, and what a run can be opened from. Document 02,
//! A.3, and docs/IMAGE-LAYOUT.md: room + 1 records of 16 bytes, of which record 0 has the beginning
//! of a chain and the checkpoint's place, and the others an entry each, or anything where they are
//! not on the chain.

use crate::bytes::MOST_COMMANDS;
use crate::command::LARGEST_CHUTE;
use crate::identifier::LARGEST_KEY;
use crate::refusal::Refusal;
use crate::store::Store;

/// Bytes of a record.
pub const RECORD: usize = 16;
/// Where the fields of a record stand: the index of the next record, the chute, the key or in
/// record 0 the place, and what must be 0.
pub const NEXT: usize = 0;
pub const CHUTE: usize = 2;
pub const KEY: usize = 4;
pub const ZEROS: usize = 12;

/// As an index, the end of the chain.
const END: u16 = 0;

/// A record as numbers; the key of record 0 is a place.
#[derive(Clone, Copy, Debug, Default, PartialEq, Eq)]
pub struct Record {
    pub next: u16,
    pub chute: u16,
    pub key: u64,
    pub zeros: u32,
}

impl Record {
    /// The fields one after the other, as one number with its high byte first.
    pub fn bytes(self) -> [u8; RECORD] {
        let fields = [
            u128::from(self.next) << (8 * (RECORD - CHUTE)),
            u128::from(self.chute) << (8 * (RECORD - KEY)),
            u128::from(self.key) << (8 * (RECORD - ZEROS)),
            u128::from(self.zeros),
        ];
        let number: u128 = fields.iter().sum();
        number.to_be_bytes()
    }

    /// Reads the record of an index, which is not above the room.
    pub fn read(image: &[u8], index: u16) -> Record {
        let number = u128::from_be_bytes(image.as_chunks().0[usize::from(index)]);
        Record {
            next: (number >> (8 * (RECORD - CHUTE))) as u16,
            chute: (number >> (8 * (RECORD - KEY))) as u16,
            key: (number >> (8 * (RECORD - ZEROS))) as u64,
            zeros: number as u32,
        }
    }

    /// What refusal 16 asks of record 0.
    fn is_right_first(self) -> bool {
        self.chute == 0 && self.key <= MOST_COMMANDS as u64 && self.zeros == 0
    }

    /// What it asks of a record on the chain.
    fn is_right(self) -> bool {
        self.key <= LARGEST_KEY && (1..=LARGEST_CHUTE).contains(&self.chute) && self.zeros == 0
    }
}

/// The bytes of an image of a store with this room.
pub fn length(room: u16) -> usize {
    RECORD * (usize::from(room) + 1)
}

/// What opening leaves, and what reads as an empty store.
pub fn zeros(room: u16) -> Vec<u8> {
    vec![0; length(room)]
}

/// Makes an image that of a store at a checkpoint's place, whatever it was: the entries in records
/// 1, 2 and on, and zeros behind them.
pub fn write(store: &Store, place: u16, image: &mut Vec<u8>) {
    image.clear();
    image.resize(RECORD * (store.keys.len() + 1), 0);
    let first = Record {
        next: u16::from(store.used > 0),
        key: place.into(),
        ..Record::default()
    };
    image[..RECORD].copy_from_slice(&first.bytes());
    let entries = store.keys.iter().zip(&store.chutes);
    let records = image[RECORD..].chunks_exact_mut(RECORD);
    let places = (1..=store.used).zip(entries.zip(records));
    for (index, ((key, chute), bytes)) in places {
        let record = Record {
            next: if index < store.used { index + 1 } else { END },
            chute: *chute,
            key: *key,
            zeros: 0,
        };
        bytes.copy_from_slice(&record.bytes());
    }
}

/// The store that an image holds, or refusal 15 or 16, tested in that order. The image is at least a
/// record long and is no longer than records can be numbered, which its length says.
pub fn read(image: &[u8]) -> Result<Store, Refusal> {
    let chain = chain(image)?;
    let right = Record::read(image, 0).is_right_first() && chain.iter().all(|it| it.is_right());
    if !right {
        return Err(Refusal::Record);
    }
    let mut store = Store::new((image.len() / RECORD - 1) as u16);
    for (place, record) in chain.iter().enumerate() {
        store.keys[place] = record.key;
        store.chutes[place] = record.chute;
    }
    store.used = chain.len() as u16;
    Ok(store)
}

/// The place of the checkpoint that an image is of, 0 for none.
pub fn place(image: &[u8]) -> u64 {
    Record::read(image, 0).key
}

/// The records of the chain, wherever it leads, or refusal 15. Ascending keys meet no record twice,
/// so that every chain ends or is refused.
fn chain(image: &[u8]) -> Result<Vec<Record>, Refusal> {
    let room = image.len() / RECORD - 1;
    let mut chain: Vec<Record> = Vec::new();
    let mut next = Record::read(image, 0).next;
    while next != END {
        if usize::from(next) > room {
            return Err(Refusal::Chain);
        }
        let record = Record::read(image, next);
        if chain.last().is_some_and(|last| last.key >= record.key) {
            return Err(Refusal::Chain);
        }
        next = record.next;
        chain.push(record);
    }
    Ok(chain)
}

#[cfg(test)]
mod tests {
    use super::*;
    use crate::hex::from_hex;

    /// The example of docs/IMAGE-LAYOUT.md, a record a line.
    const EXAMPLE: [&str; 4] = [
        "00010000000000000000000300000000",
        "00020007000000000000000000000000",
        "0000000c00001c3fcf1c076500000000",
        "00000000000000000000000000000000",
    ];
    /// The key of RR473124829GB.
    const OTHER: u64 = 31_060_383_237_989;

    fn example() -> Vec<u8> {
        from_hex(&EXAMPLE.concat()).expect("digits")
    }

    fn store(room: u16, entries: &[(u64, u16)]) -> Store {
        let mut store = Store::new(room);
        for (key, chute) in entries {
            store.insert(*key, *chute);
        }
        store
    }

    fn record(next: u16, chute: u16, key: u64) -> Record {
        Record {
            next,
            chute,
            key,
            zeros: 0,
        }
    }

    fn image(records: &[Record]) -> Vec<u8> {
        let records = records.iter().flat_map(|it| it.bytes());
        records.collect()
    }

    /// Document 02, A.3, as docs/IMAGE-LAYOUT.md shows it in bytes.
    #[test]
    fn the_example_is_written_and_read() {
        let store = store(3, &[(OTHER, 12), (0, 7)]);
        let mut image = vec![9; 200];
        write(&store, 3, &mut image);
        assert_eq!(image, example());
        assert_eq!((read(&image), place(&image)), (Ok(store), 3));
    }

    /// The same table in the other order of docs/IMAGE-LAYOUT.md, with anything off the chain.
    #[test]
    fn a_chain_is_followed_wherever_it_leads() {
        let records = [
            record(3, 0, 3),
            record(0, 12, OTHER),
            record(u16::MAX, 513, u64::MAX),
            record(1, 7, 0),
        ];
        let expected = store(3, &[(0, 7), (OTHER, 12)]);
        assert_eq!(read(&image(&records)), Ok(expected.clone()));
        let mut garbage = image(&records);
        garbage[2 * RECORD..3 * RECORD].fill(0xff);
        assert_eq!(read(&garbage), Ok(expected));
    }

    /// A.3: an image of zeros "reads as an empty store".
    #[test]
    fn zeros_read_as_an_empty_store() {
        for room in [1, 2, 4096] {
            let image = zeros(room);
            assert_eq!(image.len(), 16 * (usize::from(room) + 1));
            assert_eq!((read(&image), place(&image)), (Ok(Store::new(room)), 0));
            let mut written = Vec::new();
            write(&Store::new(room), 0, &mut written);
            assert_eq!(written, image);
        }
        assert_eq!(length(4096), 65_552);
    }

    /// Nothing but the first index decides that a chain is empty.
    #[test]
    fn an_empty_chain_leaves_all_other_records_unread() {
        let mut image = vec![0xff; 48];
        image[..RECORD].copy_from_slice(&record(0, 0, 4096).bytes());
        assert_eq!((read(&image), place(&image)), (Ok(Store::new(2)), 4096));
    }

    /// A full store, and a shorter one that is written over it: no record of it is left.
    #[test]
    fn a_shorter_store_leaves_nothing_of_a_longer_one() {
        let longer = store(3, &[(1, 1), (2, 2), (LARGEST_KEY, 512)]);
        let mut image = Vec::new();
        write(&longer, 4096, &mut image);
        assert_eq!((read(&image), place(&image)), (Ok(longer), 4096));
        for shorter in [store(3, &[(5, 5)]), Store::new(3)] {
            write(&shorter, 7, &mut image);
            let end = RECORD * (usize::from(shorter.used) + 1);
            assert!(image[end..].iter().all(|byte| *byte == 0));
            assert_eq!((read(&image), place(&image)), (Ok(shorter), 7));
        }
    }

    /// Records that are refused 15, by what is wrong: an index above the room in record 0 and on the
    /// chain, equal and descending keys, and loops of one, two and three records.
    #[test]
    fn a_wrong_chain_is_refused_15() {
        let first = |next: u16| record(next, 0, 1);
        let cases = [
            [first(4), record(0, 1, 1), record(0, 1, 2), record(0, 1, 3)],
            [
                first(u16::MAX),
                record(0, 1, 1),
                record(0, 1, 2),
                record(0, 1, 3),
            ],
            [first(1), record(4, 1, 1), record(0, 1, 2), record(0, 1, 3)],
            [
                first(1),
                record(2, 1, 1),
                record(256, 1, 2),
                record(0, 1, 3),
            ],
            [first(1), record(2, 1, 5), record(0, 1, 5), record(0, 1, 6)],
            [first(1), record(2, 1, 5), record(0, 1, 4), record(0, 1, 6)],
            [
                first(1),
                record(2, 1, 1 << 32),
                record(0, 1, 1),
                record(0, 1, 6),
            ],
            [first(1), record(1, 1, 1), record(0, 1, 2), record(0, 1, 3)],
            [first(1), record(2, 1, 1), record(1, 1, 2), record(0, 1, 3)],
            [first(3), record(2, 1, 2), record(3, 1, 3), record(1, 1, 1)],
        ];
        for records in cases {
            assert_eq!(read(&image(&records)), Err(Refusal::Chain), "{records:?}");
        }
    }

    /// A record that is right, each of its fields, and what it may not hold, one by one.
    fn with(index: usize, change: impl Fn(&mut Record)) -> Result<Store, Refusal> {
        let mut records = [
            record(2, 0, 4096),
            record(0, 512, LARGEST_KEY),
            record(1, 1, 0),
        ];
        assert!(read(&image(&records)).is_ok());
        change(&mut records[index]);
        read(&image(&records))
    }

    #[test]
    fn a_record_out_of_range_is_refused_16() {
        for chute in [1, 256, 512, u16::MAX] {
            assert_eq!(with(0, |it| it.chute = chute), Err(Refusal::Record));
        }
        for place in [4097, 1 << 16, 1 << 32, u64::MAX] {
            assert_eq!(with(0, |it| it.key = place), Err(Refusal::Record));
        }
        for index in 1..3 {
            for chute in [0, 513, 1024, u16::MAX] {
                assert_eq!(with(index, |it| it.chute = chute), Err(Refusal::Record));
            }
        }
        for key in [LARGEST_KEY + 1, 1 << 63, u64::MAX] {
            assert_eq!(with(1, |it| it.key = key), Err(Refusal::Record));
        }
        for index in 0..3 {
            for zeros in [1, 1 << 8, 1 << 16, 1 << 24, 1 << 31] {
                assert_eq!(with(index, |it| it.zeros = zeros), Err(Refusal::Record));
            }
        }
    }

    /// A.3: "15 [..] tested after 6. 16 [..] tested record by record after 15": over the whole chain.
    #[test]
    fn the_whole_chain_is_tested_before_any_record() {
        assert_eq!(with(0, |it| it.chute = 1), Err(Refusal::Record));
        let both = |it: &mut Record| {
            it.chute = 0;
            it.next = 3;
        };
        for index in 0..3 {
            assert_eq!(with(index, both), Err(Refusal::Chain));
        }
        let last = |it: &mut Record| (it.next, it.key) = (2, u64::MAX);
        assert_eq!(
            with(1, last),
            Err(Refusal::Chain),
            "a loop of a key too large"
        );
    }
}
