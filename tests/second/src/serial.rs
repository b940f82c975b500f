//! The serial run: commands one after another in delivered order, on one store.

use std::collections::BTreeMap;

use crate::command::{Command, Kind};
use crate::image;
use crate::store::Store;

/// The answer of a command that did what it says; a read's answer is the chute instead.
pub const DONE: u16 = 1000;
/// Delete, read or update: there is no such item.
pub const NO_SUCH_ITEM: u16 = 1002;
/// Insert of an absent item: the store is full.
pub const STORE_FULL: u16 = 1003;
/// Insert of a present item, also in a full store: it has the new chute.
pub const ANNOUNCED_AGAIN: u16 = 1004;

/// What a serial run leaves: one answer a command, and the chute of each key still there.
#[derive(Clone, Debug, Default, PartialEq, Eq)]
pub struct Outcome {
    pub answers: Vec<u16>,
    pub entries: Entries,
}

/// The chute of each key that is there.
pub type Entries = BTreeMap<u64, u16>;

/// Runs the commands in order on an empty store with room for `capacity` entries.
pub fn run(capacity: usize, commands: &[Command]) -> Outcome {
    run_from(Entries::new(), capacity, commands)
}

/// The same on a store that has these entries at first: document 02, A.3, "the serial run starts
/// [..] from that store".
pub fn run_from(entries: Entries, capacity: usize, commands: &[Command]) -> Outcome {
    let mut outcome = Outcome {
        answers: Vec::new(),
        entries,
    };
    for command in commands {
        let answer = apply(capacity, &mut outcome.entries, command);
        outcome.answers.push(answer);
    }
    outcome
}

/// The table of some of the commands, those of the places that are chosen, from 1 on: what they
/// leave when they alone are run, in delivery order, on a store that has these entries at first.
/// Document 02, A.10, has it so of the commands already written, at every moment of a run.
pub fn table_of(
    entries: &Entries,
    room: u16,
    commands: &[Command],
    chosen: impl Fn(usize) -> bool,
) -> Store {
    let places = (1..=commands.len()).filter(|place| chosen(*place));
    let alone: Vec<Command> = places.map(|place| commands[place - 1]).collect();
    let outcome = run_from(entries.clone(), room.into(), &alone);
    table(room, &outcome.entries)
}

/// Which places, from 1 on, are those of written commands: a command has its answer from its
/// writing turn on.
pub fn written(answers: &[u16]) -> impl Fn(usize) -> bool {
    |place| answers[place - 1] != 0
}

/// The image that a run has once its last written checkpoint is that of a place, 0 for none: what
/// the commands before it leave of these entries, with its place; zeros where there is none.
pub fn image(entries: &Entries, room: u16, commands: &[Command], place: usize) -> Vec<u8> {
    if place == 0 {
        return image::zeros(room);
    }
    let table = table_of(entries, room, commands, |earlier| earlier < place);
    let mut image = Vec::new();
    image::write(&table, place as u16, &mut image);
    image
}

/// Lays entries out as the store is: ascending keys and their chutes, then 0 up to the room. There
/// are no more entries than that.
pub fn table(room: u16, entries: &Entries) -> Store {
    let mut keys: Vec<u64> = entries.keys().copied().collect();
    let mut chutes: Vec<u16> = entries.values().copied().collect();
    keys.resize(room.into(), 0);
    chutes.resize(room.into(), 0);
    Store {
        keys,
        chutes,
        used: entries.len() as u16,
    }
}

/// A worker change and a checkpoint change no entry.
fn apply(capacity: usize, entries: &mut Entries, command: &Command) -> u16 {
    match (command.kind, entries.get(&command.key).copied()) {
        (Kind::Workers | Kind::Checkpoint, _) => return DONE,
        (Kind::Insert, Some(_)) => {
            entries.insert(command.key, command.chute);
            return ANNOUNCED_AGAIN;
        }
        (Kind::Insert, None) if entries.len() >= capacity => return STORE_FULL,
        (Kind::Delete | Kind::Read | Kind::Update, None) => return NO_SUCH_ITEM,
        (Kind::Read, Some(chute)) => return chute,
        (Kind::Delete, Some(_)) => entries.remove(&command.key),
        (Kind::Insert, None) | (Kind::Update, Some(_)) => {
            entries.insert(command.key, command.chute)
        }
    };
    DONE
}

#[cfg(test)]
mod tests {
    use super::*;

    fn insert(key: u64, chute: u16) -> Command {
        command(Kind::Insert, key, chute)
    }

    fn command(kind: Kind, key: u64, chute: u16) -> Command {
        Command { kind, key, chute }
    }

    /// Document 01, marked case (i), as document 02's A.7 has it: the chute is changed.
    #[test]
    fn an_insert_of_a_present_item_into_a_full_store_answers_1004() {
        let outcome = run(1, &[insert(5, 7), insert(5, 8)]);
        assert_eq!(outcome.answers, [1000, 1004]);
        assert_eq!(outcome.entries, BTreeMap::from([(5, 8)]));
    }

    /// Document 02, A.7: the later notice is good, and no other entry changes.
    #[test]
    fn a_read_gives_the_chute_of_the_last_notice_before_it() {
        let outcome = run(
            4,
            &[
                insert(3, 1),
                insert(5, 7),
                insert(9, 2),
                command(Kind::Read, 5, 0),
                insert(5, 8),
                command(Kind::Read, 5, 0),
                insert(5, 8),
            ],
        );
        assert_eq!(outcome.answers, [1000, 1000, 1000, 7, 1004, 8, 1004]);
        assert_eq!(outcome.entries, BTreeMap::from([(3, 1), (5, 8), (9, 2)]));
    }

    /// Document 02, A.7: an item announced again takes no further place, and is deleted as any.
    #[test]
    fn an_item_announced_again_is_one_entry() {
        let outcome = run(
            2,
            &[
                insert(5, 7),
                insert(6, 1),
                insert(5, 8),
                insert(7, 2),
                command(Kind::Delete, 5, 0),
                command(Kind::Read, 5, 0),
                insert(5, 9),
            ],
        );
        let answers = [1000, 1000, 1004, 1003, 1000, 1002, 1000];
        assert_eq!(outcome.answers, answers);
        assert_eq!(outcome.entries, BTreeMap::from([(5, 9), (6, 1)]));
    }

    /// Document 01, marked case (j).
    #[test]
    fn an_insert_of_an_absent_item_into_a_full_store_answers_1003() {
        let outcome = run(1, &[insert(5, 7), insert(6, 8)]);
        assert_eq!(outcome.answers, [1000, 1003]);
        assert_eq!(outcome.entries, BTreeMap::from([(5, 7)]));
    }

    /// Document 01, the program's example; key 0 is a real item.
    #[test]
    fn the_commands_of_the_example_answer_1000_and_7() {
        let outcome = run(4, &[insert(0, 7), command(Kind::Read, 0, 0)]);
        assert_eq!(outcome.answers, [1000, 7]);
        let expected = Store {
            keys: vec![0; 4],
            chutes: vec![7, 0, 0, 0],
            used: 1,
        };
        assert_eq!(table(4, &outcome.entries), expected);
    }

    /// Document 01, section "The serial run and demand 3": each kind with its key absent.
    #[test]
    fn commands_on_an_absent_item_answer_1002() {
        let outcome = run(
            1,
            &[
                command(Kind::Delete, 5, 0),
                command(Kind::Read, 5, 0),
                command(Kind::Update, 5, 9),
            ],
        );
        assert_eq!(outcome.answers, [1002; 3]);
        assert!(outcome.entries.is_empty());
    }

    /// Document 02, A.2: kind 5 answers 1000 and changes no entry, not that of key 0 either, and in
    /// a full store.
    #[test]
    fn a_worker_change_answers_1000_and_changes_no_entry() {
        let changes = [1, 2, 64].map(Command::workers);
        let items = [insert(0, 7), insert(3, 8), command(Kind::Read, 0, 0)];
        assert_eq!(run(1, &changes).answers, [1000; 3]);
        for room in 1..=3 {
            let alone = run(room, &items);
            let among = [
                changes[0], items[0], changes[1], items[1], changes[2], items[2],
            ];
            let outcome = run(room, &among);
            assert_eq!(outcome.entries, alone.entries);
            for (index, answer) in alone.answers.iter().enumerate() {
                assert_eq!(outcome.answers[2 * index..][..2], [1000, *answer]);
            }
        }
    }

    /// Document 02, A.3: kind 6 answers 1000 and changes no entry; a run from a store goes on with its
    /// entries; and the image is what the commands before the checkpoint leave, with its place.
    #[test]
    fn checkpoints_and_a_run_from_a_store() {
        let commands = [
            insert(5, 7),
            Command::CHECKPOINT,
            insert(3, 8),
            command(Kind::Read, 9, 0),
            Command::CHECKPOINT,
        ];
        let first = Entries::from([(9, 4)]);
        let outcome = run_from(first.clone(), 2, &commands);
        assert_eq!(outcome.answers, [1000, 1000, 1003, 4, 1000]);
        assert_eq!(outcome.entries, Entries::from([(5, 7), (9, 4)]));
        let read = |place| {
            let image = image(&first, 2, &commands, place);
            let store = image::read(&image).expect("an image");
            (store.keys, store.chutes, image::place(&image))
        };
        assert_eq!(read(0), (vec![0, 0], vec![0, 0], 0));
        assert_eq!(read(2), (vec![5, 9], vec![7, 4], 2));
        assert_eq!(read(5), (vec![5, 9], vec![7, 4], 5));
        assert_eq!(run(2, &commands).answers, [1000, 1000, 1000, 1002, 1000]);
    }

    /// Document 02, A.10: commands that are left out leave nothing, not even a full store, and
    /// those that are run keep their order; none leaves the entries that were there at first.
    #[test]
    fn the_table_of_some_commands_is_theirs_alone() {
        let commands = [
            insert(5, 7),
            command(Kind::Delete, 9, 0),
            Command::workers(2),
            insert(3, 8),
            command(Kind::Update, 5, 6),
        ];
        let first = Entries::from([(9, 4)]);
        let of = |places: &[usize]| {
            let table = table_of(&first, 2, &commands, |place| places.contains(&place));
            assert_eq!((table.keys.len(), table.chutes.len()), (2, 2));
            let used = usize::from(table.used);
            assert!(table.keys[used..].iter().all(|key| *key == 0));
            assert!(table.chutes[used..].iter().all(|chute| *chute == 0));
            table.entries().collect::<Vec<_>>()
        };
        assert_eq!(of(&[]), [(9, 4)]);
        assert_eq!(of(&[1, 5]), [(5, 6), (9, 4)]);
        assert_eq!(of(&[5, 3]), [(9, 4)]);
        assert_eq!(of(&[1, 4]), [(5, 7), (9, 4)]);
        assert_eq!(of(&[2, 4]), [(3, 8)]);
        assert_eq!(of(&[1, 2, 3, 4, 5]), [(3, 8), (5, 6)]);
        assert_eq!(of(&[2, 3]), []);
    }

    /// Document 01, section "Command list and store": keys ascend, and freed places serve again.
    #[test]
    fn entries_ascend_and_freed_places_serve_again() {
        let outcome = run(
            2,
            &[
                insert(9, 1),
                insert(3, 2),
                command(Kind::Delete, 9, 0),
                insert(1, 512),
                command(Kind::Update, 3, 4),
                command(Kind::Read, 3, 0),
            ],
        );
        assert_eq!(outcome.answers, [1000, 1000, 1000, 1000, 1000, 4]);
        let expected = Store {
            keys: vec![1, 3],
            chutes: vec![512, 4],
            used: 2,
        };
        assert_eq!(table(2, &outcome.entries), expected);
    }
}
