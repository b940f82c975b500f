//! Settings, lists of commands, and the runs that a search begins with.

use second::command::{Command, Kind};
use second::run::{Run, Settings};

/// The turns that serve an insert alone: two of the loader and seven of a worker.
const ALONE: [u8; 9] = [0, 0, 1, 1, 1, 1, 1, 1, 1];

pub fn settings(size: u8, workers: u8, room: u16) -> Settings {
    Settings {
        size,
        workers,
        room,
    }
}

/// A run of inserts of these keys and then these commands, in which the inserts are served, one
/// after another, and nothing else is done.
pub fn served(settings: Settings, keys: &[u64], commands: &[Command]) -> Run {
    let inserts: Vec<Command> = keys.iter().map(|key| insert(*key)).collect();
    let mut run = Run::open(settings, [&inserts, commands].concat());
    for place in 1..=keys.len() {
        run.advance(&ALONE);
        assert_eq!(usize::from(run.loaded), place);
        assert!(run.chain().next().is_none());
    }
    run
}

fn insert(key: u64) -> Command {
    Command {
        kind: Kind::Insert,
        key,
        chute: 100 + key as u16,
    }
}

/// All lists of so many commands, of every kind that names an item and with keys below `keys`;
/// chutes tell the commands apart.
pub fn lists(count: usize, keys: u64) -> Vec<Vec<Command>> {
    let mut lists = vec![Vec::new()];
    for place in 1..=count as u16 {
        lists = lists
            .iter()
            .flat_map(|list| {
                choices(place, keys).map(move |command| [&list[..], &[command]].concat())
            })
            .collect();
    }
    lists
}

fn choices(place: u16, keys: u64) -> impl Iterator<Item = Command> {
    Kind::OF_ITEMS.into_iter().flat_map(move |kind| {
        let chute = if kind.carries_chute() { 10 + place } else { 0 };
        (0..keys).map(move |key| Command { kind, key, chute })
    })
}

/// All lists of so many commands on one item, and on key 1 beside it where it is read, in which a
/// worker change to a count up to `most` stands.
pub fn changing(count: usize, most: u16) -> Vec<Vec<Command>> {
    let mut lists = vec![Vec::new()];
    for place in 1..=count as u16 {
        let other = Command {
            kind: Kind::Read,
            key: 1,
            chute: 0,
        };
        let items = choices(place, 1).chain([other]);
        let all: Vec<Command> = items.chain((1..=most).map(Command::workers)).collect();
        let longer = |list: &Vec<Command>, command| [&list[..], &[command]].concat();
        lists = lists
            .iter()
            .flat_map(|list| all.iter().map(move |command| longer(list, *command)))
            .collect();
    }
    lists.retain(|list| list.iter().any(|it| it.kind == Kind::Workers));
    lists
}

/// All lists of so many commands on one item, and on key 1 where it is put in, in which a checkpoint
/// stands.
pub fn with_checkpoints(count: usize) -> Vec<Vec<Command>> {
    let mut lists = vec![Vec::new()];
    for place in 1..=count as u16 {
        let other = Command {
            kind: Kind::Insert,
            key: 1,
            chute: 20 + place,
        };
        let all: Vec<Command> = choices(place, 1)
            .chain([other, Command::CHECKPOINT])
            .collect();
        let longer = |list: &Vec<Command>, command| [&list[..], &[command]].concat();
        lists = lists
            .iter()
            .flat_map(|list| all.iter().map(move |command| longer(list, *command)))
            .collect();
    }
    lists.retain(|list| list.contains(&Command::CHECKPOINT));
    lists
}

/// All lists of three commands with keys below `keys` in which an insert or a delete has a read or
/// an update of another item beside it.
pub fn beside(keys: u64) -> Vec<Vec<Command>> {
    let changes_items = |it: &Command| matches!(it.kind, Kind::Insert | Kind::Delete);
    let mut lists = lists(3, keys);
    lists.retain(|list| {
        let mut pairs = list
            .iter()
            .flat_map(|one| list.iter().map(move |two| (one, two)));
        pairs.any(|(one, two)| changes_items(one) && !changes_items(two) && one.key != two.key)
    });
    lists
}
