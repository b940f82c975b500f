//! Dealing by a repeated pattern: which never finish, and that plain round-robin does. Demand 3
//! promises that some further dealing finishes, and not that every repeated pattern does; these
//! are the examples that docs/HOSTING.md and the header name.

use second::command::{Command, Kind};
use second::random::Random;
use second::run::{Run, Settings, largest_count};

fn settings(size: u8, workers: u8, room: u16) -> Settings {
    Settings {
        size,
        workers,
        room,
    }
}

fn command(kind: Kind, key: u64, chute: u16) -> Command {
    Command { kind, key, chute }
}

/// A command of this kind on key 0, a change to one worker, or a checkpoint.
fn of_kind(kind: Kind) -> Command {
    match kind {
        Kind::Insert | Kind::Update => command(kind, 0, 7),
        Kind::Delete | Kind::Read => command(kind, 0, 0),
        Kind::Workers => Command::workers(1),
        Kind::Checkpoint => Command::CHECKPOINT,
    }
}

/// Whether a pattern, repeated so many times from the opening, has at some turn removed every
/// command and left every party idle.
fn finishes(settings: Settings, commands: &[Command], pattern: &[u8], times: usize) -> bool {
    let mut run = Run::open(settings, commands.to_vec());
    pattern.repeat(times).into_iter().any(|party| {
        run.turn(party);
        run.is_finished()
    })
}

/// The loader's turn always falls while the worker stands on the head, so nothing is ever loaded,
/// of whatever kind; the other pattern gives each party as many turns and finishes.
#[test]
fn a_fair_pattern_can_starve_the_loader() {
    for kind in Kind::ALL {
        let one = [of_kind(kind)];
        assert!(!finishes(settings(2, 1, 4), &one, &[1, 0, 1], 100_000));
        assert!(finishes(settings(2, 1, 4), &one, &[0, 1, 1], 100));
    }
}

/// Two turns each, one party after the other: at graph size 1 the second command is never loaded
/// unless the first is a read, whose worker has an even number of turns from idle to idle (document
/// 02, A.8); one turn each finishes.
#[test]
fn two_turns_each_can_hang() {
    for first in Kind::ALL {
        let two = [first, Kind::Read].map(of_kind);
        let reads = first == Kind::Read;
        for pattern in [[0, 0, 1, 1], [1, 1, 0, 0]] {
            let times = if reads { 100 } else { 100_000 };
            let finished = finishes(settings(1, 1, 4), &two, &pattern, times);
            assert_eq!(finished, reads, "{first:?} {pattern:?}");
        }
        assert!(finishes(settings(1, 1, 4), &two, &[0, 1], 100));
    }
}

/// Plain round-robin, one turn each, finishes within n (2 w + s + 6) + 2 rounds.
#[test]
fn round_robin_finishes() {
    let mut random = Random::new(20261115);
    for case in 0..2000 {
        let size = 1 + random.below(20) as u8;
        let workers = 1 + random.below(8) as u8;
        let count = random.below(41) as usize;
        let keys = 1 + random.below(6);
        let commands: Vec<Command> = (0..count)
            .map(|_| match random.below(4) {
                0 => command(Kind::Insert, random.below(keys), 7),
                1 => command(Kind::Delete, random.below(keys), 0),
                2 => command(Kind::Read, random.below(keys), 0),
                _ => command(Kind::Update, random.below(keys), 9),
            })
            .collect();
        let first = random.below(u64::from(workers) + 1) as u8;
        let round: Vec<u8> = (0..=workers).map(|i| (first + i) % (workers + 1)).collect();
        let rounds = count * (2 * usize::from(workers) + usize::from(size) + 6) + 2;
        let settings = settings(size, workers, 4);
        assert!(
            finishes(settings, &commands, &round, rounds) || count == 0,
            "case {case}: {settings:?}, {commands:?}, {round:?}"
        );
    }
}

/// The same with worker changes and checkpoints, one turn each up to the largest count of the opening
/// and the list: it finishes within as many rounds, with that count for w.
#[test]
fn round_robin_by_the_largest_count_finishes() {
    let mut random = Random::new(20261116);
    for case in 0..2000 {
        let size = 1 + random.below(20) as u8;
        let workers = 1 + random.below(8) as u8;
        let count = 1 + random.below(40) as usize;
        let keys = 1 + random.below(6);
        let most = 1 + random.below(if case % 20 == 0 { 64 } else { 8 });
        let commands: Vec<Command> = (0..count)
            .map(|_| match random.below(7) {
                0 => command(Kind::Insert, random.below(keys), 7),
                1 => command(Kind::Delete, random.below(keys), 0),
                2 => command(Kind::Read, random.below(keys), 0),
                3 => command(Kind::Update, random.below(keys), 9),
                4 => Command::CHECKPOINT,
                _ => Command::workers(1 + random.below(most) as u16),
            })
            .collect();
        let largest = largest_count(workers, &commands);
        let first = random.below(u64::from(largest) + 1) as u8;
        let round: Vec<u8> = (0..=largest).map(|i| (first + i) % (largest + 1)).collect();
        let rounds = count * (2 * usize::from(largest) + usize::from(size) + 6) + 2;
        let settings = settings(size, workers, 4);
        assert!(
            finishes(settings, &commands, &round, rounds),
            "case {case}: {settings:?}, {commands:?}, {round:?}"
        );
    }
}

/// Worker 1, which no count forbids, finishes alone; without it a count of 1 is never left again.
#[test]
fn worker_1_finishes_whatever_the_counts() {
    let commands = [
        Command::workers(3),
        command(Kind::Insert, 0, 7),
        Command::workers(1),
        command(Kind::Read, 0, 0),
        Command::workers(64),
    ];
    for workers in 1..=3 {
        assert!(finishes(settings(2, workers, 1), &commands, &[0, 1], 200));
        let others = [0, 2, 3];
        assert!(!finishes(
            settings(2, workers, 1),
            &commands,
            &others,
            10_000
        ));
    }
}
