//! Items that are announced again: lists in which an insert finds its item present, in full and in
//! part-full stores, with and without reads of the item before it and after it. They are dealt in
//! orders of every sort, and some are handed back with a look-up that the store contradicts.

use super::dealings::{Dealing, Entry, Played, WAYS, commands, keys};
use super::openings::Opening;
use super::{changes, schedules};
use crate::command::Kind::{Delete, Insert, Read, Update};
use crate::play::Play;
use crate::random::Random;
use crate::run::{Party, Run};

/// How many runs there are: each form of a list four times in each way of dealing.
pub const COUNT: u64 = FORMS * WAYS * 4;
pub const FORMS: u64 = 128;

const SIZES: [u64; 6] = [1, 2, 3, 4, 6, 12];
const WORKERS: [u64; 6] = [1, 2, 2, 3, 4, 8];

/// The item that is announced again, one that is absent up to the last part of the list, and the
/// first of the others.
const ITEM: usize = 0;
const ABSENT: usize = 1;
const OTHER: usize = 2;

/// What stands between the two notices of the item.
const BETWEEN: [&[Entry]; 4] = [
    &[],
    &[(Read, ITEM)],
    &[(Read, ITEM), (Read, OTHER), (Read, ITEM)],
    &[(Update, ITEM), (Read, ITEM)],
];
/// What stands after the second.
const AFTER: [&[Entry]; 4] = [
    &[],
    &[(Read, ITEM)],
    &[(Read, ITEM), (Read, OTHER), (Read, ITEM)],
    &[(Insert, ITEM), (Read, ITEM)],
];
/// What stands last.
const LAST: [&[Entry]; 4] = [
    &[],
    &[(Insert, ABSENT), (Read, ABSENT)],
    &[(Delete, ITEM), (Read, ITEM)],
    &[(Delete, ITEM), (Insert, ABSENT), (Insert, ITEM)],
];

/// Behind each look-up of an insert, the lists are handed over once with another finding.
const DEALING: Dealing<u16> = Dealing {
    to_the_end: schedules::to_the_end,
    seen: insert_looked_up,
    changes: &[changes::found],
};

/// Plays the run of a number below the count.
pub fn play(number: u64, random: &mut Random, play: &mut Play) -> Played {
    let opening = opening(number % FORMS, random);
    DEALING.play(opening, number / FORMS, random, play)
}

/// What a party's look-up for an insert found, if the party has just made one.
fn insert_looked_up(run: &Run, party: u8) -> Option<u16> {
    match run.parties[usize::from(party)] {
        Party::LookedUp { own, found } if run.command(own)?.kind == Insert => Some(found),
        _ => None,
    }
}

/// An opening of a form: even ones have no place free when the item is announced again.
fn opening(form: u64, random: &mut Random) -> Opening {
    let others = random.below(4);
    let free = match form % 2 {
        0 => 0,
        _ => 1 + random.below(3),
    };
    let keys = keys(random, OTHER + others.max(1) as usize);
    let entries = entries(form, others as usize, random);
    let commands = commands(&entries, &keys, random);
    Opening {
        size: random.pick(&SIZES),
        workers: random.pick(&WORKERS),
        room: others + 1 + free,
        commands,
    }
}

/// The commands of a form: inserts of the item and so many others, and what the form has behind
/// them. With no others, a read of another item finds none.
fn entries(form: u64, others: usize, random: &mut Random) -> Vec<Entry> {
    let part = |parts: [&'static [Entry]; 4], at: u64| parts[(form / at % 4) as usize];
    let mut first: Vec<Entry> = (OTHER..OTHER + others).map(|it| (Insert, it)).collect();
    first.insert(random.below(others as u64 + 1) as usize, (Insert, ITEM));
    [
        &first,
        part(BETWEEN, 2),
        &[(Insert, ITEM)],
        part(AFTER, 8),
        part(LAST, 32),
    ]
    .concat()
}

#[cfg(test)]
mod tests {
    use std::collections::BTreeMap;
    use std::sync::LazyLock;

    use super::*;
    use crate::command::{Command, Kind};
    use crate::generate::runs::ANNOUNCEMENTS;
    use crate::generate::runs::dealings::testing::{
        Done, assert_made_from_the_seed, noted, played,
    };

    /// A writing turn of an insert.
    struct Writing {
        worker: u8,
        key: u64,
        /// Whether the look-up found a chute, the item is there, and the store is full.
        before: [bool; 3],
        answer: u16,
        /// Whether it is on a copy, which may have been changed.
        apart: bool,
    }

    static PLAYED: LazyLock<Vec<Done>> = LazyLock::new(|| played(ANNOUNCEMENTS, COUNT));

    /// Deals a turn; what it writes, if it is the writing turn of an insert.
    fn writing(run: &mut Run, worker: u8, apart: bool) -> Option<Writing> {
        let before = run.parties[usize::from(worker)];
        let found = insert_looked_up(run, worker);
        let store = run.store.clone();
        run.turn(worker);
        let (found, Party::LookedUp { own, .. }) = (found?, before) else {
            return None;
        };
        let index = usize::from(run.records.place[usize::from(own)]) - 1;
        let key = run.commands[index].key;
        let present = store.keys[..store.used.into()].contains(&key);
        Some(Writing {
            worker,
            key,
            before: [found != 0, present, store.is_full()],
            answer: run.answers[index],
            apart,
        })
    }

    /// How often each answer to an insert is written, by what was before its writing turn.
    fn counts(apart: bool) -> BTreeMap<([bool; 3], u16), usize> {
        let mut counts = BTreeMap::new();
        let all = PLAYED.iter().flat_map(|done| noted(&done.steps, writing));
        for writing in all.filter(|writing| writing.apart == apart) {
            *counts.entry((writing.before, writing.answer)).or_default() += 1;
        }
        counts
    }

    /// Asserts that these are met, each often, and nothing else.
    fn check(counts: BTreeMap<([bool; 3], u16), usize>, expected: &[([bool; 3], u16)]) {
        assert!(counts.keys().eq(expected), "{counts:?}");
        assert!(counts.values().all(|count| *count >= 100), "{counts:?}");
    }

    const NO: bool = false;
    const YES: bool = true;

    /// Document 02, A.7: 1004 in part-full and in full stores, 1003 for an absent item alone.
    #[test]
    fn items_are_announced_again_in_full_and_part_full_stores() {
        let expected = [
            ([NO, NO, NO], 1000),
            ([NO, NO, YES], 1003),
            ([YES, YES, NO], 1004),
            ([YES, YES, YES], 1004),
        ];
        check(counts(false), &expected);
    }

    /// Handed back, each finding meets an absent and a present item in full and part-full stores.
    #[test]
    fn a_changed_finding_meets_every_store() {
        let expected = [
            ([NO, NO, NO], 1000),
            ([NO, NO, YES], 1003),
            ([NO, YES, NO], 1000),
            ([NO, YES, YES], 1003),
            ([YES, NO, NO], 1004),
            ([YES, NO, YES], 1004),
            ([YES, YES, NO], 1004),
            ([YES, YES, YES], 1004),
        ];
        check(counts(true), &expected);
    }

    /// A command's kind, chute and answer.
    type Line = (Kind, u16, u16);

    /// The commands of a run from one that answers 1004 on, where there is one, and all commands
    /// of its item.
    fn lines(run: &Run) -> (Vec<Line>, Vec<Line>) {
        let pairs: Vec<(&Command, &u16)> = run.commands.iter().zip(&run.answers).collect();
        let line = |(command, answer): &(&Command, &u16)| (command.kind, command.chute, **answer);
        let Some(at) = pairs.iter().position(|(_, answer)| **answer == 1004) else {
            return (Vec::new(), Vec::new());
        };
        let same = |it: &&(&Command, &u16)| it.0.key == pairs[at].0.key;
        let later = pairs[at..].iter().map(line).collect();
        (later, pairs.iter().filter(same).map(line).collect())
    }

    /// What a run shows of its item, which is announced again with another chute.
    fn shown(run: &Run) -> [bool; 6] {
        let (later, own) = lines(run);
        let stands = |length: usize, test: fn(&[Line]) -> bool| own.windows(length).any(test);
        let mut from_notice = own.iter().skip_while(|it| it.2 != 1004);
        [
            stands(
                2,
                |it| matches!(it, [(Insert, old, _), (Insert, new, 1004)] if old != new),
            ),
            stands(3, |it| {
                matches!(it, [(Insert, old, _), (Read, _, one), (Insert, new, 1004)]
                    if one == old && old != new)
            }),
            stands(3, |it| {
                matches!(it, [(Insert, old, _), (Insert, new, 1004), (Read, _, two)]
                    if two == new && old != new)
            }),
            stands(4, |it| {
                matches!(it, [(Insert, old, _), (Read, _, one), (Insert, new, 1004), (Read, _, two)]
                    if one == old && two == new && old != new)
            }),
            later.iter().any(|it| matches!(it, (Insert, _, 1003))),
            from_notice.any(|it| matches!(it, (Delete, _, 1000))),
        ]
    }

    /// The six: nothing between the notices, the old chute read between them, the new one read
    /// after them without and with that, 1003 after 1004, and the item deleted. Nearly all runs
    /// come to their end, so that the tables are held against the serial run too.
    #[test]
    fn old_and_new_chutes_are_read_and_the_item_is_deleted() {
        let mut counts = [0; 6];
        let mut finished = 0;
        for run in PLAYED.iter().map(|done| &done.run) {
            let shown = shown(run);
            finished += u64::from(run.is_finished());
            counts = std::array::from_fn(|index| counts[index] + u64::from(shown[index]));
        }
        assert!(counts.iter().all(|count| *count >= 100), "{counts:?}");
        assert!(10 * finished > 9 * COUNT, "{finished}");
    }

    /// One worker makes both notices, or two share them.
    #[test]
    fn notices_are_made_by_one_worker_and_by_two() {
        let mut counts = [0; 2];
        for done in PLAYED.iter() {
            let mut made = BTreeMap::new();
            let writings = noted(&done.steps, writing);
            for it in writings.iter().filter(|it| !it.apart) {
                let earlier = made.insert(it.key, it.worker);
                if it.answer == 1004 {
                    counts[usize::from(earlier != Some(it.worker))] += 1;
                }
            }
        }
        assert!(counts.iter().all(|count| *count >= 200), "{counts:?}");
    }

    #[test]
    fn a_seed_gives_the_same_runs_again_and_another_gives_others() {
        assert_made_from_the_seed(ANNOUNCEMENTS, COUNT);
    }
}
