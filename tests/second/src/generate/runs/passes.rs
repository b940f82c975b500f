//! Reads and updates beside inserts and deletes of other items, which they pass and are passed by:
//! in full stores and in others, with entries put in and taken out below the one that a looked-up
//! worker is about to write. They are dealt in orders of every sort, and some are handed back as
//! no dealing leaves them: behind a look-up, somebody else has moved the entry of its item, taken
//! it out, put it in or given it another chute.

use super::changes::{set_store, step_on};
use super::dealings::{Change, Dealing, Entry, Played, WAYS, commands, keys};
use super::openings::Opening;
use super::{reports, schedules};
use crate::command::Kind::{Delete, Insert, Read, Update};
use crate::command::LARGEST_CHUTE;
use crate::play::Play;
use crate::random::Random;
use crate::run::{Party, Run};
use crate::script::Step;
use crate::store::Store;

/// How many runs there are: each form of a list once in each way of dealing.
pub const COUNT: u64 = FORMS * WAYS;
pub const FORMS: u64 = 256;

const SIZES: [u64; 6] = [4, 6, 8, 8, 12, 12];
const WORKERS: [u64; 6] = [2, 3, 3, 4, 4, 8];

/// The items by ascending keys. The first is there at the start in half of the forms, the next two
/// in all, the last in none.
const LOW: usize = 0;
const ITEM: usize = 1;
const OTHER: usize = 2;
const HIGH: usize = 3;
const ITEMS: usize = 4;

/// What puts items in and takes them out.
const WRITERS: [&[Entry]; 4] = [
    &[(Insert, LOW)],
    &[(Delete, LOW)],
    &[(Insert, LOW), (Delete, LOW)],
    &[(Delete, ITEM), (Insert, HIGH)],
];
/// What passes these, and what waits for them.
const OTHERS: [&[Entry]; 4] = [
    &[(Update, ITEM), (Read, OTHER), (Read, HIGH), (Read, ITEM)],
    &[(Read, OTHER), (Update, OTHER), (Read, HIGH), (Update, ITEM)],
    &[
        (Read, OTHER),
        (Read, OTHER),
        (Update, OTHER),
        (Update, ITEM),
    ],
    &[(Update, ITEM), (Read, LOW), (Update, LOW), (Read, OTHER)],
];

/// What is done to lists that are handed back behind a look-up.
const CHANGES: [Change<u64>; 6] = [
    with_an_entry_put_in_below,
    with_an_entry_taken_out_below,
    without_its_entry,
    with_another_in_its_place,
    with_its_entry,
    with_another_chute,
];

/// Behind each look-up, the lists are handed over with each of the changes.
const DEALING: Dealing<u64> = Dealing {
    to_the_end: schedules::with_pauses,
    seen: looked_up,
    changes: &CHANGES,
};

/// Plays the run of a number below the count.
pub fn play(number: u64, random: &mut Random, play: &mut Play) -> Played {
    let opening = opening(number % FORMS, random);
    DEALING.play(opening, number / FORMS, random, play)
}

/// The key of a party's command, if the party has just looked it up.
fn looked_up(run: &Run, party: u8) -> Option<u64> {
    match run.parties[usize::from(party)] {
        Party::LookedUp { own, .. } => Some(run.command(own)?.key),
        _ => None,
    }
}

/// An opening of a form: odd ones put the low item in first, and every other two have no place
/// left behind the first inserts.
fn opening(form: u64, random: &mut Random) -> Opening {
    let mut keys = keys(random, ITEMS);
    keys.sort_unstable();
    let first: &[Entry] = match form % 2 {
        0 => &[(Insert, OTHER), (Insert, ITEM)],
        _ => &[(Insert, ITEM), (Insert, LOW), (Insert, OTHER)],
    };
    let writers = WRITERS[(form / 4 % 4) as usize];
    let others = OTHERS[(form / 16 % 4) as usize];
    let entries = match form / 64 {
        0 => [first, writers, others].concat(),
        1 => [first, others, writers].concat(),
        2 => [first, others, writers, others].concat(),
        _ => [first, writers, others, writers].concat(),
    };
    Opening {
        size: random.pick(&SIZES),
        workers: random.pick(&WORKERS),
        room: first.len() as u64 + form / 2 % 2,
        commands: commands(&entries, &keys, random),
    }
}

/// Where there is room, another item is put in that moves the worker's own up.
fn with_an_entry_put_in_below(
    worker: u8,
    key: u64,
    random: &mut Random,
    play: &mut Play,
) -> Played {
    let lower = random.pick(&[0, key / 2, key.saturating_sub(1)]);
    with_store(worker, random, play, |store, random| {
        if lower < key && !store.is_full() && store.chute(lower) == 0 {
            store.insert(lower, chute(random));
        }
    })
}

/// Where there is one below it, the lowest item is taken out, which moves the worker's own down.
fn with_an_entry_taken_out_below(
    worker: u8,
    key: u64,
    random: &mut Random,
    play: &mut Play,
) -> Played {
    with_store(worker, random, play, |store, _| {
        let lowest = store.keys[0];
        if lowest < key {
            store.remove(lowest);
        }
    })
}

fn without_its_entry(worker: u8, key: u64, random: &mut Random, play: &mut Play) -> Played {
    with_store(worker, random, play, |store, _| store.remove(key))
}

/// Where its entry is there, that of another item is there for it.
fn with_another_in_its_place(worker: u8, key: u64, random: &mut Random, play: &mut Play) -> Played {
    let other = random.pick(&[key ^ 1, key.saturating_sub(1)]);
    with_store(worker, random, play, |store, random| {
        if store.chute(key) != 0 && store.chute(other) == 0 {
            store.remove(key);
            store.insert(other, chute(random));
        }
    })
}

/// Where there is room.
fn with_its_entry(worker: u8, key: u64, random: &mut Random, play: &mut Play) -> Played {
    with_store(worker, random, play, |store, random| {
        if !store.is_full() && store.chute(key) == 0 {
            store.insert(key, chute(random));
        }
    })
}

fn with_another_chute(worker: u8, key: u64, random: &mut Random, play: &mut Play) -> Played {
    with_store(worker, random, play, |store, random| {
        store.replace(key, chute(random));
    })
}

/// Changes the store and deals the worker's writing turn.
fn with_store(
    worker: u8,
    random: &mut Random,
    play: &mut Play,
    change: impl Fn(&mut Store, &mut Random),
) -> Played {
    let Some(mut run) = play.host().run() else {
        return Ok(());
    };
    change(&mut run.store, random);
    set_store(play, &run.store)?;
    play.take(Step::Advance(vec![worker]))?;
    reports(play)?;
    step_on(random, play)
}

fn chute(random: &mut Random) -> u16 {
    1 + random.below(LARGEST_CHUTE.into()) as u16
}

#[cfg(test)]
mod tests {
    use std::sync::LazyLock;

    use super::*;
    use crate::command::{Kind, encode};
    use crate::depot::Second;
    use crate::generate::runs::PASSES;
    use crate::generate::runs::dealings::testing::{
        Done, assert_made_from_the_seed, assert_nearly_all_finish, played,
    };
    use crate::generate::runs::services::{self, Beside, CLEARING, LOOKED_UP, Service, counts};
    use crate::generate::text;

    static PLAYED: LazyLock<Vec<Done>> = LazyLock::new(|| played(PASSES, COUNT));

    static SERVICES: LazyLock<Vec<Service>> = LazyLock::new(|| services::services(&PLAYED));

    /// The turns that write a command of a kind where a dealing leads.
    fn writings(kind: Kind) -> impl Iterator<Item = &'static Service> {
        SERVICES.iter().filter(move |it| {
            let written = matches!(it.after, Party::Written { .. });
            it.kind == Some(kind) && written && !it.apart
        })
    }

    /// The commands of these kinds, with whether the store is full, beside the writing of another.
    fn beside(written: Kind, kinds: [Kind; 2]) -> impl Iterator<Item = (&'static Beside, bool)> {
        let numbers = kinds.map(Kind::number);
        let all = writings(written).flat_map(|it| it.beside.iter().map(|by| (by, it.full)));
        all.filter(move |(by, _)| numbers.contains(&by.kind))
    }

    /// Document 02, A.5, wherever a dealing leads: a read or update and an insert or delete of
    /// another item are written beside each state of the other, whichever was delivered earlier.
    /// Where the item is the same, the other was delivered earlier and is clearing already.
    #[test]
    fn each_is_written_beside_every_state_of_the_other() {
        for (kinds, others, states) in [
            ([Read, Update], [Insert, Delete], 5 + 5),
            ([Insert, Delete], [Read, Update], 4 + 5),
        ] {
            for kind in kinds {
                let mut met = Vec::new();
                for (by, _) in beside(kind, others) {
                    if by.same_item {
                        assert!(by.earlier && by.state == CLEARING, "{kind:?}, {by:?}");
                    } else {
                        met.push((by.kind, by.earlier, by.state));
                    }
                }
                let counts = counts(met.into_iter());
                assert_eq!(counts.len(), 2 * states, "{kind:?} {counts:?}");
            }
        }
    }

    /// Document 02, A.5: reads and updates are written while an insert or a delete of another item
    /// that was delivered earlier is looked-up and unwritten, in full stores and in others.
    #[test]
    fn reads_and_updates_pass_looked_up_inserts_and_deletes() {
        for kind in [Read, Update] {
            let passed = beside(kind, [Insert, Delete])
                .filter(|(by, _)| by.earlier && by.state == LOOKED_UP)
                .map(|(by, full)| (by.kind, full));
            let counts = counts(passed);
            assert_eq!(counts.len(), 4, "{kind:?} {counts:?}");
            assert!(
                counts.values().all(|count| *count >= 10),
                "{kind:?} {counts:?}"
            );
        }
    }

    /// Document 02, A.5: between the look-up and the writing of an update its entry moves up, by an
    /// insert, and down, by a delete.
    #[test]
    fn entries_move_between_look_up_and_writing() {
        for (kind, moved) in [(Insert, 1), (Delete, -1)] {
            let looked_up = beside(kind, [Read, Update]).filter(|(by, _)| by.state == LOOKED_UP);
            let counts = counts(looked_up.map(|(by, _)| by.moved));
            assert!(
                counts.keys().all(|it| [0, moved].contains(it)),
                "{counts:?}"
            );
            assert!(counts.get(&moved) >= Some(&10), "{counts:?}");
        }
    }

    /// Whether the look-up found a chute, the item is there, and the store is full, with the answer,
    /// at the writing of a looked-up command of a kind on a copy: each is met several times.
    fn changed(kind: Kind) -> Vec<([bool; 3], u16)> {
        let met = SERVICES.iter().filter_map(|it| match it.before {
            Party::LookedUp { found, .. } if it.kind == Some(kind) && it.apart => {
                Some(([found != 0, it.chute != 0, it.full], it.answer))
            }
            _ => None,
        });
        let counts = counts(met);
        assert!(counts.values().all(|count| *count >= 3), "{counts:?}");
        counts.into_keys().collect()
    }

    const NO: bool = false;
    const YES: bool = true;

    /// Handed back, an entry that was found is there and is not, and one that was not found is not
    /// there and is, in full stores and in others. The answer follows from what was found, and for
    /// an insert from the store being full.
    #[test]
    fn look_ups_meet_every_change() {
        let inserts = [
            ([NO, NO, NO], 1000),
            ([NO, NO, YES], 1003),
            ([NO, YES, NO], 1000),
            ([NO, YES, YES], 1003),
            ([YES, NO, NO], 1004),
            ([YES, NO, YES], 1004),
            ([YES, YES, NO], 1004),
            ([YES, YES, YES], 1004),
        ];
        assert_eq!(changed(Insert), inserts);
        let others = [
            ([NO, NO, NO], 1002),
            ([NO, NO, YES], 1002),
            ([NO, YES, NO], 1002),
            ([NO, YES, YES], 1002),
            ([YES, NO, NO], 1000),
            ([YES, NO, YES], 1000),
            ([YES, YES, NO], 1000),
            ([YES, YES, YES], 1000),
        ];
        assert_eq!(changed(Delete), others);
        assert_eq!(changed(Update), others);
    }

    /// What a change, and the writing behind it, make of a store with items 10, 20 and 30 in which
    /// item 20 is looked-up to be given the chute 400; the others have ten times their key.
    fn store_after(change: Change<u64>) -> Vec<(u64, u16)> {
        let random = &mut Random::new(1);
        let mut play = Play::new(&Second);
        let inserts = [30, 10, 20].map(|key| encode(1, &text(key), 10 * key as u16));
        let commands = [&inserts.concat()[..], &encode(4, &text(20), 400)].concat();
        let opening = Opening {
            size: 1,
            workers: 1,
            room: 4,
            commands,
        };
        let alone = [0, 0, 1, 1, 1, 1, 1, 1, 1].repeat(4);
        let mut steps = opening.steps().to_vec();
        steps.push(Step::Advance(alone[..3 * 9 + 5].to_vec()));
        play.take_all(steps).expect("the second program is itself");
        let run = play.host().run().expect("it is opened");
        let key = looked_up(&run, 1).expect("the update is looked-up");
        change(1, key, random, &mut play).expect("the second program is itself");
        let store = play.host().run().expect("it goes on").store;
        let entries = store.keys.into_iter().zip(store.chutes);
        entries.take(store.used.into()).collect()
    }

    /// The update is written at the entry of its item, wherever that is, and at no other.
    #[test]
    fn each_change_is_followed_by_the_writing_of_its_own_entry() {
        let [put_in, taken_out, without, another, present, chute] = CHANGES.map(store_after);
        assert!(matches!(put_in[..], [.., (20, 400), (30, 300)]) && put_in.len() == 4);
        assert_eq!(taken_out, [(20, 400), (30, 300)]);
        assert_eq!(without, [(10, 100), (30, 300)]);
        assert!(matches!(
            another[..],
            [(10, 100), (19 | 21, 1..=512), (30, 300)]
        ));
        for store in [present, chute] {
            assert_eq!(store, [(10, 100), (20, 400), (30, 300)]);
        }
    }

    #[test]
    fn nearly_all_runs_come_to_their_end() {
        assert_nearly_all_finish(&PLAYED);
    }

    #[test]
    fn a_seed_gives_the_same_runs_again_and_another_gives_others() {
        assert_made_from_the_seed(PASSES, COUNT);
    }
}
