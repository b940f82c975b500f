//! Reads, each done in one turn: of items that are there and that are not, beside other commands in
//! each of their states. They are dealt in orders of every sort, and some are handed back as no
//! dealing leaves them: looked-up with any finding, beside a worker that is about to write the same
//! item, with another command, a refused one or none.

use super::changes::{set_command, set_number, set_party, step_on};
use super::dealings::{Change, Dealing, Entry, Played, WAYS, commands, keys};
use super::openings::Opening;
use super::{reports, schedules};
use crate::bytes::{NUMBER, PLACE};
use crate::command::Kind::{self, Delete, Insert, Read, Update};
use crate::command::LARGEST_CHUTE;
use crate::generate::commands::{FAULTS, with_faults, with_key};
use crate::play::Play;
use crate::random::Random;
use crate::run::{Party, Run, Settings};
use crate::script::Step;

/// How many runs there are: each form of a list twice in each way of dealing.
pub const COUNT: u64 = FORMS * WAYS * 2;
pub const FORMS: u64 = 128;

const SIZES: [u64; 6] = [2, 3, 4, 6, 8, 12];
const WORKERS: [u64; 6] = [1, 2, 3, 4, 4, 8];

/// The item that is there in half of the forms, one that is absent unless it is put in later, and
/// two that are there.
const ITEM: usize = 0;
const ABSENT: usize = 1;
const OTHER: usize = 2;
const FOURTH: usize = 3;
const ITEMS: usize = 4;

/// Reads beside one another and beside updates.
const BESIDE: [&[Entry]; 4] = [
    &[(Read, ITEM), (Read, ABSENT), (Read, ITEM)],
    &[(Update, OTHER), (Read, ITEM), (Update, FOURTH)],
    &[(Read, ABSENT), (Update, OTHER), (Read, ITEM)],
    &[(Update, ITEM), (Read, ITEM), (Update, OTHER)],
];
/// What later commands of the same item wait for.
const CHANGE: [&[Entry]; 4] = [
    &[],
    &[(Delete, OTHER)],
    &[(Insert, ABSENT)],
    &[(Insert, ITEM), (Delete, FOURTH)],
];
/// What stands last.
const AFTER: [&[Entry]; 4] = [
    &[(Read, ITEM), (Read, ABSENT), (Read, OTHER), (Read, ITEM)],
    &[(Read, ITEM), (Update, ITEM), (Read, FOURTH), (Read, ITEM)],
    &[
        (Update, FOURTH),
        (Read, ITEM),
        (Read, OTHER),
        (Read, FOURTH),
    ],
    &[
        (Read, ABSENT),
        (Update, ABSENT),
        (Update, OTHER),
        (Read, ITEM),
    ],
];

/// A record that a worker holds.
#[derive(Clone, Copy)]
struct Held {
    own: u8,
    /// Its command's place and key, and what the store has of the item, 0 for none.
    place: usize,
    key: u64,
    chute: u16,
    /// Those of the run.
    settings: Settings,
    count: usize,
}

/// What is done to lists that are handed back while a worker holds a record.
const CHANGES: [Change<Held>; 7] = [
    looked_up_with_nothing,
    looked_up_with_the_chute,
    looked_up_with_another,
    beside_a_writer,
    with_another_command,
    with_a_refused_command,
    without_a_command,
];

/// Behind each turn that takes a command, the lists are handed over with each of the changes.
const DEALING: Dealing<Held> = Dealing {
    to_the_end: schedules::to_the_end,
    seen: held,
    changes: &CHANGES,
};

/// Plays the run of a number below the count.
pub fn play(number: u64, random: &mut Random, play: &mut Play) -> Played {
    let opening = opening(number % FORMS, random);
    DEALING.play(opening, number / FORMS, random, play)
}

/// The record that a party holds, if it has just taken one.
fn held(run: &Run, party: u8) -> Option<Held> {
    let Party::Holding { own } = run.parties[usize::from(party)] else {
        return None;
    };
    let key = run.command(own)?.key;
    Some(Held {
        own,
        place: run.records.place[usize::from(own)].into(),
        key,
        chute: run.store.chute(key),
        settings: run.settings,
        count: run.commands.len(),
    })
}

/// An opening of a form; odd ones put the item in first.
fn opening(form: u64, random: &mut Random) -> Opening {
    let keys = keys(random, ITEMS);
    let part = |parts: [&'static [Entry]; 4], at: u64| parts[(form / at % 4) as usize];
    let (first, least): (&[Entry], u64) = match form % 2 {
        0 => (&[(Insert, FOURTH), (Insert, OTHER)], 2),
        _ => (&[(Insert, OTHER), (Insert, ITEM), (Insert, FOURTH)], 3),
    };
    let entries = [first, part(BESIDE, 2), part(CHANGE, 8), part(AFTER, 32)].concat();
    Opening {
        size: random.pick(&SIZES),
        workers: random.pick(&WORKERS),
        room: least + random.below(2),
        commands: commands(&entries, &keys, random),
    }
}

fn looked_up_with_nothing(worker: u8, held: Held, random: &mut Random, play: &mut Play) -> Played {
    looked_up(worker, held, 0, random, play)
}

/// With what the store has of the item.
fn looked_up_with_the_chute(
    worker: u8,
    held: Held,
    random: &mut Random,
    play: &mut Play,
) -> Played {
    looked_up(worker, held, held.chute, random, play)
}

/// With a chute that the store does not have of the item.
fn looked_up_with_another(worker: u8, held: Held, random: &mut Random, play: &mut Play) -> Played {
    let mut others = vec![1, 2, LARGEST_CHUTE, LARGEST_CHUTE + 1, u16::MAX];
    others.retain(|other| *other != held.chute);
    let found = random.pick(&others);
    looked_up(worker, held, found, random, play)
}

fn looked_up(worker: u8, held: Held, found: u16, random: &mut Random, play: &mut Play) -> Played {
    let own = held.own;
    set_party(play, worker, Party::LookedUp { own, found })?;
    deal_each(&[worker], random, play)
}

/// Another worker, where there is one and a record and a command for it, is between the look-up
/// and the writing of a command of the same item that changes the store. It writes before or after
/// this worker's turn.
fn beside_a_writer(worker: u8, held: Held, random: &mut Random, play: &mut Play) -> Played {
    let own = [
        (worker.into(), held.settings.workers.into()),
        (held.own.into(), held.settings.size.into()),
        (held.place, held.count),
    ];
    if own.iter().any(|(_, most)| *most < 2) {
        return Ok(());
    }
    let [other, record, place] = own.map(|(it, most)| other_than(random, it, most));
    let kind = random.pick(&[Insert, Delete, Update]);
    set_command(play, place, &with_key(random, kind, held.key))?;
    set_number(play, PLACE + NUMBER * record, place as u16)?;
    let looked_up = Party::LookedUp {
        own: record as u8,
        found: held.chute,
    };
    set_party(play, other as u8, looked_up)?;
    let turns = random.pick(&[[worker, other as u8], [other as u8, worker]]);
    deal_each(&turns, random, play)
}

/// The command is another one of the same item or a worker change, so that a read may be held as an
/// update is.
fn with_another_command(worker: u8, held: Held, random: &mut Random, play: &mut Play) -> Played {
    let kind = random.pick(&Kind::ALL);
    set_command(play, held.place, &with_key(random, kind, held.key))?;
    deal_each(&[worker, worker], random, play)
}

/// The command is one that opening refuses, and counts as its bytes say.
fn with_a_refused_command(worker: u8, held: Held, random: &mut Random, play: &mut Play) -> Played {
    let fault = random.pick(&FAULTS);
    set_command(play, held.place, &with_faults(random, fault))?;
    deal_each(&[worker, worker], random, play)
}

fn without_a_command(worker: u8, held: Held, random: &mut Random, play: &mut Play) -> Played {
    set_number(play, PLACE + NUMBER * usize::from(held.own), 0)?;
    deal_each(&[worker, worker], random, play)
}

/// Deals turns, each by a call of its own with the reports behind it, and goes on.
fn deal_each(turns: &[u8], random: &mut Random, play: &mut Play) -> Played {
    for party in turns {
        play.take(Step::Advance(vec![*party]))?;
        reports(play)?;
    }
    step_on(random, play)
}

/// A number from 1 to the most, which is 2 or more, but not this one of them.
fn other_than(random: &mut Random, it: usize, most: usize) -> usize {
    (it + random.below(most as u64 - 1) as usize) % most + 1
}

#[cfg(test)]
mod tests {
    use std::sync::LazyLock;

    use super::*;
    use crate::bytes::standing;
    use crate::depot::Second;
    use crate::generate::runs::READS;
    use crate::generate::runs::dealings::testing::{
        Done, assert_made_from_the_seed, assert_nearly_all_finish, noted, played,
    };
    use crate::generate::runs::services::{
        self, CLEARING, HOLDING, LOOKED_UP, Service, WALKING, WRITTEN, counts, service,
    };

    static PLAYED: LazyLock<Vec<Done>> = LazyLock::new(|| played(READS, COUNT));

    static SERVICES: LazyLock<Vec<Service>> = LazyLock::new(|| services::services(&PLAYED));

    /// The services of all runs with a command of a kind, or with none.
    fn services(kind: Option<Kind>, apart: bool) -> impl Iterator<Item = &'static Service> {
        let all = SERVICES.iter();
        all.filter(move |it| it.kind == kind && it.apart == apart)
    }

    /// Document 02, A.8, wherever a dealing leads: a read is held and then written. Its turn finds
    /// a chute and finds none beside each state of another read, which is never looked-up, of an
    /// update, and of an insert or delete (A.5); one of the same item is clearing already, unless it
    /// is a read.
    #[test]
    fn reads_are_done_in_one_turn_beside_every_other_command() {
        let mut met = Vec::new();
        for it in services(Some(Read), false) {
            assert!(matches!(it.before, Party::Holding { .. }));
            assert!(matches!(it.after, Party::Written { .. }));
            assert_eq!(it.answer, if it.chute == 0 { 1002 } else { it.chute });
            for beside in &it.beside {
                let free = !beside.same_item || beside.kind == Read.number();
                assert!(free || beside.state == CLEARING, "{beside:?}");
                met.push((it.chute != 0, beside.kind, beside.state));
            }
        }
        let counts = counts(met.into_iter());
        let states = |kind: Kind| match kind {
            Read => vec![HOLDING, WRITTEN, WALKING, CLEARING],
            Insert | Delete | Update | Kind::Workers | Kind::Checkpoint => {
                vec![HOLDING, LOOKED_UP, WRITTEN, WALKING, CLEARING]
            }
        };
        let mut expected = Vec::new();
        for found in [false, true] {
            for kind in Kind::OF_ITEMS {
                let states = states(kind).into_iter();
                expected.extend(states.map(|state| (found, kind.number(), state)));
            }
        }
        assert!(counts.keys().eq(&expected), "{counts:?}");
        assert!(counts.values().all(|count| *count >= 10), "{counts:?}");
    }

    /// Document 02, A.8: other kinds are held, looked-up and written.
    #[test]
    fn other_kinds_are_done_in_two_turns() {
        for kind in [Insert, Delete, Update] {
            let states = services(Some(kind), false).map(|it| {
                let [before, after] = [it.before, it.after].map(|party| standing(party)[0]);
                (before, after, it.answer != 0)
            });
            let counts = counts(states);
            let expected = [(HOLDING, LOOKED_UP, false), (LOOKED_UP, WRITTEN, true)];
            assert!(counts.keys().eq(&expected), "{counts:?}");
            assert!(counts.values().all(|count| *count >= 300), "{counts:?}");
        }
    }

    /// Handed back, a looked-up read has found nothing, what the store has or another chute, of an
    /// item that is there and of one that is not; its turn answers that.
    #[test]
    fn looked_up_reads_meet_every_finding() {
        let met = services(Some(Read), true).filter_map(|it| {
            let Party::LookedUp { found, .. } = it.before else {
                return None;
            };
            assert_eq!(it.answer, if found == 0 { 1002 } else { found });
            Some((found != 0, it.chute != 0, found == it.chute))
        });
        let counts = counts(met);
        let expected = [
            (false, false, true),
            (false, true, false),
            (true, false, false),
            (true, true, false),
            (true, true, true),
        ];
        assert!(counts.keys().eq(&expected), "{counts:?}");
        assert!(counts.values().all(|count| *count >= 200), "{counts:?}");
    }

    /// Handed back, a read is done while a worker is looked-up for an insert, a delete or an update
    /// of its item, and behind its writing; it finds the item and finds none.
    #[test]
    fn reads_are_done_before_and_after_a_writer_of_their_item() {
        let met = services(Some(Read), true)
            .filter(|it| matches!(it.before, Party::Holding { .. }))
            .flat_map(|it| {
                let same_item = it.beside.iter().filter(|beside| beside.same_item);
                same_item.map(|beside| (beside.kind, beside.state, it.chute != 0))
            });
        let counts = counts(met);
        let expected: [(Kind, u8, &[bool]); 6] = [
            (Insert, LOOKED_UP, &[false, true]),
            (Insert, WRITTEN, &[true]),
            (Delete, LOOKED_UP, &[false, true]),
            (Delete, WRITTEN, &[false]),
            (Update, LOOKED_UP, &[false, true]),
            (Update, WRITTEN, &[false, true]),
        ];
        for (kind, state, findings) in expected {
            for found in findings {
                let met = counts.get(&(kind.number(), state, *found));
                assert!(met.is_some_and(|count| *count >= 20), "{kind:?} {counts:?}");
            }
        }
    }

    /// What a change makes of the first turn of a worker that holds a command of a kind.
    fn first_turn(kind: Kind, change: Change<Held>, random: &mut Random) -> Service {
        let mut play = Play::new(&Second);
        let opening = Opening {
            size: 1,
            workers: 1,
            room: 1,
            commands: with_key(random, kind, 5),
        };
        let mut steps = opening.steps().to_vec();
        steps.push(Step::Advance(vec![0, 0, 1, 1]));
        play.take_all(steps).expect("the second program is itself");
        let run = play.host().run().expect("it is opened");
        let held = held(&run, 1).expect("the worker holds it");
        change(1, held, random, &mut play).expect("the second program is itself");
        noted(&play.steps, service).remove(0)
    }

    /// Where there is no command there are two turns, and a looked-up worker has one.
    #[test]
    fn a_changed_command_is_served_as_it_stands() {
        let random = &mut Random::new(1);
        let written = Party::Written { own: 1 };
        for kind in Kind::ALL {
            let none = first_turn(kind, without_a_command, random);
            let looked_up = Party::LookedUp { own: 1, found: 0 };
            assert_eq!((none.kind, none.after), (None, looked_up));
            for change in &CHANGES[..3] {
                let it = first_turn(kind, *change, random);
                assert_eq!((it.kind, it.after), (Some(kind), written));
            }
        }
        assert!(services(None, true).count() >= 1000);
    }

    /// A refused command counts as its bytes say: a read, or one whose kind is none, has one turn,
    /// and each other kind two. None of them finds anything in the empty store.
    #[test]
    fn a_refused_command_is_served_as_its_kind_is() {
        let random = &mut Random::new(1);
        let met = (0..300).map(|_| {
            let kind = random.pick(&Kind::ALL);
            let it = first_turn(kind, with_a_refused_command, random);
            let (after, answer) = match it.kind {
                Some(Read) => (Party::Written { own: 1 }, 1002),
                _ => (Party::LookedUp { own: 1, found: 0 }, 0),
            };
            assert_eq!((it.after, it.answer), (after, answer));
            it.kind.map_or(0, Kind::number)
        });
        let counts = counts(met);
        assert!(counts.keys().eq(&Kind::OF_ITEMS.map(Kind::number)));
        assert!(counts.values().all(|count| *count >= 40), "{counts:?}");
        assert!(counts[&Read.number()] >= 80, "{counts:?}");
    }

    #[test]
    fn nearly_all_runs_come_to_their_end() {
        assert_nearly_all_finish(&PLAYED);
    }

    #[test]
    fn a_seed_gives_the_same_runs_again_and_another_gives_others() {
        assert_made_from_the_seed(READS, COUNT);
    }
}
