//! Worker counts that change during the list: up and down, to 1, to 64 and to what they were, first
//! and last in the list and one behind the other. They are dealt in orders of every sort, one list
//! in several orders too, and some are handed back as no dealing leaves them: with other counts, a
//! searching or an idle worker above the count beside a record that may be taken, another finding,
//! another worker change or a refused one, and a worker at work past the largest count.

use super::changes::{set_bytes, set_command, set_party, step_on};
use super::dealings::{Change, Dealing, Played, WAYS, keys};
use super::openings::Opening;
use super::{moment, reports, schedules};
use crate::bytes::{CHAIN, EXECUTING, IN_FORCE, LARGEST, LOCKED, SETS};
use crate::command::Kind::{self, Delete, Insert, Read, Update};
use crate::generate::commands::{TEXT, with_key, workers};
use crate::generate::with_byte;
use crate::host::Host;
use crate::play::Play;
use crate::random::Random;
use crate::run::{HEAD, Party, Run};
use crate::script::{List, Step};

/// How many runs there are: each form of a list twice in each way of dealing.
pub const COUNT: u64 = FORMS * (WAYS + 1) * 2;
pub const FORMS: u64 = 128;
/// In how many orders a list is dealt by the last way.
const ORDERS: u64 = 4;
/// Calls of such an order, and turns to its end, at the most.
const CALLS: usize = 40;
const MOST: usize = 20_000;

const SIZES: [u64; 6] = [2, 3, 4, 6, 8, 12];
/// The counts of the opening, and those that the list sets.
const FIRST: [u64; 4] = [1, 2, 3, 5];
const COUNTS: [&[u16]; 8] = [
    &[1],
    &[4],
    &[3, 1],
    &[1, 3],
    &[64, 1],
    &[1, 64],
    &[2, 2, 1, 5],
    &[5, 4, 3, 2, 1],
];

/// What stands before a change and behind the last, by item; the first item has key 0 in most
/// lists.
type Items = &'static [(Kind, usize)];
const ITEMS: usize = 3;
const BEFORE: [Items; 4] = [
    &[],
    &[(Insert, 0)],
    &[(Insert, 1), (Read, 0), (Read, 1)],
    &[(Insert, 0), (Insert, 2)],
];
const BEHIND: [Items; 4] = [
    &[(Read, 0), (Read, 1), (Update, 0), (Read, 2)],
    &[],
    &[(Update, 1), (Read, 2)],
    &[(Delete, 0), (Read, 1), (Insert, 1)],
];

/// A worker that has just taken a record, or has written a worker change.
#[derive(Clone, Copy)]
struct Seen {
    own: u8,
    /// The place of its command.
    place: usize,
    size: u8,
    largest: u8,
    in_force: u8,
    /// The first record of the chain.
    first: u8,
}

/// What is done to lists that are handed back then.
const CHANGES: [Change<Seen>; 9] = [
    with_another_chain,
    with_another_largest,
    with_another_in_force,
    with_a_search,
    with_an_idle_worker,
    with_a_finding,
    with_a_count_above_the_largest,
    with_a_refused_change,
    with_a_worker_past_the_largest,
];

const DEALING: Dealing<Seen> = Dealing {
    to_the_end,
    seen,
    changes: &CHANGES,
};

/// Plays the run of a number below the count.
pub fn play(number: u64, random: &mut Random, play: &mut Play) -> Played {
    let opening = opening(number % FORMS, random);
    match number / FORMS % (WAYS + 1) {
        WAYS => in_several_orders(opening, random, play),
        way => DEALING.play(opening, way, random, play),
    }
}

/// With and without workers that are left in their states for a while; where there may be many, in
/// most cases with turns of few.
fn to_the_end(random: &mut Random, host: &Host, most: usize) -> Vec<u8> {
    let many = host.run().is_some_and(|run| run.largest > 8);
    match random.below(if many { 16 } else { 3 }) {
        0 => schedules::to_the_end(random, host, most),
        1 => schedules::with_pauses(random, host, most),
        _ => schedules::near_the_count(random, host, most),
    }
}

/// An opening of a form: counts of the opening and the list, and what stands between them.
pub fn opening(form: u64, random: &mut Random) -> Opening {
    let mut keys = keys(random, ITEMS);
    if random.below(4) != 0 && !keys.contains(&0) {
        keys[0] = 0;
    }
    let counts = COUNTS[(form % 8) as usize];
    let place = (form / 32) as usize;
    let mut parts = Vec::new();
    for (index, count) in counts.iter().enumerate() {
        let items = BEFORE[(place + index) % BEFORE.len()];
        parts.extend(items.iter().map(|it| with_key(random, it.0, keys[it.1])));
        parts.push(workers(*count));
    }
    let items = BEHIND[place];
    parts.extend(items.iter().map(|it| with_key(random, it.0, keys[it.1])));
    Opening {
        size: random.pick(&SIZES),
        workers: FIRST[(form / 8 % 4) as usize],
        room: 1 + random.below(3),
        commands: parts.concat(),
    }
}

/// The same list to its end in other orders of turns, each in pieces with the reports, and some
/// judgements, behind them.
fn in_several_orders(opening: Opening, random: &mut Random, play: &mut Play) -> Played {
    for _ in 0..ORDERS {
        opening.clone().open(play)?;
        let schedule = to_the_end(random, play.host(), MOST);
        for piece in schedule.chunks(schedule.len() / CALLS + 1) {
            play.take(Step::Advance(piece.to_vec()))?;
            reports(play)?;
            moment(random, play)?;
        }
        play.take(Step::Serial)?;
    }
    Ok(())
}

/// What is seen of a party that has just taken a record or written a worker change.
fn seen(run: &Run, party: u8) -> Option<Seen> {
    let own = match run.parties[usize::from(party)] {
        Party::Holding { own } => own,
        Party::Written { own } if run.command(own)?.kind == Kind::Workers => own,
        _ => return None,
    };
    Some(Seen {
        own,
        place: run.records.place[usize::from(own)].into(),
        size: run.settings.size,
        largest: run.largest,
        in_force: run.in_force as u8, // 1 to 64, as the list was accepted
        first: run.records.next[usize::from(HEAD)],
    })
}

fn with_another_chain(_: u8, _: Seen, random: &mut Random, play: &mut Play) -> Played {
    let chain = random.pick(&[0, 2, 3, 129, 255]);
    set_byte(play, CHAIN, chain)?;
    step_on(random, play)
}

fn with_another_largest(_: u8, seen: Seen, random: &mut Random, play: &mut Play) -> Played {
    let near = [seen.in_force - 1, seen.in_force, seen.largest + 1];
    let far = [0, 1, 63, 64, 65, 128, 255];
    let largest = random.pick(&[near.as_slice(), &far].concat());
    set_byte(play, LARGEST, largest)?;
    step_on(random, play)
}

fn with_another_in_force(_: u8, seen: Seen, random: &mut Random, play: &mut Play) -> Played {
    let near = [1, seen.in_force - 1, seen.largest, seen.largest + 1];
    let far = [0, 64, 65, 128, 255];
    let in_force = random.pick(&[near.as_slice(), &far].concat());
    set_byte(play, IN_FORCE, in_force)?;
    step_on(random, play)
}

/// Another worker searches from the head, with any count in force, and the first record of the
/// chain may be taken.
fn with_a_search(worker: u8, seen: Seen, random: &mut Random, play: &mut Play) -> Played {
    beside_a_ready_record(Party::Searching { at: HEAD }, worker, seen, random, play)
}

/// Another worker is idle before such a record.
fn with_an_idle_worker(worker: u8, seen: Seen, random: &mut Random, play: &mut Play) -> Played {
    beside_a_ready_record(Party::Idle, worker, seen, random, play)
}

fn beside_a_ready_record(
    party: Party,
    worker: u8,
    seen: Seen,
    random: &mut Random,
    play: &mut Play,
) -> Played {
    let any = |random: &mut Random| 1 + random.below(seen.largest.into()) as u8;
    let [one, two] = [any(random), any(random)];
    let other = random.pick(&[seen.largest, one]);
    if seen.first == 0 || other == worker {
        return Ok(());
    }
    let count = random.pick(&[other, other - 1, two]);
    set_byte(play, IN_FORCE, count.max(1))?;
    set_byte(play, LOCKED, u8::from(party != Party::Idle))?;
    let record = usize::from(seen.first);
    set_byte(play, EXECUTING + record, 0)?;
    set_byte(play, LOCKED + record, 0)?;
    set_bytes(play, List::State, SETS + 24 * record, &[0; 24])?;
    set_party(play, other, party)?;
    for turns in 1..=3 {
        play.take(Step::Advance(vec![other; turns]))?;
        reports(play)?;
    }
    step_on(random, play)
}

/// The worker's command is a worker change that is looked-up, with any finding.
fn with_a_finding(worker: u8, seen: Seen, random: &mut Random, play: &mut Play) -> Played {
    let count = 1 + random.below(seen.largest.into()) as u16;
    set_command(play, seen.place, &workers(count))?;
    let found = random.pick(&[0, 1, 7, 512, 513, u16::MAX]);
    let own = seen.own;
    set_party(play, worker, Party::LookedUp { own, found })?;
    play.take(Step::Advance(vec![worker]))?;
    reports(play)?;
    step_on(random, play)
}

/// The worker has a worker change whose count is above the state's largest: from its writing on the
/// call goes on with it, and the next is refused.
fn with_a_count_above_the_largest(
    worker: u8,
    seen: Seen,
    random: &mut Random,
    play: &mut Play,
) -> Played {
    if seen.largest == 64 {
        return Ok(());
    }
    let above = 64 - u16::from(seen.largest);
    let count = u16::from(seen.largest) + 1 + random.below(above.into()) as u16;
    set_command(play, seen.place, &workers(count))?;
    set_party(play, worker, Party::Holding { own: seen.own })?;
    let mut schedule = vec![worker; 2];
    schedule.extend(schedules::some(random, seen.largest, 40));
    play.take(Step::Advance(schedule))?;
    reports(play)?;
    step_on(random, play)
}

/// The worker's command is a worker change that opening refuses.
fn with_a_refused_change(worker: u8, seen: Seen, random: &mut Random, play: &mut Play) -> Played {
    let position = TEXT + random.below(13) as usize;
    let refused = match random.below(2) {
        0 => workers(random.pick(&[0, 65, 256, 257, u16::MAX])),
        _ => with_byte(&workers(1), position, random.pick(b"1AO\x00")),
    };
    set_command(play, seen.place, &refused)?;
    play.take(Step::Advance(vec![worker]))?;
    reports(play)?;
    step_on(random, play)
}

/// A worker that no dealing may name has a record; it is reported idle.
fn with_a_worker_past_the_largest(
    _: u8,
    seen: Seen,
    random: &mut Random,
    play: &mut Play,
) -> Played {
    if seen.largest == 64 {
        return Ok(());
    }
    let past = seen.largest + 1 + random.below(64 - u64::from(seen.largest)) as u8;
    let own = 1 + random.below(seen.size.into()) as u8;
    set_party(play, past, Party::Written { own })?;
    play.take(Step::Advance(vec![past]))?;
    reports(play)?;
    step_on(random, play)
}

fn set_byte(play: &mut Play, offset: usize, value: u8) -> Played {
    set_bytes(play, List::State, offset, &[value])
}

#[cfg(test)]
mod tests {
    use std::collections::BTreeSet;
    use std::sync::LazyLock;

    use super::*;
    use crate::command::Command;
    use crate::generate::runs::SHIFTS;
    use crate::generate::runs::dealings::testing::{
        Done, assert_made_from_the_seed, assert_nearly_all_finish, met, noted, played,
    };
    use crate::met::Event;

    static PLAYED: LazyLock<Vec<Done>> = LazyLock::new(|| played(SHIFTS, COUNT));

    /// Each situation of document 02's A.2 often enough; refusals of commands are met elsewhere.
    #[test]
    fn every_situation_is_met() {
        let met = met(&PLAYED);
        for event in Event::ALL.into_iter().filter(|it| *it != Event::Refused14) {
            assert!(met.count(event) >= 50, "{event:?}: {}", met.count(event));
        }
    }

    /// The count of the last worker change delivered before a place, else the opening's.
    fn most(run: &Run, place: usize) -> u16 {
        let earlier = run.commands[..place - 1].iter();
        let mut counts = earlier.filter_map(Command::count);
        counts.next_back().unwrap_or(run.settings.workers.into())
    }

    /// Deals a turn; if it takes a command where a dealing leads, the worker and the most that the
    /// manager may rely on.
    fn taken(run: &mut Run, worker: u8, apart: bool) -> Option<(u8, u16, u16)> {
        let searching = matches!(run.parties[usize::from(worker)], Party::Searching { .. });
        run.turn(worker);
        match run.parties[usize::from(worker)] {
            Party::Holding { own } if searching && !apart => {
                let place = run.records.place[usize::from(own)];
                Some((worker, most(run, place.into()), run.in_force))
            }
            _ => None,
        }
    }

    /// Document 02, A.2: no command delivered after a change, up to and including the next one, is
    /// taken by a worker above its count. Workers up to the largest count of all take some.
    #[test]
    fn no_command_is_taken_above_the_count_before_it() {
        let taken: Vec<(u8, u16, u16)> = PLAYED
            .iter()
            .flat_map(|done| noted(&done.steps, taken))
            .collect();
        for (worker, most, in_force) in &taken {
            assert!(u16::from(*worker) <= *most, "{worker} of {most}");
            assert_eq!(most, in_force);
        }
        let workers: BTreeSet<u8> = taken.iter().map(|it| it.0).collect();
        assert!(workers.len() > 40, "{workers:?}");
        assert!(taken.len() > 10_000, "{}", taken.len());
    }

    /// One list is dealt in several orders; each ends with the same answers and table.
    #[test]
    fn the_same_list_is_dealt_in_several_orders() {
        for number in FORMS * WAYS..FORMS * (WAYS + 1) {
            let steps = &PLAYED[number as usize].steps;
            let opened: Vec<&Step> = steps
                .iter()
                .filter(|step| matches!(step, Step::Open(_)))
                .collect();
            assert_eq!(opened.len(), ORDERS as usize);
            assert!(opened.iter().all(|step| *step == opened[0]));
            let advances = |step: &&Step| matches!(step, Step::Advance(_));
            let calls: BTreeSet<String> =
                steps.iter().filter(advances).map(Step::to_string).collect();
            assert!(calls.len() > ORDERS as usize);
        }
    }

    #[test]
    fn nearly_all_runs_come_to_their_end() {
        assert_nearly_all_finish(&PLAYED);
    }

    #[test]
    fn a_seed_gives_the_same_runs_again_and_another_gives_others() {
        assert_made_from_the_seed(SHIFTS, COUNT);
    }
}
