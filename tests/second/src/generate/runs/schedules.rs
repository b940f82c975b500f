//! Schedules of every sort, made by running the second program along.

use crate::bytes::standing;
use crate::host::Host;
use crate::random::Random;
use crate::run::{Party, Run};

/// Turns with which a run is brought to its end, at the most.
const MOST: usize = 60_000;

/// Who gets the next turn.
enum Policy {
    Random,
    /// One party for several turns, then another.
    Bursty {
        party: u8,
        left: u64,
    },
    /// All but one.
    Starving(u8),
    RoundRobin(u8),
    /// The loader every other turn.
    Loading,
    /// Seldom one that is to look up or to write, so that others have turns before it does.
    Lingering,
    /// Few workers, on both sides of the count in force, and those at work; seldom others.
    Near,
    /// All but the first worker that comes to one state, for several turns, and so on with another.
    Pausing {
        state: u8,
        worker: Option<u8>,
        left: u64,
    },
}

/// The numbers of the states in which a worker has a record; holding and looked-up are picked most.
const WITH_A_RECORD: [u8; 7] = [3, 3, 4, 4, 5, 6, 7];

impl Policy {
    fn any(random: &mut Random, workers: u8) -> Policy {
        match random.below(6) {
            0 => Policy::Random,
            1 => Policy::Bursty { party: 0, left: 0 },
            2 => Policy::Starving(any_party(random, workers)),
            3 => Policy::RoundRobin(workers),
            4 => Policy::Lingering,
            _ => Policy::Loading,
        }
    }

    /// One that leaves nobody out.
    fn fair(random: &mut Random, workers: u8) -> Policy {
        match random.below(5) {
            0 => Policy::Random,
            1 => Policy::Bursty { party: 0, left: 0 },
            2 => Policy::Loading,
            3 => Policy::Lingering,
            _ => Policy::RoundRobin(workers),
        }
    }

    fn pausing(random: &mut Random) -> Policy {
        Policy::Pausing {
            state: random.pick(&WITH_A_RECORD),
            worker: None,
            left: 10 + random.below(40),
        }
    }

    fn next(&mut self, random: &mut Random, run: &Run) -> u8 {
        let workers = run.largest;
        match self {
            Policy::Random => any_party(random, workers),
            Policy::Bursty { party, left: 0 } => {
                *party = any_party(random, workers);
                *self = Policy::Bursty {
                    party: *party,
                    left: random.below(40),
                };
                self.next(random, run)
            }
            Policy::Bursty { party, left } => {
                *left -= 1;
                *party
            }
            Policy::Starving(party) => any_but(Some(*party), random, workers),
            Policy::RoundRobin(party) => {
                *party = (*party + 1) % (workers + 1);
                *party
            }
            Policy::Loading => any_party(random, workers) * random.below(2) as u8,
            Policy::Lingering => lingering(random, run),
            Policy::Near => near(random, run),
            Policy::Pausing { left: 0, .. } => {
                *self = Policy::pausing(random);
                self.next(random, run)
            }
            Policy::Pausing {
                state,
                worker,
                left,
            } => {
                *worker = worker.or_else(|| first_in(run, *state));
                *left -= u64::from(worker.is_some());
                any_but(*worker, random, workers)
            }
        }
    }
}

/// The first worker that is in a state.
fn first_in(run: &Run, state: u8) -> Option<u8> {
    let comes = |it: &u8| standing(run.parties[usize::from(*it)])[0] == state;
    (1..=run.largest).find(comes)
}

fn lingering(random: &mut Random, run: &Run) -> u8 {
    loop {
        let party = any_party(random, run.largest);
        let now = run.parties[usize::from(party)];
        let lingers = matches!(now, Party::Holding { .. } | Party::LookedUp { .. });
        if !lingers || random.below(16) == 0 {
            return party;
        }
    }
}

fn near(random: &mut Random, run: &Run) -> u8 {
    let at_work = |party: &u8| run.parties[usize::from(*party)] != Party::Idle;
    let busy: Vec<u8> = (0..=run.largest).filter(at_work).collect();
    match random.below(16) {
        0 => any_party(random, run.largest),
        1..=7 if !busy.is_empty() => random.pick(&busy),
        _ => {
            let count = run.in_force.min(run.largest.into()) as u8;
            let few = [0, 0, 1, 2, count, count + 1];
            random.pick(&few).min(run.largest)
        }
    }
}

/// Turns of one sort, and in most cases on to the end.
pub fn any(random: &mut Random, host: &Host) -> Vec<u8> {
    let Some(mut run) = host.run() else {
        return Vec::new();
    };
    let workers = run.largest;
    let turns = random.below(30 * run.commands.len() as u64 + 50) as usize;
    let mut policy = Policy::any(random, workers);
    let mut schedule = deal(random, &mut run, &mut policy, turns);
    if random.below(4) != 0 {
        let mut policy = Policy::fair(random, workers);
        schedule.extend(deal(random, &mut run, &mut policy, MOST));
    }
    schedule
}

/// The loader's turns until no record is free, then turns of one sort.
pub fn filled(random: &mut Random, host: &Host) -> Vec<u8> {
    let Some(mut run) = host.run() else {
        return Vec::new();
    };
    let mut schedule = loaded(&mut run);
    let mut policy = Policy::any(random, run.largest);
    let turns = random.below(MOST as u64) as usize;
    schedule.extend(deal(random, &mut run, &mut policy, turns));
    schedule
}

/// Turns to the end of the run, or as many as are allowed.
pub fn to_the_end(random: &mut Random, host: &Host, most: usize) -> Vec<u8> {
    let Some(mut run) = host.run() else {
        return Vec::new();
    };
    let mut policy = Policy::fair(random, run.largest);
    deal(random, &mut run, &mut policy, most)
}

/// The same, with the loader ahead and workers left in their states for a while, so that others pass
/// them there.
pub fn with_pauses(random: &mut Random, host: &Host, most: usize) -> Vec<u8> {
    let Some(mut run) = host.run() else {
        return Vec::new();
    };
    let mut schedule = loaded(&mut run);
    let mut policy = match random.below(3) {
        0 => Policy::Lingering,
        _ => Policy::pausing(random),
    };
    schedule.extend(deal(random, &mut run, &mut policy, most));
    schedule
}

/// Turns to the end, of few workers on both sides of the count in force.
pub fn near_the_count(random: &mut Random, host: &Host, most: usize) -> Vec<u8> {
    let Some(mut run) = host.run() else {
        return Vec::new();
    };
    deal(random, &mut run, &mut Policy::Near, most)
}

/// Some turns, and who gets them is no matter; few enough for any state.
pub fn some(random: &mut Random, workers: u8, most: u64) -> Vec<u8> {
    let turns = random.below(most);
    (0..turns).map(|_| any_party(random, workers)).collect()
}

/// Turns one of which goes to a party that is not there.
pub fn refused(random: &mut Random, host: &Host) -> Vec<u8> {
    let workers = host.run().map_or(0, |run| run.largest);
    let mut schedule = some(random, workers, 10);
    let at = random.below(schedule.len() as u64 + 1) as usize;
    schedule.insert(at, random.pick(&[workers + 1, workers + 1, 65, 128, 255]));
    schedule
}

/// Deals turns to the loader until it waits.
fn loaded(run: &mut Run) -> Vec<u8> {
    let mut schedule = Vec::new();
    while run.turn(0) {
        schedule.push(0);
    }
    schedule
}

/// Deals turns until all is done, or as many as are allowed.
fn deal(random: &mut Random, run: &mut Run, policy: &mut Policy, most: usize) -> Vec<u8> {
    let mut schedule = Vec::new();
    let mut finished = run.is_finished();
    while schedule.len() < most && !finished {
        let party = policy.next(random, run);
        // Nothing but a turn after which its party is idle can be the last.
        let moved = run.turn(party);
        finished = moved && run.parties[usize::from(party)] == Party::Idle && run.is_finished();
        schedule.push(party);
    }
    schedule
}

fn any_party(random: &mut Random, workers: u8) -> u8 {
    random.below(u64::from(workers) + 1) as u8
}

fn any_but(party: Option<u8>, random: &mut Random, workers: u8) -> u8 {
    match any_party(random, workers) {
        other if Some(other) == party => (other + 1) % (workers + 1),
        other => other,
    }
}
