//! How often the compared inputs meet what document 02's A.2 brings: its refusals, and the turns at
//! which the worker count decides; in `images`, what A.3 does; in `moments`, what A.10 does; in
//! `dispatches`, what A.6 does; in `rounds`, what A.9 does; and in `untested`, commands of lists that
//! no opening accepted.
//! One that no input met would leave the comparison blind there.

/// An enum of what is counted, with the words for each.
macro_rules! named {
    ($(#[$doc:meta])* $name:ident: $($it:ident $words:literal,)+) => {
        $(#[$doc])*
        #[derive(Clone, Copy, Debug, PartialEq, Eq)]
        pub enum $name {
            $($it),+
        }

        impl $name {
            pub const ALL: &[$name] = &[$($name::$it),+];

            pub fn name(self) -> &'static str {
                match self {
                    $($name::$it => $words),+
                }
            }
        }
    };
}

pub mod dispatches;
pub mod images;
pub mod moments;
pub mod rounds;
pub mod untested;

use std::ops::AddAssign;

use crate::bytes::{CHAIN, IN_FORCE, LARGEST, LOCK_COUPLED, standing};
use crate::command::{Kind, LENGTH};
use crate::host::Host;
use crate::identifier;
use crate::met::dispatches::Dispatches;
use crate::met::images::Images;
use crate::met::moments::Moments;
use crate::met::rounds::Rounds;
use crate::met::untested::Untested;
use crate::run::{HEAD, Party, Run};
use crate::script::{List, Step};

/// What is counted besides refusal 8.
#[derive(Clone, Copy, Debug, PartialEq, Eq)]
pub enum Event {
    Opened,
    Refused14,
    /// Of a run with a worker change: a party above the largest count is named.
    Refused11,
    /// A party above the opening's count and not above the largest.
    Between,
    StatusBetween,
    StatusPast,
    /// A state that is refused for one byte.
    WrongChain,
    WrongLargest,
    WrongInForce,
    AboveLargest,
    /// An idle worker above the count in force.
    IdleWaits,
    IdleWaitsAtALock,
    /// A searching worker above it.
    SearchSteps,
    SearchPassesReady,
    SearchWaits,
    SearchEnds,
    /// A worker above the opening's count takes a record.
    TakenAboveOpening,
    /// The writing turn of a worker change.
    WrittenUp,
    WrittenDown,
    WrittenSame,
    WrittenTo1,
    WrittenTo64,
    WrittenAboveLargest,
    WrittenWithAFinding,
    /// Its worker is above the count that it has set.
    HolderAbove,
    HolderRemoves,
    /// Its look, with an item of key 0 in the store.
    LookBesideKey0,
}

impl Event {
    pub const ALL: [Event; 27] = [
        Event::Opened,
        Event::Refused14,
        Event::Refused11,
        Event::Between,
        Event::StatusBetween,
        Event::StatusPast,
        Event::WrongChain,
        Event::WrongLargest,
        Event::WrongInForce,
        Event::AboveLargest,
        Event::IdleWaits,
        Event::IdleWaitsAtALock,
        Event::SearchSteps,
        Event::SearchPassesReady,
        Event::SearchWaits,
        Event::SearchEnds,
        Event::TakenAboveOpening,
        Event::WrittenUp,
        Event::WrittenDown,
        Event::WrittenSame,
        Event::WrittenTo1,
        Event::WrittenTo64,
        Event::WrittenAboveLargest,
        Event::WrittenWithAFinding,
        Event::HolderAbove,
        Event::HolderRemoves,
        Event::LookBesideKey0,
    ];

    pub fn name(self) -> &'static str {
        match self {
            Event::Opened => "lists with a worker change opened",
            Event::Refused14 => "counts refused 14",
            Event::Refused11 => "parties above the largest count refused 11",
            Event::Between => "turns of parties above the opening's count",
            Event::StatusBetween => "reports of such a party at work",
            Event::StatusPast => "reports with a party at work past the largest count",
            Event::WrongChain => "first bytes refused 12",
            Event::WrongLargest => "largest counts refused 12",
            Event::WrongInForce => "counts in force refused 12, being 0",
            Event::AboveLargest => "counts in force refused 12, above the largest",
            Event::IdleWaits => "idle waits above the count",
            Event::IdleWaitsAtALock => "the same with the head locked",
            Event::SearchSteps => "steps of searches above the count",
            Event::SearchPassesReady => "ready records passed by them",
            Event::SearchWaits => "waits of such searches",
            Event::SearchEnds => "ends of such searches",
            Event::TakenAboveOpening => "records taken above the opening's count",
            Event::WrittenUp => "counts written up",
            Event::WrittenDown => "counts written down",
            Event::WrittenSame => "counts written as they were",
            Event::WrittenTo1 => "counts written 1",
            Event::WrittenTo64 => "counts written 64",
            Event::WrittenAboveLargest => "counts written above the largest",
            Event::WrittenWithAFinding => "counts written with a finding",
            Event::HolderAbove => "counts written by a worker above them",
            Event::HolderRemoves => "removals by such a worker",
            Event::LookBesideKey0 => "looks beside an item of key 0",
        }
    }
}

/// Counts of all that is named above.
#[derive(Clone, Debug, PartialEq, Eq)]
pub struct Met {
    pub events: [u64; Event::ALL.len()],
    /// Worker changes refused 8 at each character from 1.
    pub characters: [u64; identifier::LENGTH],
    pub images: Images,
    pub moments: Moments,
    pub dispatches: Dispatches,
    pub untested: Untested,
    pub rounds: Rounds,
}

impl Default for Met {
    fn default() -> Met {
        Met {
            events: [0; Event::ALL.len()],
            characters: [0; identifier::LENGTH],
            images: Images::default(),
            moments: Moments::default(),
            dispatches: Dispatches::default(),
            untested: Untested::default(),
            rounds: Rounds::default(),
        }
    }
}

impl AddAssign<&Met> for Met {
    fn add_assign(&mut self, other: &Met) {
        let events = self.events.iter_mut().zip(other.events);
        let characters = self.characters.iter_mut().zip(other.characters);
        for (count, more) in events.chain(characters) {
            *count += more;
        }
        self.images.add(&other.images);
        self.moments.add(&other.moments);
        self.dispatches.add(&other.dispatches);
        self.untested.add(&other.untested);
        self.rounds.add(&other.rounds);
    }
}

impl Met {
    /// A line for each, with how often it was met.
    pub fn lines(&self) -> Vec<String> {
        let characters = self.characters.iter().enumerate().map(|(index, count)| {
            let character = index + 1;
            format!("worker changes refused 8 at character {character}: {count}")
        });
        let events = Event::ALL.into_iter();
        events
            .map(|event| format!("{}: {}", event.name(), self.events[event as usize]))
            .chain(characters)
            .chain(self.images.lines())
            .chain(self.moments.lines())
            .chain(self.dispatches.lines())
            .chain(self.untested.lines())
            .chain(self.rounds.lines())
            .collect()
    }

    /// Whether something was never met.
    pub fn lacks_any(&self) -> bool {
        let changes = self.events.contains(&0) || self.characters.contains(&0);
        let images = self.images.lacks_any() || self.moments.lacks_any();
        let calls = self.dispatches.lacks_any() || self.rounds.lacks_any();
        changes || images || calls || self.untested.lacks_any()
    }

    pub fn count(&self, event: Event) -> u64 {
        self.events[event as usize]
    }

    fn note(&mut self, event: Event, met: bool) {
        self.events[event as usize] += u64::from(met);
    }

    /// Notes a step of a caller, before it is taken, with the answer that it gets.
    pub fn note_step(&mut self, host: &Host, step: &Step, answer: u64) {
        self.images.note_step(host, step, answer);
        match step {
            Step::Open(open) => self.note_opening(&open.commands, answer),
            Step::Advance(schedule) => self.note_dealing(host, schedule, answer),
            Step::WorkerStatus(_) if answer == 0 => self.note_report(host),
            Step::Serial => self.moments.note_judged(host),
            Step::StepsNeeded(_) => self.dispatches.note_needed(answer),
            _ => {}
        }
    }

    fn note_opening(&mut self, commands: &[u8], answer: u64) {
        let change = refused_kind(commands, answer) == Some(Kind::Workers.number());
        self.note(Event::Opened, answer == 0 && changes_workers(commands));
        self.note(Event::Refused14, answer & 0xff == 14);
        if change && answer & 0xff == 8 {
            let character = (answer >> 32) as usize;
            self.characters[character - 1] += 1;
        }
    }

    fn note_dealing(&mut self, host: &Host, schedule: &[u8], answer: u64) {
        let state = host.list(List::State);
        if answer == 0 {
            self.untested.note_dealing(host, schedule);
        }
        match answer {
            12 => self.note_refused_state(state),
            0 | 11 if changed(host) => {
                if let Some(mut run) = host.run() {
                    self.note(Event::Refused11, answer == 11);
                    let turns = if answer == 0 { schedule } else { &[] };
                    turns.iter().for_each(|it| self.note_turn(&mut run, *it));
                }
            }
            _ => {}
        }
    }

    /// Notes the state of a refused call, by the first byte of it that is wrong here.
    fn note_refused_state(&mut self, state: &[u8]) {
        let [chain, largest, in_force] = [CHAIN, LARGEST, IN_FORCE].map(|offset| state[offset]);
        let right = (1..=64).contains(&largest);
        let event = match (chain, right, in_force) {
            (LOCK_COUPLED, true, 0) => Event::WrongInForce,
            (LOCK_COUPLED, true, _) if in_force > largest => Event::AboveLargest,
            (LOCK_COUPLED, true, _) => return,
            (LOCK_COUPLED, false, _) => Event::WrongLargest,
            _ => Event::WrongChain,
        };
        self.note(event, true);
    }

    fn note_report(&mut self, host: &Host) {
        let Some(run) = host.run().filter(|_| changed(host)) else {
            return;
        };
        let works = |worker: u8| standing(run.parties[usize::from(worker)]) != [0; 2];
        let between = (run.settings.workers + 1..=run.largest).any(works);
        self.note(Event::StatusBetween, between);
        self.note(Event::StatusPast, (run.largest + 1..=64).any(works));
    }

    /// Deals a turn and notes it.
    fn note_turn(&mut self, run: &mut Run, party: u8) {
        let above = !run.allows(party);
        let before = run.parties[usize::from(party)];
        let head_locked = run.records.locked[usize::from(HEAD)];
        let ready = next_is_ready(run, before);
        let count = before.own().and_then(|own| run.command(own)?.count());
        let in_force = run.in_force;
        let moved = run.turn(party);
        let after = run.parties[usize::from(party)];
        self.note(Event::Between, party > run.settings.workers);
        match (before, after) {
            (Party::Idle, _) if above => {
                self.note(Event::IdleWaits, !head_locked);
                self.note(Event::IdleWaitsAtALock, head_locked);
            }
            (Party::Searching { .. }, _) if above => {
                self.note(Event::SearchWaits, !moved);
                self.note(Event::SearchEnds, after == Party::Idle);
                self.note(Event::SearchSteps, moved && after != Party::Idle);
                self.note(Event::SearchPassesReady, moved && ready);
            }
            (Party::Searching { .. }, Party::Holding { .. }) => {
                self.note(Event::TakenAboveOpening, party > run.settings.workers);
            }
            (Party::Holding { .. }, _) => {
                let beside = run.store.chute(0) != 0;
                self.note(Event::LookBesideKey0, count.is_some() && beside);
            }
            (Party::LookedUp { found, .. }, _) => {
                self.note(Event::WrittenWithAFinding, count.is_some() && found != 0);
                self.note(Event::HolderAbove, count.is_some() && !run.allows(party));
                self.note_written(run, count, in_force);
            }
            (Party::Clearing { .. }, Party::Idle) => {
                self.note(Event::HolderRemoves, above && count.is_some());
            }
            _ => {}
        }
    }

    /// Notes the count that a writing turn sets, if it does, where another was in force.
    fn note_written(&mut self, run: &Run, count: Option<u16>, in_force: u16) {
        let Some(count) = count else { return };
        self.note(Event::WrittenUp, count > in_force);
        self.note(Event::WrittenDown, count < in_force);
        self.note(Event::WrittenSame, count == in_force);
        self.note(Event::WrittenTo1, count == 1);
        self.note(Event::WrittenTo64, count == 64);
        self.note(Event::WrittenAboveLargest, count > run.largest.into());
    }
}

/// Whether the record that a searching party would step on may be taken.
fn next_is_ready(run: &Run, party: Party) -> bool {
    let Party::Searching { at } = party else {
        return false;
    };
    let next = usize::from(run.records.next[usize::from(at)]);
    next != 0 && !run.records.executing[next] && run.records.set[next] == [0; 3]
}

/// Whether the list has a worker change, or the state another count than the opening's.
fn changed(host: &Host) -> bool {
    let state = host.list(List::State);
    let counts = state.get(LARGEST) != state.get(IN_FORCE);
    counts || changes_workers(host.list(List::Commands))
}

fn changes_workers(commands: &[u8]) -> bool {
    let mut kinds = commands.iter().step_by(LENGTH);
    kinds.any(|kind| *kind == Kind::Workers.number())
}

/// The kind of the command that an opening refuses by this answer, if it refuses one.
pub fn refused_kind(commands: &[u8], answer: u64) -> Option<u8> {
    let place = (answer >> 8 & 0xff_ffff) as usize;
    place.checked_sub(1).map(|index| commands[index * LENGTH])
}

#[cfg(test)]
mod tests {
    use super::*;

    /// Nothing is met at first; one missing count of many is seen.
    #[test]
    fn what_is_never_met_is_told() {
        let mut met = Met::default();
        met.events.fill(2);
        met.characters.fill(3);
        assert!(met.lacks_any(), "no image is met");
        met.images = Images::met(2);
        assert!(met.lacks_any(), "no moment is met");
        met.moments = Moments::met(2);
        assert!(met.lacks_any(), "no dispatch is met");
        met.dispatches = Dispatches::met(2);
        assert!(met.lacks_any(), "no refused command is met");
        met.untested = Untested::met(2);
        assert!(met.lacks_any(), "no rounds are met");
        met.rounds = Rounds::met(2);
        assert!(!met.lacks_any());
        for index in 0..Event::ALL.len() {
            assert_eq!(Event::ALL[index] as usize, index);
            let mut other = met.clone();
            other.events[index] = 0;
            assert!(other.lacks_any());
        }
        for index in 0..identifier::LENGTH {
            let mut other = met.clone();
            other.characters[index] = 0;
            assert!(other.lacks_any());
        }
        let mut sum = met.clone();
        sum += &met;
        assert_eq!(sum.count(Event::Opened), 4);
        let lines = sum.lines();
        let images = sum.images.lines().count() + sum.moments.lines().count();
        let calls = sum.dispatches.lines().count() + sum.rounds.lines().count();
        let others = images + calls + sum.untested.lines().count();
        let counts = Event::ALL.len() + identifier::LENGTH;
        assert_eq!(lines.len(), counts + others);
        assert_eq!(lines[1], "counts refused 14: 4");
        let last = "worker changes refused 8 at character 13: 6";
        assert_eq!(lines[counts - 1], last);
    }
}
