//! What happened in a run, turn by turn: who had each turn and what became of it, how things stood
//! after it, and the life of each command.

use crate::run::{HEAD, Party, Records, Run};
use crate::text::input::Input;

/// How records and parties stand after a turn.
#[derive(Clone, Debug)]
pub struct Frame {
    pub loaded: u16,
    /// The worker count in force.
    pub in_force: u16,
    /// How many entries the store has.
    pub used: u16,
    pub records: Records,
    pub parties: Vec<Party>,
}

/// One turn.
#[derive(Clone, Copy, Debug, PartialEq, Eq)]
pub struct Turn {
    pub party: u8,
    pub outcome: Outcome,
}

#[derive(Clone, Copy, Debug, PartialEq, Eq)]
pub enum Outcome {
    Step,
    /// The writing turn of a record's command, with the answer.
    Wrote {
        record: u8,
        answer: u16,
    },
    Wait(Reason),
}

/// Why a turn was a wait.
#[derive(Clone, Copy, Debug, PartialEq, Eq)]
pub enum Reason {
    Locked(u8),
    NoRecordFree,
    EveryCommandLoaded,
    /// An idle worker is above the count in force.
    NotAllowed,
}

/// Where a record is in its life; executing and clearing are a worker's doing.
#[derive(Clone, Copy, Debug, PartialEq, Eq)]
pub enum Phase {
    Unused,
    Loading,
    /// Linked, with records that it waits for.
    Waiting,
    /// Linked, and may be taken.
    Ready,
    Executing(u8),
    Clearing(u8),
}

/// The turns at which things happened to a command.
#[derive(Clone, Debug, Default, PartialEq, Eq)]
pub struct Life {
    pub record: u8,
    pub loaded: usize,
    pub linked: Option<usize>,
    /// The commands waited for, by place, with the turn at which each wait began and ended.
    pub waits: Vec<Wait>,
    pub taken: Option<(usize, u8)>,
    pub written: Option<(usize, u16)>,
    /// How many entries the store had after that.
    pub entries: u16,
    pub removed: Option<usize>,
}

#[derive(Clone, Copy, Debug, PartialEq, Eq)]
pub struct Wait {
    pub place: u16,
    pub record: u8,
    pub from: usize,
    pub until: Option<usize>,
}

/// A value that stays the same from one turn to another, both included.
#[derive(Clone, Debug, PartialEq, Eq)]
pub struct Span<T> {
    pub value: T,
    pub first: usize,
    pub last: usize,
}

/// Some turns of a run, one after another, with all that led to them.
pub struct Trace {
    /// The number of the first of these turns, from 1 on.
    pub first: usize,
    /// How things stand before the first of them, and after each.
    pub frames: Vec<Frame>,
    pub turns: Vec<Turn>,
    /// One for each command that was loaded before the last of them or at it, in order.
    pub lives: Vec<Life>,
}

impl Trace {
    /// Runs an input from the opening to the last of these turns.
    pub fn of(input: &Input, [first, last]: [usize; 2]) -> Trace {
        let mut run = Run::open(input.settings, input.commands.clone());
        let mut trace = Trace {
            first,
            frames: Vec::new(),
            turns: Vec::new(),
            lives: Vec::new(),
        };
        let mut before = Frame::of(&run);
        for (turn, party) in (1..=last).zip(&input.schedule) {
            let outcome = take_turn(&mut run, *party);
            let after = Frame::of(&run);
            trace.follow(turn, outcome, [&before, &after]);
            let before = std::mem::replace(&mut before, after);
            if turn >= first {
                let party = *party;
                trace.turns.push(Turn { party, outcome });
                trace.frames.push(before);
            }
        }
        trace.frames.push(before);
        trace
    }

    /// The turns with their numbers.
    pub fn numbered(&self) -> impl Iterator<Item = (usize, Turn)> {
        (self.first..).zip(self.turns.iter().copied())
    }

    pub fn turn(&self, number: usize) -> Turn {
        self.turns[number - self.first]
    }

    /// How things stand after a turn.
    pub fn frame(&self, number: usize) -> &Frame {
        &self.frames[number - self.first + 1]
    }

    /// The number of the last turn.
    pub fn last(&self) -> usize {
        self.first + self.turns.len() - 1
    }

    /// Whether a turn is one of these.
    pub fn shows(&self, turn: usize) -> bool {
        (self.first..=self.last()).contains(&turn)
    }

    /// The commands, by index, that had not gone before these turns.
    pub fn lives_shown(&self) -> impl Iterator<Item = (usize, &Life)> {
        let shown = |life: &Life| life.removed.is_none_or(|turn| turn >= self.first);
        let lives = self.lives.iter().enumerate();
        lives.filter(move |(_, life)| shown(life))
    }

    /// The writing turn of a command and its answer, if it is one of these turns.
    pub fn answer_shown(&self, life: &Life) -> Option<(usize, u16)> {
        life.written.filter(|(turn, _)| self.shows(*turn))
    }

    /// The stretches of turns over which a value of the frame stays the same.
    pub fn spans<T: PartialEq>(&self, value: impl Fn(&Frame) -> T) -> Vec<Span<T>> {
        let mut spans: Vec<Span<T>> = Vec::new();
        for (turn, frame) in (self.first..).zip(&self.frames[1..]) {
            let value = value(frame);
            match spans.last_mut() {
                Some(span) if span.value == value => span.last = turn,
                _ => spans.push(Span {
                    value,
                    first: turn,
                    last: turn,
                }),
            }
        }
        spans
    }

    /// The records that are used in these turns, in order.
    pub fn records_used(&self) -> Vec<u8> {
        let mut records: Vec<u8> = self.lives_shown().map(|(_, life)| life.record).collect();
        records.sort();
        records.dedup();
        records
    }

    /// Enters into the lives what a turn changed; a wait changes nothing.
    fn follow(&mut self, turn: usize, outcome: Outcome, [before, after]: [&Frame; 2]) {
        if matches!(outcome, Outcome::Wait(_)) {
            return;
        }
        if after.loaded > before.loaded {
            let record = before.records.free;
            self.lives.push(Life {
                record,
                loaded: turn,
                ..Life::default()
            });
        }
        for life in self.lives.iter_mut().filter(|life| life.removed.is_none()) {
            follow_life(life, turn, before, after);
            match outcome {
                Outcome::Wrote { record, answer } if record == life.record => {
                    life.written = Some((turn, answer));
                    life.entries = after.used;
                }
                _ => {}
            }
        }
    }
}

impl Frame {
    fn of(run: &Run) -> Frame {
        Frame {
            loaded: run.loaded,
            in_force: run.in_force,
            used: run.store.used,
            records: run.records.clone(),
            parties: run.parties.to_vec(),
        }
    }

    pub fn place(&self, record: u8) -> u16 {
        self.records.place[usize::from(record)]
    }

    /// The party that stands on a record and has it locked.
    pub fn locked_by(&self, record: u8) -> Option<u8> {
        let stands = |party: &Party| stands_on(*party) == Some(record);
        self.parties
            .iter()
            .position(stands)
            .map(|party| party as u8)
    }

    /// The records that a record waits for.
    pub fn waits_for(&self, record: u8) -> Vec<u8> {
        let set = self.records.set[usize::from(record)];
        let member = |other: &u8| set[usize::from(other / 64)] >> (other % 64) & 1 == 1;
        (1..=150).filter(member).collect()
    }

    pub fn phase(&self, record: u8) -> Phase {
        let owner = self
            .parties
            .iter()
            .position(|party| party.own() == Some(record));
        match owner {
            Some(0) => Phase::Loading,
            Some(owner) => match self.parties[owner] {
                Party::Clearing { .. } => Phase::Clearing(owner as u8),
                _ => Phase::Executing(owner as u8),
            },
            None if self.place(record) == 0 => Phase::Unused,
            None if self.waits_for(record).is_empty() => Phase::Ready,
            None => Phase::Waiting,
        }
    }
}

/// A turn that is no wait and leaves its party written is a writing turn, whether the party was
/// looked-up or, with a read, holding.
fn take_turn(run: &mut Run, party: u8) -> Outcome {
    if !run.turn(party) {
        return Outcome::Wait(reason(run, party));
    }
    match run.parties[usize::from(party)] {
        Party::Written { own } => {
            let place = usize::from(run.records.place[usize::from(own)]);
            Outcome::Wrote {
                record: own,
                answer: run.answers[place - 1],
            }
        }
        _ => Outcome::Step,
    }
}

/// Why a party's turn was a wait, which changed nothing.
fn reason(run: &Run, party: u8) -> Reason {
    let now = run.parties[usize::from(party)];
    match stands_on(now) {
        Some(at) => Reason::Locked(run.records.next[usize::from(at)]),
        None if !run.allows(party) && now == Party::Idle => Reason::NotAllowed,
        None if party > 0 => Reason::Locked(HEAD),
        None if usize::from(run.loaded) == run.commands.len() => Reason::EveryCommandLoaded,
        None if run.records.free == 0 => Reason::NoRecordFree,
        None => Reason::Locked(HEAD),
    }
}

fn follow_life(life: &mut Life, turn: usize, before: &Frame, after: &Frame) {
    let phase = after.phase(life.record);
    if life.linked.is_none() && phase != Phase::Loading {
        life.linked = Some(turn);
    }
    match phase {
        Phase::Executing(worker) if life.taken.is_none() => life.taken = Some((turn, worker)),
        Phase::Unused => life.removed = Some(turn),
        _ => {}
    }
    let set = |frame: &Frame| frame.records.set[usize::from(life.record)];
    if set(before) == set(after) {
        return;
    }
    let now = after.waits_for(life.record);
    for wait in life.waits.iter_mut().filter(|wait| wait.until.is_none()) {
        if !now.contains(&wait.record) {
            wait.until = Some(turn);
        }
    }
    let earlier = before.waits_for(life.record);
    for record in now.into_iter().filter(|record| !earlier.contains(record)) {
        let place = after.place(record);
        life.waits.push(Wait {
            place,
            record,
            from: turn,
            until: None,
        });
    }
}

fn stands_on(party: Party) -> Option<u8> {
    match party {
        Party::Loading { at, .. }
        | Party::Searching { at }
        | Party::Walking { at, .. }
        | Party::Clearing { at, .. } => Some(at),
        Party::Idle | Party::Holding { .. } | Party::LookedUp { .. } | Party::Written { .. } => {
            None
        }
    }
}

#[cfg(test)]
mod tests {
    use super::*;
    use crate::command::{Command, Kind};
    use crate::run::Settings;

    fn command(kind: Kind, chute: u16) -> Command {
        Command {
            kind,
            key: 0,
            chute,
        }
    }

    fn input(size: u8, workers: u8, commands: Vec<Command>, schedule: &[u8]) -> Input {
        let settings = Settings {
            size,
            workers,
            room: 4,
        };
        Input {
            settings,
            commands,
            schedule: schedule.to_vec(),
        }
    }

    fn trace(size: u8, workers: u8, commands: Vec<Command>, schedule: &[u8]) -> Trace {
        let input = input(size, workers, commands, schedule);
        Trace::of(&input, [1, schedule.len()])
    }

    /// Document 01, the program's example.
    fn example_input() -> Input {
        let commands = vec![command(Kind::Insert, 7), command(Kind::Read, 0)];
        input(2, 1, commands, &[[0; 5].as_slice(), &[1; 14]].concat())
    }

    fn example() -> Trace {
        Trace::of(&example_input(), [1, 19])
    }

    #[test]
    fn the_lives_of_the_example_are_those_of_its_turns() {
        let wait = Wait {
            place: 1,
            record: 1,
            from: 4,
            until: Some(12),
        };
        let first = Life {
            record: 1,
            loaded: 1,
            linked: Some(2),
            waits: vec![],
            taken: Some((7, 1)),
            written: Some((9, 1000)),
            entries: 1,
            removed: Some(13),
        };
        let second = Life {
            record: 2,
            loaded: 3,
            linked: Some(5),
            waits: vec![wait],
            taken: Some((15, 1)),
            written: Some((16, 7)),
            entries: 1,
            removed: Some(19),
        };
        assert_eq!(example().lives, [first, second]);
    }

    #[test]
    fn the_phases_of_a_record_follow_one_another() {
        let spans = example().spans(|frame| frame.phase(2));
        let phases: Vec<(Phase, usize)> =
            spans.iter().map(|span| (span.value, span.first)).collect();
        let expected = [
            (Phase::Unused, 1),
            (Phase::Loading, 3),
            (Phase::Waiting, 5),
            (Phase::Ready, 12),
            (Phase::Executing(1), 15),
            (Phase::Clearing(1), 18),
            (Phase::Unused, 19),
        ];
        assert_eq!(phases, expected);
        assert!(
            spans
                .windows(2)
                .all(|pair| pair[0].last + 1 == pair[1].first)
        );
    }

    /// Document 02, A.8: a read is written in the turn after the one that took it, and a command
    /// of another kind in the turn after that; no turn but these writes.
    #[test]
    fn a_read_is_written_a_turn_sooner_than_other_kinds() {
        for kind in Kind::ALL {
            let chute = match kind {
                Kind::Insert | Kind::Update | Kind::Workers => 7,
                Kind::Delete | Kind::Read | Kind::Checkpoint => 0,
            };
            let trace = trace(1, 1, vec![command(kind, chute)], &[0, 0, 1, 1, 1, 1, 1]);
            let wrote = |turn: &Turn| matches!(turn.outcome, Outcome::Wrote { .. });
            let writing: Vec<bool> = trace.turns.iter().map(wrote).collect();
            let sooner = kind == Kind::Read;
            assert_eq!(writing[..4], [false; 4]);
            assert_eq!(writing[4..], [sooner, !sooner, false], "{kind:?}");
            let answer = match kind {
                Kind::Insert | Kind::Workers | Kind::Checkpoint => 1000,
                Kind::Delete | Kind::Read | Kind::Update => 1002,
            };
            let turn = if sooner { 5 } else { 6 };
            assert_eq!(trace.lives[0].taken, Some((4, 1)));
            assert_eq!(trace.lives[0].written, Some((turn, answer)), "{kind:?}");
        }
    }

    /// Each reason for a wait, in the order of the turns.
    #[test]
    fn each_wait_has_its_reason() {
        let commands = vec![command(Kind::Insert, 7), command(Kind::Read, 0)];
        let reasons = |size, schedule: &[u8]| -> Vec<Reason> {
            let turns = trace(size, 2, commands.clone(), schedule).turns;
            let reason = |turn: Turn| match turn.outcome {
                Outcome::Wait(reason) => Some(reason),
                _ => None,
            };
            turns.into_iter().filter_map(reason).collect()
        };
        assert_eq!(
            reasons(1, &[0, 1, 0, 0]),
            [Reason::Locked(0), Reason::NoRecordFree]
        );
        assert_eq!(reasons(2, &[0, 0, 1, 0]), [Reason::Locked(0)]);
        assert_eq!(
            reasons(2, &[0, 0, 0, 0, 1, 1, 0, 0]),
            [Reason::Locked(1), Reason::EveryCommandLoaded]
        );
    }

    /// Document 02, A.2: worker 2 is above the count from the writing turn, 6, on. Its searching
    /// turn is no wait, and its idle ones are, whether the head is locked (turn 9) or not.
    #[test]
    fn a_worker_above_the_count_in_force_waits_when_idle() {
        let commands = vec![command(Kind::Workers, 1)];
        let trace = trace(1, 2, commands, &[0, 0, 1, 1, 1, 1, 2, 1, 2, 1, 1, 2]);
        let counts: Vec<u16> = trace.frames.iter().map(|frame| frame.in_force).collect();
        assert_eq!(counts[..6], [2; 6]);
        assert_eq!(counts[6..], [1; 7]);
        let not_allowed = |turn: &Turn| turn.outcome == Outcome::Wait(Reason::NotAllowed);
        let waits: Vec<bool> = trace.turns.iter().map(not_allowed).collect();
        let turns: Vec<usize> = (1..=12).filter(|turn| waits[turn - 1]).collect();
        assert_eq!(turns, [7, 9, 12]);
        assert_eq!(trace.lives[0].removed, Some(11));
    }

    /// Some turns of the example: they and what stands after them are those of the whole, and lives
    /// are told as far as the last of them.
    #[test]
    fn some_turns_are_those_of_the_whole() {
        let whole = example();
        let some = Trace::of(&example_input(), [9, 12]);
        assert_eq!(some.turns, whole.turns[8..12]);
        assert_eq!([some.first, some.last()], [9, 12]);
        for turn in 9..=12 {
            assert_eq!(some.turn(turn), whole.turns[turn - 1]);
            assert_eq!(some.frame(turn).parties, whole.frames[turn].parties);
            assert_eq!(some.frame(turn).records, whole.frames[turn].records);
        }
        assert_eq!(some.frames[0].parties, whole.frames[8].parties);
        let spans = some.spans(|frame| frame.phase(2));
        let phases: Vec<(Phase, usize, usize)> = spans
            .iter()
            .map(|span| (span.value, span.first, span.last))
            .collect();
        assert_eq!(phases, [(Phase::Waiting, 9, 11), (Phase::Ready, 12, 12)]);
        let first = Life {
            removed: None,
            ..whole.lives[0].clone()
        };
        let second = Life {
            taken: None,
            written: None,
            entries: 0,
            removed: None,
            ..whole.lives[1].clone()
        };
        assert_eq!(some.lives, [first, second]);
        assert_eq!(some.answer_shown(&some.lives[0]), Some((9, 1000)));
        let later = Trace::of(&example_input(), [14, 19]);
        assert_eq!(later.records_used(), [2]);
        assert_eq!(later.answer_shown(&later.lives[0]), None);
    }

    #[test]
    fn a_lock_names_the_party_that_stands_there() {
        let trace = example();
        assert_eq!(trace.frames[4].locked_by(1), Some(0));
        assert_eq!(trace.frames[4].locked_by(0), None);
        assert_eq!(trace.frames[12].locked_by(2), Some(1));
        assert_eq!(trace.frames[4].waits_for(2), [1]);
    }
}
