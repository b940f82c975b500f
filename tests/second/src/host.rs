//! A caller: the lists that it keeps between calls, each between guards.

use crate::bytes::{self, Lists};
use crate::calls::{Given, LentLists};
use crate::depot::Depot;
use crate::image;
use crate::run::Run;
use crate::script::{Dispatch, List, Plan, Step};
use crate::serial::Entries;

/// Stands on both sides of a list, so that a write past its ends is seen.
pub const GUARD: [u8; 16] = *b"guard lent list.";

/// The lists in the order of `List::ALL`, with their guards.
pub type Memory = [Vec<u8>; List::ALL.len()];

#[derive(Clone)]
pub struct Host {
    memory: Memory,
    /// What the store had at the last opening that was accepted.
    entries: Entries,
    /// Whether the lists are as that opening and calls behind it left them.
    reached: bool,
    kept: (Memory, Entries, bool),
}

impl Default for Host {
    fn default() -> Host {
        let memory = List::ALL.map(|_| guarded(&[]));
        Host {
            kept: (memory.clone(), Entries::new(), false),
            memory,
            entries: Entries::new(),
            reached: false,
        }
    }
}

impl Host {
    /// All lists with their guards.
    pub fn memory(&self) -> &Memory {
        &self.memory
    }

    pub fn list(&self, list: List) -> &[u8] {
        within(&self.memory[list as usize])
    }

    /// What the store had at the last opening that was accepted.
    pub fn entries(&self) -> &Entries {
        &self.entries
    }

    /// Whether nothing but calls changed the lists since that opening, so that dealings reach them.
    pub fn is_reached(&self) -> bool {
        self.reached
    }

    /// The lists of the run but its image.
    pub fn lists(&self) -> Lists<'_> {
        let [state, keys, chutes, answers, _, commands, ..] =
            self.memory.each_ref().map(|it| within(it));
        Lists {
            state,
            keys,
            chutes,
            answers,
            commands,
        }
    }

    /// The run that the lists hold, if they hold one.
    pub fn run(&self) -> Option<Run> {
        bytes::read(self.lists()).ok()
    }

    /// Takes a step; the answer of a call, 0 of another step.
    pub fn take(&mut self, depot: &dyn Depot, step: &Step) -> u64 {
        if matches!(step, Step::Lend(_) | Step::Change { .. } | Step::Resize(..)) {
            self.reached = false;
        }
        match step {
            Step::Lend(lengths) => {
                for (list, length) in List::ALL.into_iter().zip(lengths) {
                    self.put(list, &filling(*length));
                }
            }
            Step::Change { list, offset, bits } => {
                if let Some(byte) = within_mut(&mut self.memory[*list as usize]).get_mut(*offset) {
                    *byte ^= bits;
                }
            }
            Step::Resize(list, length) => {
                let rest = filling(length.saturating_sub(self.list(*list).len()));
                let longer = [self.list(*list), &rest].concat();
                self.put(*list, &longer[..*length]);
            }
            Step::Keep => {
                self.kept = (self.memory.clone(), self.entries.clone(), self.reached);
            }
            Step::Restore => (self.memory, self.entries, self.reached) = self.kept.clone(),
            Step::Serial | Step::Unbroken(_) => {}
            Step::Program(input) => self.put(List::Out, &depot.program(input)),
            call => return self.call(depot, call),
        }
        0
    }

    /// Puts the commands in, and the image to open from where there is one, and opens.
    fn open(&mut self, depot: &dyn Depot, given: Given) -> u64 {
        self.put(List::Commands, given.commands);
        if let Some(source) = given.source {
            self.put(List::Source, source);
        }
        let (mut lent, commands, source) = self.lend();
        let kept = Given {
            commands,
            source: given.source.map(|_| source),
            settings: given.settings,
        };
        let answer = depot.open(&mut lent, kept);
        if answer == 0 {
            self.reached = true;
            let store = given.source.and_then(|source| image::read(source).ok());
            self.entries = store.map_or(Entries::new(), |store| store.entries().collect());
        }
        answer
    }

    fn call(&mut self, depot: &dyn Depot, step: &Step) -> u64 {
        match step {
            Step::Open(opening) => self.open(depot, opening.given()),
            Step::Advance(schedule) => {
                let (mut lent, commands, _) = self.lend();
                depot.advance(&mut lent, commands, schedule)
            }
            Step::Dispatch(dispatch) => self.dispatch(depot, *dispatch),
            Step::StepsNeeded(length) => {
                self.write_out(*length, |lists, out| depot.steps_needed(lists, out))
            }
            Step::PendingCounts(length) => {
                self.write_out(*length, |lists, out| depot.pending_counts(lists, out))
            }
            Step::WorkerStatus(length) => {
                self.write_out(*length, |lists, out| depot.worker_status(lists, out))
            }
            Step::ReadIdentifier(text, length) => {
                self.write_out(*length, |_, out| depot.read_identifier(text, out))
            }
            Step::WriteIdentifier(key, length) => {
                self.write_out(*length, |_, out| depot.write_identifier(*key, out))
            }
            Step::RoundsNeeded(plan) => self.plan(depot, plan),
            _ => 0,
        }
    }

    /// Lends the two lists that a dispatch needs besides, and dispatches.
    fn dispatch(&mut self, depot: &dyn Depot, dispatch: Dispatch) -> u64 {
        let mut schedule = guarded(&dispatch.contents());
        let mut count = guarded(&filling(dispatch.count));
        let (mut lent, commands, _) = self.lend();
        let answer = depot.dispatch(
            &mut lent,
            commands,
            within_mut(&mut schedule),
            within_mut(&mut count),
        );
        self.memory[List::Schedule as usize] = schedule;
        self.memory[List::Out as usize] = count;
        answer
    }

    /// Puts the commands in, lends the two lists, and asks for the rounds.
    fn plan(&mut self, depot: &dyn Depot, plan: &Plan) -> u64 {
        let [rounds, count] = plan.contents();
        self.put(List::Planned, &plan.commands);
        self.put(List::Rounds, &rounds);
        self.put(List::Out, &count);
        let [.., planned, rounds, out] = self.memory.each_mut().map(|it| within_mut(it));
        depot.rounds_needed(planned, rounds, out)
    }

    /// Makes a call that is lent a list of this length to write.
    fn write_out(&mut self, length: usize, call: impl Fn(Lists, &mut [u8]) -> u64) -> u64 {
        let mut out = guarded(&filling(length));
        let answer = call(self.lists(), within_mut(&mut out));
        self.memory[List::Out as usize] = out;
        answer
    }

    fn put(&mut self, list: List, bytes: &[u8]) {
        self.memory[list as usize] = guarded(bytes);
    }

    /// What is lent to be written, the commands, and the image to open from.
    fn lend(&mut self) -> (LentLists<'_>, &[u8], &[u8]) {
        let [state, keys, chutes, answers, image, commands, source, ..] =
            self.memory.each_mut().map(|it| within_mut(it));
        let lent = LentLists {
            state,
            keys,
            chutes,
            answers,
            image,
        };
        (lent, commands, source)
    }
}

fn guarded(bytes: &[u8]) -> Vec<u8> {
    [&GUARD, bytes, &GUARD].concat()
}

fn within(memory: &[u8]) -> &[u8] {
    &memory[GUARD.len()..memory.len() - GUARD.len()]
}

fn within_mut(memory: &mut [u8]) -> &mut [u8] {
    let end = memory.len() - GUARD.len();
    &mut memory[GUARD.len()..end]
}

/// Bytes none of which is 0, so that an untouched list is told from a cleared one.
pub fn filling(length: usize) -> Vec<u8> {
    let block: Vec<u8> = (1..=u8::MAX).collect();
    let mut bytes = block.repeat(length / block.len() + 1);
    bytes.truncate(length);
    bytes
}
