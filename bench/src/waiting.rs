//! How long reads wait: from the step in which the loader links one to the step that writes its
//! answer.

use second::command::Kind;
use second::run::{Party, Run};

#[derive(Default)]
pub struct Waiting {
    /// The step that linked each command, by its place.
    linked: Vec<usize>,
    /// The reads that were answered, and their steps added up.
    reads: usize,
    steps: usize,
}

impl Waiting {
    /// Notes a step of a party: how it stood before, and the run after it.
    pub fn note(&mut self, step: usize, before: Party, run: &Run, party: u8) {
        let place = |own: u8| usize::from(run.records.place[usize::from(own)]);
        match (before, run.parties[usize::from(party)]) {
            (Party::Loading { own, .. }, Party::Idle) => {
                self.linked.resize(place(own) + 1, 0);
                self.linked[place(own)] = step;
            }
            (Party::Holding { .. } | Party::LookedUp { .. }, Party::Written { own })
                if run.command(own).is_some_and(|it| it.kind == Kind::Read) =>
            {
                self.reads += 1;
                self.steps += step - self.linked[place(own)];
            }
            _ => {}
        }
    }

    /// The mean of all reads that were answered, if there is one.
    pub fn mean(&self) -> Option<f64> {
        (self.reads > 0).then(|| self.steps as f64 / self.reads as f64)
    }
}
