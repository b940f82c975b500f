//! The lists that a caller keeps of a run on one side, and the comparison of two sides.

use std::hint::black_box;

use second::bytes;
use second::calls::{Given, LentLists};
use second::depot::Depot;
use second::image;
use second::run::Run;

use crate::input::Input;

#[derive(Clone, PartialEq, Eq)]
pub struct Lists {
    pub state: Vec<u8>,
    pub keys: Vec<u8>,
    pub chutes: Vec<u8>,
    pub answers: Vec<u8>,
    pub image: Vec<u8>,
}

impl Lists {
    /// Lists for an input's run, opened by one side.
    pub fn opened(depot: &impl Depot, input: &Input) -> Result<Lists, String> {
        let room = usize::from(input.settings.room);
        let mut lists = Lists {
            state: vec![0; bytes::STATE],
            keys: vec![0; room * bytes::KEY],
            chutes: vec![0; room * bytes::NUMBER],
            answers: vec![0; input.count() * bytes::NUMBER],
            image: image::zeros(input.settings.room),
        };
        accepted("open", lists.open(depot, input))?;
        Ok(lists)
    }

    pub fn open(&mut self, depot: &impl Depot, input: &Input) -> u64 {
        self.open_with(depot, input, None)
    }

    /// Opens with the store of an image.
    pub fn open_from(&mut self, depot: &impl Depot, input: &Input, source: &[u8]) -> u64 {
        self.open_with(depot, input, Some(source))
    }

    fn open_with(&mut self, depot: &impl Depot, input: &Input, source: Option<&[u8]>) -> u64 {
        let given = Given {
            commands: black_box(&input.commands),
            source: black_box(source),
            settings: input.asked(),
        };
        depot.open(&mut self.lend(), given)
    }

    pub fn advance(
        &mut self,
        depot: &(impl Depot + ?Sized),
        input: &Input,
        schedule: &[u8],
    ) -> u64 {
        depot.advance(
            &mut self.lend(),
            black_box(&input.commands),
            black_box(schedule),
        )
    }

    /// How long a list must be lent to a dispatch.
    pub fn steps_needed(&self, depot: &impl Depot, input: &Input) -> Result<usize, String> {
        let lists = bytes::Lists {
            state: &self.state,
            keys: &self.keys,
            chutes: &self.chutes,
            answers: &self.answers,
            commands: &input.commands,
        };
        let mut count = [0; 8];
        accepted("steps_needed", depot.steps_needed(lists, &mut count))?;
        Ok(u64::from_be_bytes(count) as usize)
    }

    /// Dispatches, and gives the number of turns.
    pub fn dispatch(
        &mut self,
        depot: &impl Depot,
        input: &Input,
        lent: &mut [u8],
    ) -> Result<usize, String> {
        let mut count = [0; 8];
        let commands = black_box(&input.commands);
        let answer = depot.dispatch(&mut self.lend(), commands, lent, &mut count);
        accepted("dispatch", answer)?;
        Ok(u64::from_be_bytes(count) as usize)
    }

    /// An error unless these are the lists of a plain run.
    pub fn same_as(&self, run: &Run) -> Result<(), String> {
        let mut state = vec![0; bytes::STATE];
        bytes::write_state(run, &mut state);
        let bytes_of = |numbers: &[u16]| -> Vec<u8> {
            numbers.iter().flat_map(|it| it.to_be_bytes()).collect()
        };
        let keys: Vec<u8> = run
            .store
            .keys
            .iter()
            .flat_map(|it| it.to_be_bytes())
            .collect();
        if state != self.state
            || keys != self.keys
            || bytes_of(&run.store.chutes) != self.chutes
            || bytes_of(&run.answers) != self.answers
        {
            return Err("the plain run kept as arrays differs".to_string());
        }
        Ok(())
    }

    /// Sets every byte.
    pub fn fill(&mut self, byte: u8) {
        let lent = self.lend();
        let lists = [lent.state, lent.keys, lent.chutes, lent.answers, lent.image];
        for list in lists {
            list.fill(byte);
        }
    }

    fn lend(&mut self) -> LentLists<'_> {
        LentLists {
            state: &mut self.state,
            keys: &mut self.keys,
            chutes: &mut self.chutes,
            answers: &mut self.answers,
            image: &mut self.image,
        }
    }
}

/// An error unless a call's answer is 0.
pub fn accepted(call: &str, answer: u64) -> Result<(), String> {
    match answer {
        0 => Ok(()),
        refused => Err(format!("{call}: refused, answer {refused}")),
    }
}

/// An error that names the first list in which the two sides differ, and where.
pub fn same(proved: &Lists, plain: &Lists) -> Result<(), String> {
    let pairs = [
        ("state", &proved.state, &plain.state),
        ("keys", &proved.keys, &plain.keys),
        ("chutes", &proved.chutes, &plain.chutes),
        ("answers", &proved.answers, &plain.answers),
        ("image", &proved.image, &plain.image),
    ];
    same_bytes(&pairs)
}

/// An error that names the first of some lists in which two sides differ, and where.
pub fn same_bytes(pairs: &[(&str, &Vec<u8>, &Vec<u8>)]) -> Result<(), String> {
    for (name, proved, plain) in pairs {
        if proved != plain {
            let at = proved.iter().zip(*plain).position(|(a, b)| a != b);
            return Err(format!("{name}: the two sides differ, first at {at:?}"));
        }
    }
    Ok(())
}

#[cfg(test)]
mod tests {
    use super::*;
    use crate::input::{Kinds, Order};
    use second::depot::Second;
    use second::run::Settings;

    fn lists() -> Lists {
        Lists {
            state: vec![1; 4],
            keys: vec![2; 8],
            chutes: vec![3; 2],
            answers: vec![4; 2],
            image: vec![5; 3],
        }
    }

    #[test]
    fn equal_lists_are_the_same() {
        assert_eq!(same(&lists(), &lists()), Ok(()));
    }

    #[test]
    fn a_difference_in_each_list_is_found() {
        let changes: [fn(&mut Lists); 5] = [
            |it| it.state[3] = 0,
            |it| it.keys[7] = 0,
            |it| it.chutes[1] = 0,
            |it| it.answers[1] = 0,
            |it| it.image[2] = 0,
        ];
        for change in changes {
            let mut other = lists();
            change(&mut other);
            assert!(same(&lists(), &other).is_err());
            assert!(same(&other, &lists()).is_err());
        }
    }

    /// Of a plain run kept as arrays: its turns, store and answers.
    #[test]
    fn a_plain_run_that_differs_is_found() {
        let settings = Settings {
            size: 2,
            workers: 1,
            room: 3,
        };
        let input = Input::new(settings, Kinds::InsertsAndReads, 4, Order::Random, 0);
        let lists = Lists::opened(&Second, &input).expect("the list is accepted");
        assert_eq!(lists.same_as(&input.opened()), Ok(()));
        let changes: [fn(&mut Run); 4] = [
            |run| run.advance(&[0]),
            |run| run.store.keys[2] = 1,
            |run| run.store.chutes[2] = 1,
            |run| run.answers[3] = 1,
        ];
        for change in changes {
            let mut run = input.opened();
            change(&mut run);
            assert!(lists.same_as(&run).is_err());
        }
    }

    #[test]
    fn a_refusal_is_an_error() {
        assert!(accepted("open", 6).is_err());
    }
}
