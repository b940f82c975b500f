//! Plain round-robin from every state of a search and from every party: that it finishes, and after
//! how many turns. No document promises it; docs/HOSTING.md says that it was tried.

/// Where each party's turn leads from each state, by the states' numbers.
#[derive(Default)]
pub struct Turns {
    parties: usize,
    next: Vec<u32>,
}

/// What is not known yet, and what is on the way that is being followed.
const UNKNOWN: u32 = u32::MAX;
const ON_THE_WAY: u32 = u32::MAX - 1;

impl Turns {
    pub fn of(parties: usize) -> Turns {
        Turns {
            parties,
            next: Vec::new(),
        }
    }

    /// Notes where a party's turn leads from a state.
    pub fn note(&mut self, state: usize, party: u8, to: usize) {
        let least = (state + 1) * self.parties;
        if self.next.len() < least {
            self.next.resize(least, UNKNOWN);
        }
        self.next[state * self.parties + usize::from(party)] = to as u32;
    }

    /// The most turns that round-robin takes to a finished state, from any state and any party on.
    /// It panics where it never gets there.
    pub fn most_to_a_finish(&self, finished: &[usize]) -> u32 {
        let mut left = vec![UNKNOWN; self.next.len()];
        for state in finished {
            left[state * self.parties..][..self.parties].fill(0);
        }
        for from in 0..left.len() {
            self.follow(from, &mut left);
        }
        left.into_iter().max().unwrap_or(0)
    }

    /// Follows the turns from a state and a party to where the number of turns left is known, and
    /// enters it on the way.
    fn follow(&self, from: usize, left: &mut [u32]) {
        let mut way = Vec::new();
        let mut at = from;
        while left[at] == UNKNOWN {
            left[at] = ON_THE_WAY;
            way.push(at);
            let party = (at % self.parties + 1) % self.parties;
            at = self.next[at] as usize * self.parties + party;
        }
        assert_ne!(left[at], ON_THE_WAY, "round-robin never finishes");
        let mut turns = left[at];
        for at in way.into_iter().rev() {
            turns += 1;
            left[at] = turns;
        }
    }
}

/// A state that leads to itself never finishes, one beside a finished one does.
#[test]
fn a_circle_is_noticed() {
    let mut turns = Turns::of(2);
    for (state, party, to) in [(0, 0, 0), (0, 1, 1), (1, 0, 1), (1, 1, 1)] {
        turns.note(state, party, to);
    }
    assert_eq!(turns.most_to_a_finish(&[1]), 2);
    turns.note(0, 1, 0);
    assert!(std::panic::catch_unwind(|| turns.most_to_a_finish(&[1])).is_err());
}
