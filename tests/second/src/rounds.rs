//! The rounds of document 02's A.9.
//!
//! "Dependent commands stand in different rounds, the earlier delivered in the earlier round. No
//! assignment keeping this rule uses fewer rounds, and none puts any command in an earlier one." So
//! every command begins in round 1, and is put later for as long as a pair breaks the rule.

use crate::command::{Command, dependent};

/// The round of each command, from 1, by going over all pairs until none breaks the rule.
pub fn rounds_of(commands: &[Command]) -> Vec<u16> {
    let mut rounds = vec![1; commands.len()];
    while relax(commands, &mut rounds) {}
    rounds
}

/// How many rounds there are, 0 for an empty list.
pub fn count_of(rounds: &[u16]) -> u64 {
    rounds.iter().copied().max().unwrap_or(0).into()
}

/// Puts the later of each dependent pair behind the earlier one; whether that changed anything.
fn relax(commands: &[Command], rounds: &mut [u16]) -> bool {
    let mut changed = false;
    for (later, command) in commands.iter().enumerate() {
        for earlier in 0..later {
            if rounds[later] <= rounds[earlier] && dependent(&commands[earlier], command) {
                rounds[later] = rounds[earlier] + 1;
                changed = true;
            }
        }
    }
    changed
}

#[cfg(test)]
mod tests {
    use super::*;
    use crate::command::Kind;

    fn item(kind: Kind, key: u64) -> Command {
        Command {
            kind,
            key,
            chute: u16::from(kind.carries_chute()),
        }
    }

    fn assert_rounds(commands: &[Command], rounds: &[u16]) {
        let count = rounds.iter().max().map_or(0, |it| u64::from(*it));
        assert_eq!(rounds_of(commands), rounds, "{commands:?}");
        assert_eq!(count_of(rounds), count);
    }

    /// "the number of rounds, 0 for an empty list".
    #[test]
    fn an_empty_list_has_no_round() {
        assert_rounds(&[], &[]);
    }

    /// Document 01, marked cases (f) and (g), and (h) as A.5 has it.
    #[test]
    fn the_marked_pairs() {
        let [read, update, insert] = [Kind::Read, Kind::Update, Kind::Insert];
        assert_rounds(&[item(read, 5), item(read, 5)], &[1, 1]);
        assert_rounds(&[item(update, 5), item(read, 5)], &[1, 2]);
        assert_rounds(&[item(insert, 5), item(read, 6)], &[1, 1]);
        assert_rounds(&[item(insert, 5), item(read, 5)], &[1, 2]);
    }

    /// A later command may stand in an earlier round, and what lies between changes nothing.
    #[test]
    fn a_list_in_which_rounds_go_back() {
        let commands = [
            item(Kind::Insert, 5),
            item(Kind::Update, 5),
            item(Kind::Read, 0),
            item(Kind::Update, 5),
            item(Kind::Delete, 0),
            item(Kind::Read, 6),
        ];
        assert_rounds(&commands, &[1, 2, 1, 3, 2, 1]);
    }

    /// A.2 and A.3: kinds 5 and 6 stand behind all that is before them, and before all behind.
    #[test]
    fn a_worker_change_and_a_checkpoint_part_the_list() {
        let commands = [
            item(Kind::Read, 0),
            item(Kind::Update, 5),
            item(Kind::Update, 5),
            Command::CHECKPOINT,
            item(Kind::Read, 6),
            Command::workers(1),
            item(Kind::Read, 0),
        ];
        assert_rounds(&commands, &[1, 1, 2, 3, 4, 5, 6]);
    }

    /// As many rounds as commands, in two bytes each, and one round for all.
    #[test]
    fn the_longest_lists() {
        let rounds: Vec<u16> = (1..=4096).collect();
        assert_rounds(&[item(Kind::Update, 0); 4096], &rounds);
        assert_rounds(&[item(Kind::Read, 0); 4096], &[1; 4096]);
        let others: Vec<Command> = (0..4096).map(|it| item(Kind::Update, it * 4096)).collect();
        assert_rounds(&others, &[1; 4096]);
    }
}
