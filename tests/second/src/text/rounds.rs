//! A list with the round of each command beside it, for `depot_text rounds`, and what the rounds of
//! a list tell. Document 02, A.9: planners want to see how far more workers could help.

use super::{count, show_command};
use crate::command::Command;
use crate::rounds::{count_of, rounds_of};

/// Shows a list that `read_list` reads again: the round of each command is a comment behind it, and
/// the last line, a comment too, says what the rounds tell.
pub fn show(commands: &[Command]) -> String {
    let rounds = rounds_of(commands);
    let numbered = commands.iter().enumerate();
    let lines: Vec<String> = numbered
        .map(|(index, command)| format!("{} {}", index + 1, show_command(command)))
        .collect();
    let longest = lines.iter().map(String::len).max().unwrap_or(0);
    let mut text = String::new();
    for (line, round) in lines.iter().zip(&rounds) {
        text += &format!("{line:longest$} # round {round}\n");
    }
    text + &format!("# {}\n", told(&rounds))
}

/// What the rounds of a list tell: how many there are, and how many commands share one. That many
/// workers, and no more, can have a command of one round at the same time.
pub fn told(rounds: &[u16]) -> String {
    let words = format!(
        "{} in {}",
        count(rounds.len(), "command"),
        count(count_of(rounds) as usize, "round")
    );
    match most_in_one(rounds) {
        0 => words,
        most => {
            let workers = count(most, "worker");
            format!("{words}, at most {most} in one: no round has work for more than {workers}")
        }
    }
}

/// The largest number of commands that have the same round.
fn most_in_one(rounds: &[u16]) -> usize {
    let mut sizes = vec![0; count_of(rounds) as usize + 1];
    for round in rounds {
        sizes[usize::from(*round)] += 1;
    }
    sizes.into_iter().max().unwrap_or(0)
}

#[cfg(test)]
mod tests {
    use super::*;
    use crate::random::Random;
    use crate::text::read_list;
    use crate::text::tests::random_command;

    fn shown(list: &str) -> String {
        show(&read_list(list.as_bytes()).unwrap())
    }

    /// Document 02, A.5: the second insert waits for the first, and the read of the first's item
    /// passes it.
    #[test]
    fn each_round_stands_behind_its_command() {
        let list = "insert RR473124829GB 3 # a first one\n\n2 insert AA000000005AA 12\n\
                    read RR473124829GB\nread RR473124829GB\ncheckpoint\nworkers 2\n";
        let expected = "\
1 insert RR473124829GB 3  # round 1
2 insert AA000000005AA 12 # round 2
3 read RR473124829GB      # round 2
4 read RR473124829GB      # round 2
5 checkpoint              # round 3
6 workers 2               # round 4
# 6 commands in 4 rounds, at most 3 in one: no round has work for more than 3 workers
";
        assert_eq!(shown(list), expected);
    }

    #[test]
    fn lists_of_no_command_and_of_one_are_told() {
        assert_eq!(shown(""), "# 0 commands in 0 rounds\n");
        let words =
            "1 command in 1 round, at most 1 in one: no round has work for more than 1 worker";
        assert_eq!(
            shown("checkpoint"),
            format!("1 checkpoint # round 1\n# {words}\n")
        );
    }

    /// What is shown is read as the list that it shows, and shown in the same way again.
    #[test]
    fn what_is_shown_is_read_again() {
        let random = &mut Random::new(11);
        for length in (0..60).chain([999, 1000]) {
            let commands: Vec<Command> = (0..length).map(|_| random_command(random)).collect();
            let text = show(&commands);
            assert_eq!(read_list(text.as_bytes()).unwrap(), commands);
            assert_eq!(shown(&text), text);
        }
    }

    /// The two ends: commands that all stand in one round, and commands that have one each.
    #[test]
    fn full_lists_of_one_round_and_of_as_many_as_commands_are_told() {
        for (line, words) in [
            (
                "read AA000000005AA\n",
                "4096 commands in 1 round, at most 4096 in one: no round has work for more than \
                 4096 workers",
            ),
            (
                "update AA000000005AA 1\n",
                "4096 commands in 4096 rounds, at most 1 in one: no round has work for more than \
                 1 worker",
            ),
        ] {
            let text = shown(&line.repeat(4096));
            assert_eq!(text.lines().last(), Some(&format!("# {words}")[..]));
            assert_eq!(text.lines().count(), 4097);
        }
    }
}
