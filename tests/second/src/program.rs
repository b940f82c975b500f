//! What the program `depot` prints, as a function of the bytes that it reads.

use std::fmt::Write;

use crate::run::Run;
use crate::text::input::Input;
use crate::text::{identifier_text, kind_name};

pub fn output(input: &[u8]) -> String {
    match Input::read(input) {
        Ok(input) => report(&run(input)),
        Err(refused) => format!("refused {}\n", refused.refusal.number()),
    }
}

fn run(input: Input) -> Run {
    let mut run = Run::open(input.settings, input.commands);
    run.advance(&input.schedule);
    run
}

fn report(run: &Run) -> String {
    let mut lines = String::new();
    for (index, (command, answer)) in run.commands.iter().zip(&run.answers).enumerate() {
        let kind = kind_name(command.kind);
        let text = identifier_text(command);
        writeln!(lines, "{} {kind} {text} {answer}", index + 1).expect("a string takes all");
    }
    writeln!(
        lines,
        "store {} chain {}",
        run.store.used,
        run.chain().count()
    )
    .expect("a string takes all");
    lines
}

#[cfg(test)]
mod tests {
    use super::*;
    use crate::command::encode;
    use crate::identifier::NONE;
    use crate::run::Settings;
    use crate::text::input::{self, EXAMPLE};

    const ITEM: &[u8; 13] = b"AA000000005AA";
    const WHOLE: &str = "1 insert AA000000005AA 1000\n2 read AA000000005AA 7\nstore 1 chain 0\n";

    /// What is printed of these commands and turns, with records for all commands, one worker and
    /// room for one item.
    fn printed(commands: &[Vec<u8>], schedule: &[u8]) -> String {
        let settings = Settings {
            size: commands.len() as u8,
            workers: 1,
            room: 1,
        };
        output(&input::encode(settings, &commands.concat(), schedule))
    }

    /// Asserts the refusal's number for a command in the example with one byte changed.
    fn assert_refused(command: &[u8], changes: &[(usize, u8, u8)]) {
        for (position, byte, number) in changes {
            let mut input = EXAMPLE.to_vec();
            input[6..22].copy_from_slice(command);
            input[6 + position] = *byte;
            assert_eq!(output(&input), format!("refused {number}\n"));
        }
    }

    /// Document 01, marked case (k).
    #[test]
    fn the_example_s_output_is_whole() {
        assert_eq!(output(EXAMPLE), WHOLE);
    }

    /// The fifteenth byte 1 that document 01 has more than A.8 needs begins a search, of which
    /// nothing is printed.
    #[test]
    fn the_example_s_output_with_15_turns_of_the_worker_is_the_same() {
        assert_eq!(output(&[&EXAMPLE[..], &[1]].concat()), WHOLE);
    }

    /// Document 01, marked case (l).
    #[test]
    fn the_example_s_output_after_9_turns() {
        assert_eq!(
            output(&EXAMPLE[..47]),
            "1 insert AA000000005AA 1000\n2 read AA000000005AA 0\nstore 1 chain 2\n"
        );
    }

    /// Document 02, A.7: an item that is announced again in a full store, and read.
    #[test]
    fn an_item_announced_again_is_printed_with_1004() {
        let parts = [encode(1, ITEM, 7), encode(1, ITEM, 8), encode(3, ITEM, 0)];
        let schedule = [[0; 9].as_slice(), &[1; 30]].concat();
        assert_eq!(
            printed(&parts, &schedule),
            "1 insert AA000000005AA 1000\n2 insert AA000000005AA 1004\n3 read AA000000005AA 8\n\
             store 1 chain 0\n"
        );
    }

    /// Document 02, A.2: the kind is printed as `workers`, its thirteen characters as they stand;
    /// party 2, which only the list's count allows, serves the command after it.
    #[test]
    fn a_worker_change_is_printed() {
        let [insert, read] = [encode(1, ITEM, 7), encode(3, ITEM, 0)];
        let parts = [insert, encode(5, &NONE, 2), read, encode(5, &NONE, 1)];
        let schedule = [[2; 3].as_slice(), &[0; 14], &[1; 19], &[2; 7], &[1; 7]].concat();
        assert_eq!(
            printed(&parts, &schedule),
            "1 insert AA000000005AA 1000\n2 workers 0000000000000 1000\n\
             3 read AA000000005AA 7\n4 workers 0000000000000 1000\nstore 1 chain 0\n"
        );
        assert_eq!(
            printed(&parts, &[]),
            "1 insert AA000000005AA 0\n2 workers 0000000000000 0\n\
             3 read AA000000005AA 0\n4 workers 0000000000000 0\nstore 0 chain 0\n"
        );
        assert_eq!(printed(&parts, &[2]).lines().count(), 5);
        assert_eq!(printed(&parts, &[3]), "refused 11\n");
    }

    /// Document 02, A.3: the kind is printed as `checkpoint`, its thirteen characters as they stand,
    /// and nothing of the image.
    #[test]
    fn a_checkpoint_is_printed() {
        let [insert, read] = [encode(1, ITEM, 7), encode(3, ITEM, 0)];
        let checkpoint = encode(6, &NONE, 0);
        let parts = [insert, checkpoint.clone(), read, checkpoint.clone()];
        let schedule = [[0; 14].as_slice(), &[1; 40]].concat();
        assert_eq!(
            printed(&parts, &schedule),
            "1 insert AA000000005AA 1000\n2 checkpoint 0000000000000 1000\n\
             3 read AA000000005AA 7\n4 checkpoint 0000000000000 1000\nstore 1 chain 0\n"
        );
        let changes = [(1, b'A', 8), (13, b'1', 8), (14, 1, 10), (15, 1, 10)];
        assert_refused(&checkpoint, &changes);
    }

    /// A.2: the number alone, of 8 at any character and of 14.
    #[test]
    fn a_refused_worker_change_prints_its_number() {
        let changes = [(1, b'1', 8), (7, b'A', 8), (13, 0, 8), (15, 65, 14)];
        assert_refused(&encode(5, &NONE, 1), &changes);
    }

    /// Document 02, A.1: the number alone is printed, as before.
    #[test]
    fn a_faulty_identifier_prints_its_number_alone() {
        let changes = [(2, b'a', 8), (3, b'x', 13), (11, b'4', 9)];
        assert_refused(&EXAMPLE[6..22], &changes);
    }

    /// Document 01, "The program `depot`": the order of its tests.
    #[test]
    fn refusals_are_tested_in_order() {
        let mut input = EXAMPLE.to_vec();
        input.push(2);
        assert_eq!(output(&input), "refused 11\n");
        input[6] = 7;
        assert_eq!(output(&input), "refused 7\n");
        input[0] = 151;
        assert_eq!(output(&input), "refused 1\n");
        assert_eq!(output(&input[..37]), "refused 4\n");
        assert_eq!(output(&input[..5]), "refused 4\n");
        input.resize(65_537, 0);
        assert_eq!(output(&input), "refused 5\n");
        assert_eq!(output(&input[..65_536]), "refused 1\n");
    }
}
