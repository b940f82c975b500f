//! Runs `depot_text` and `depot_draw` as a person does: exit statuses, what is written to the
//! output and what is said on the error output.

use std::io::Write;
use std::process::{Command, Stdio};

use second::program;
use second::text::input::EXAMPLE;

const TEXT: &str = env!("CARGO_BIN_EXE_depot_text");
const DRAW: &str = env!("CARGO_BIN_EXE_depot_draw");
const LIST: &str = "insert AA000000005AA 7\nread AA000000005AA\n";
const SETTINGS: [&str; 7] = ["pack", "--size", "2", "--workers", "1", "--room", "4"];

/// The exit status, the output and the error output of a program.
fn run(program: &str, options: &[&str], input: &[u8]) -> (Option<i32>, Vec<u8>, String) {
    let mut child = Command::new(program)
        .args(options)
        .stdin(Stdio::piped())
        .stdout(Stdio::piped())
        .stderr(Stdio::piped())
        .spawn()
        .expect("the program starts");
    // A program that refuses its options ends before it reads.
    let _ = child.stdin.take().expect("a pipe").write_all(input);
    let output = child.wait_with_output().expect("the program ends");
    let words = String::from_utf8(output.stderr).expect("words");
    (output.status.code(), output.stdout, words)
}

#[test]
fn the_example_is_packed_unpacked_and_drawn() {
    let turns = ["--turns", "0 0 0 0 0 1 1 1 1 1 1 1 1 1 1 1 1 1 1"];
    let packed = run(TEXT, &[&SETTINGS[..], &turns].concat(), LIST.as_bytes());
    assert_eq!(packed, (Some(0), EXAMPLE.to_vec(), String::new()));
    let (status, list, words) = run(TEXT, &["unpack"], EXAMPLE);
    assert_eq!((status, words), (Some(0), String::new()));
    let list = String::from_utf8(list).unwrap();
    let commands = "\n1 insert AA000000005AA 7\n2 read AA000000005AA\n";
    assert!(list.ends_with(commands), "{list}");
    let (status, picture, words) = run(DRAW, &[], EXAMPLE);
    assert_eq!((status, words), (Some(0), String::new()));
    assert!(picture.starts_with(b"<svg ") && picture.ends_with(b"</svg>\n"));
}

/// The worked example of README.md: the picture that is kept is that of its list and turns, at the
/// end of which nothing is left in the chain. Command 3, a read, is answered between the look-up and
/// the writing of command 2, an insert of another item.
#[test]
fn the_worked_example_is_drawn_as_it_is_kept() {
    let (output, picture) = drawn_as_kept("wait", "2", &[]);
    assert!(output.ends_with("\nstore 2 chain 0\n"));
    for told in [
        "turn 44, worker 1: looked up",
        "turn 46, worker 2: looks up and answers command 3: chute 3",
        "turn 54, worker 1: answers command 2: done",
    ] {
        assert!(picture.contains(&format!(">{told}<")), "{told}");
    }
}

/// The example of a day with two shifts: worker 3, which only the first change allows, holds the
/// second and removes it above its count; worker 2 searches at its writing and takes nothing; both
/// rest then, and worker 1 alone takes what is left, a checkpoint last.
#[test]
fn the_example_with_shifts_is_drawn_as_it_is_kept() {
    let (output, picture) = drawn_as_kept("shifts", "1", &[]);
    assert_eq!(
        output,
        "1 insert RR473124829GB 1000\n2 workers 0000000000000 1000\n3 read RR473124829GB 3\n\
         4 insert AA000000005AA 1000\n5 read RR473124829GB 3\n6 workers 0000000000000 1000\n\
         7 read AA000000005AA 7\n8 update AA000000005AA 1000\n\
         9 checkpoint 0000000000000 1000\nstore 2 chain 0\n"
    );
    for told in [
        "turn 3, worker 2: waits, above the worker count 1",
        "turn 20, worker 1: answers command 2: done",
        "48 by worker 3",
        "69 by worker 3",
        "turn 75, worker 3: answers command 6: done",
        "turn 76, worker 2: searching, may take nothing",
        "turn 79, worker 2: waits, above the worker count 1",
        "turn 84, worker 3: becomes idle",
        "turn 85, worker 3: waits, above the worker count 1",
        "92 by worker 1",
        "100 by worker 1",
        "Worker count in force: 1 from the opening; 3 from turn 20; 1 from turn 75.",
        "turn 112, worker 1: answers command 9: done",
        "Image: zeros from the opening; place 9 and 2 entries from turn 112.",
    ] {
        assert!(picture.contains(&format!(">{told}<")), "{told}");
    }
}

/// Document 02, A.9, for a person: the list of the example is shown with its rounds as it is kept,
/// and what is shown is packed to the same bytes as the list.
#[test]
fn the_example_with_rounds_is_shown_as_it_is_kept() {
    let list = kept("rounds.txt");
    let shown = run(TEXT, &["rounds"], &list);
    assert_eq!(shown, (Some(0), kept("rounds.expected"), String::new()));
    let (status, packed, _) = run(TEXT, &SETTINGS, &shown.1);
    assert_eq!((status, packed.len()), (Some(0), 6 + 10 * 16));
    assert_eq!(packed, run(TEXT, &SETTINGS, &list).1);
    assert_eq!(run(TEXT, &["rounds"], &shown.1), shown);
}

/// Its picture: the three commands of the second round are taken before any of the third, though
/// command 3 stands before two of them in the list; and all of the third before the checkpoint.
#[test]
fn the_example_with_rounds_is_drawn_as_it_is_kept() {
    let (output, picture) = drawn_as_kept("rounds", "3", &["--rounds"]);
    assert_eq!(
        output,
        "1 insert RR473124829GB 1000\n2 insert AA000000005AA 1000\n\
         3 insert ZZ999999995ZZ 1000\n4 read RR473124829GB 3\n5 read RR473124829GB 3\n\
         6 update RR473124829GB 1000\n7 read AA000000005AA 7\n\
         8 checkpoint 0000000000000 1000\n9 read RR473124829GB 9\n\
         10 update AA000000005AA 1000\nstore 3 chain 0\n"
    );
    for told in [
        "3 insert ZZ999999995ZZ 5, round 3",
        "4 read RR473124829GB, round 2",
        "30 by worker 2",
        "42 by worker 3",
        "55 by worker 1",
        "76 by worker 2",
        "93 by worker 3",
        "100 by worker 1",
        "123 by worker 2",
        "round 5",
        "The round of a command is the first after those of the earlier ones that it must wait \
         for. 10 commands in 5 rounds, at most 3 in one: no round has work for more than 3 workers.",
    ] {
        assert!(picture.contains(&format!(">{told}<")), "{told}");
    }
}

/// Where the examples are kept.
const EXAMPLES: &str = concat!(env!("CARGO_MANIFEST_DIR"), "/../../examples");

fn kept(file: &str) -> Vec<u8> {
    std::fs::read(format!("{EXAMPLES}/{file}")).expect("the example's file")
}

/// Packs an example, which is kept with its picture, for so many workers and draws it with these
/// options: what the program prints, and the picture.
fn drawn_as_kept(name: &str, workers: &str, draw: &[&str]) -> (String, String) {
    let settings = ["pack", "--size", "5", "--workers", workers, "--room", "4"];
    let turns = format!("{EXAMPLES}/{name}.turns");
    let options = [&settings[..], &["--turns-file", &turns]].concat();
    let (_, packed, _) = run(TEXT, &options, &kept(&format!("{name}.txt")));
    let (_, picture, _) = run(DRAW, draw, &packed);
    let same = picture == kept(&format!("{name}.svg"));
    assert!(same, "depot_draw draws another picture");
    let picture = String::from_utf8(picture).expect("words");
    (program::output(&packed), picture)
}

/// Document 02, A.6, for a person: a list is packed without anyone writing turns, run to its end, and
/// drawn: worker 1 alone serves each command behind its loading.
#[test]
fn a_list_is_packed_with_the_turns_of_the_dispatcher() {
    let packed = run(
        TEXT,
        &[&SETTINGS[..], &["--dispatch"]].concat(),
        LIST.as_bytes(),
    );
    let turns = [[0, 0, 1, 1, 1, 1, 1, 1, 1].as_slice(), &[0, 0], &[1; 6]].concat();
    let input = [&EXAMPLE[..38], &turns].concat();
    assert_eq!(packed, (Some(0), input, String::new()));
    assert_eq!(
        program::output(&packed.1),
        "1 insert AA000000005AA 1000\n2 read AA000000005AA 7\nstore 1 chain 0\n"
    );
    let list = b"workers 2\ninsert AA000000005AA 7\nread AA000000005AA\ncheckpoint\n";
    let (_, packed, _) = run(TEXT, &[&SETTINGS[..], &["--dispatch"]].concat(), list);
    assert!(program::output(&packed).ends_with("\nstore 1 chain 0\n"));
    let (status, picture, words) = run(DRAW, &[], &packed);
    assert_eq!((status, words), (Some(0), String::new()));
    let picture = String::from_utf8(picture).expect("words");
    for told in [
        "turn 1, loader: loading",
        "turn 6, worker 1: answers command 1: done",
        "turn 15, worker 1: answers command 2: done",
        "turn 23, worker 1: looks up and answers command 3: chute 7",
        "turn 35, worker 1: becomes idle",
        "Worker count in force: 1 from the opening; 2 from turn 6.",
        "Image: zeros from the opening; place 4 and 1 entry from turn 32.",
    ] {
        assert!(picture.contains(&format!(">{told}<")), "{told}");
    }
    assert!(!picture.contains("turn 36,"));
}

/// With the turns of its dispatch, a list of 2,621 inserts fits into the 65,536 bytes that the program
/// reads, and one insert more does not, though its list alone would.
#[test]
fn a_list_that_is_too_long_to_be_dispatched_is_told() {
    let options = [&SETTINGS[..], &["--dispatch"]].concat();
    let list = |count: usize| "insert AA000000005AA 7\n".repeat(count);
    let (status, packed, words) = run(TEXT, &options, list(2621).as_bytes());
    assert_eq!((status, packed.len()), (Some(0), 6 + 2621 * (16 + 9)));
    assert_eq!(words, "");
    let told = run(TEXT, &options, list(2622).as_bytes());
    let words = "depot_text: refused 5: an input of 65556 bytes, over 65536\n";
    assert_eq!(told, (Some(1), Vec::new(), words.to_string()));
    let (status, packed, _) = run(TEXT, &SETTINGS, list(2622).as_bytes());
    assert_eq!((status, packed.len()), (Some(0), 6 + 2622 * 16));
}

/// Document 02, A.2, for a person: worker changes are packed and shown again, and one that is
/// refused is told.
#[test]
fn worker_changes_are_packed_and_unpacked() {
    let list = "workers 3\nread AA000000005AA\nworkers 1\n";
    let options = [&SETTINGS[..], &["--turns", "0 3"]].concat();
    let (status, packed, _) = run(TEXT, &options, list.as_bytes());
    assert_eq!(status, Some(0));
    assert_eq!(packed[6..22], *b"\x050000000000000\x00\x03");
    let (_, shown, _) = run(TEXT, &["unpack"], &packed);
    let commands = "\n1 workers 3\n2 read AA000000005AA\n3 workers 1\n";
    assert!(String::from_utf8(shown).unwrap().ends_with(commands));
    for (list, words) in [
        (
            "workers 65",
            "line 1: count `65` is not 1 to 64 (refusal 14)",
        ),
        (
            "workers 2",
            "refused 11: turn 2 is party 3's, above the largest worker count 2",
        ),
    ] {
        let (status, output, told) = run(TEXT, &options, list.as_bytes());
        assert_eq!((status, output), (Some(1), Vec::new()));
        assert_eq!(told, format!("depot_text: {words}\n"));
    }
}

/// Document 02, A.3, for a person: a checkpoint stands alone in its line, is packed as thirteen
/// characters 0 and chute 0, and is shown again.
#[test]
fn checkpoints_are_packed_and_unpacked() {
    let (status, packed, _) = run(TEXT, &SETTINGS, b"checkpoint\n2 checkpoint # again\n");
    assert_eq!(status, Some(0));
    assert_eq!(packed[6..22], *b"\x060000000000000\x00\x00");
    let (_, shown, _) = run(TEXT, &["unpack"], &packed);
    let shown = String::from_utf8(shown).unwrap();
    assert!(shown.ends_with("\n1 checkpoint\n2 checkpoint\n"), "{shown}");
    let (status, output, told) = run(TEXT, &SETTINGS, b"checkpoint 3");
    assert_eq!((status, output), (Some(1), Vec::new()));
    let words = "line 1: `3` behind checkpoint, which stands alone in its line";
    assert_eq!(told, format!("depot_text: {words}\n"));
}

#[test]
fn what_is_refused_ends_with_1_and_writes_nothing() {
    let none = Vec::new;
    let wrong = format!("{LIST}reed AA000000005AA\n");
    for options in [&SETTINGS[..], &["rounds"]] {
        let (status, output, words) = run(TEXT, options, wrong.as_bytes());
        assert_eq!((status, output), (Some(1), none()));
        assert!(
            words.starts_with("depot_text: line 3: unknown kind `reed`"),
            "{words}"
        );
    }
    for (program, options) in [(TEXT, &["unpack"][..]), (DRAW, &[])] {
        let (status, output, words) = run(program, options, b"12345");
        assert_eq!((status, output), (Some(1), none()));
        assert!(
            words.ends_with(": refused 4: 5 bytes, fewer than 6\n"),
            "{words}"
        );
    }
}

/// Document 02, A.1, for a person: the line or the command, and which character is at fault.
#[test]
fn a_faulty_identifier_is_told_with_its_character() {
    let list = LIST.replace("read AA0", "read AAx");
    let (status, output, words) = run(TEXT, &SETTINGS, list.as_bytes());
    assert_eq!((status, output), (Some(1), Vec::new()));
    assert_eq!(
        words,
        "depot_text: line 2: identifier `AAx00000005AA`: character 3 is `x`, not a digit \
         (refusal 13)\n"
    );
    let mut input = EXAMPLE.to_vec();
    input[22 + 2] = 0;
    for (program, options) in [(TEXT, &["unpack"][..]), (DRAW, &[])] {
        let (status, output, words) = run(program, options, &input);
        assert_eq!((status, output), (Some(1), Vec::new()));
        let told = ": refused 8: command 2: identifier \"A\\x00000000005AA\": \
                    character 2 is `\\x00`, not a letter A to Z\n";
        assert!(words.ends_with(told), "{words}");
    }
}

#[test]
fn options_that_are_not_understood_end_with_2_and_the_usage() {
    let twice = [&SETTINGS[..], &["--dispatch", "--turns", "1"]].concat();
    let cases: [(&str, &[&str]); 20] = [
        (TEXT, &[]),
        (TEXT, &["pack"]),
        (TEXT, &["pack", "--size", "x"]),
        (TEXT, &["unpack", "--turns", "1"]),
        (TEXT, &twice),
        (TEXT, &["rounds", "--turns", "1"]),
        (TEXT, &["rounds", "list.txt"]),
        (TEXT, &["wrap"]),
        (DRAW, &["run.svg"]),
        (DRAW, &["--from"]),
        (DRAW, &["--from", "0"]),
        (DRAW, &["--from", "x"]),
        (DRAW, &["--from", "2", "--from", "2"]),
        (DRAW, &["--turns", "0"]),
        (DRAW, &["--turns", "301"]),
        (DRAW, &["--from", "1", "--turns"]),
        (DRAW, &["--from", "1", "--help"]),
        (DRAW, &["--rounds", "--rounds"]),
        (DRAW, &["--rounds", "1"]),
        (DRAW, &["--turns", "--rounds", "5"]),
    ];
    for (program, options) in cases {
        let (status, output, words) = run(program, options, b"");
        assert_eq!((status, output), (Some(2), Vec::new()), "{options:?}");
        assert!(words.contains("usage: depot_"), "{words}");
        assert_eq!(
            words.contains("workers COUNT | checkpoint"),
            program == TEXT
        );
        assert_eq!(words.contains("| --dispatch\n"), program == TEXT);
    }
}

#[test]
fn more_turns_than_are_drawn_are_told() {
    let (_, _, words) = run(DRAW, &["--turns", "301"], EXAMPLE);
    let told = "depot_draw: --turns: at most 300 turns are drawn\nusage: ";
    assert!(words.starts_with(told), "{words}");
}

#[test]
fn help_ends_with_0_and_is_written_to_the_output() {
    for (program, told) in [
        (TEXT, "--dispatch"),
        (TEXT, "depot_text rounds < list.txt\n"),
        (DRAW, "At most 300 turns are drawn.\n"),
        (DRAW, "[--rounds] < input.bin > run.svg\n"),
    ] {
        for option in ["--help", "-h"] {
            let (status, output, words) = run(program, &[option], b"");
            assert_eq!((status, words), (Some(0), String::new()));
            let output = String::from_utf8(output).unwrap();
            assert!(output.starts_with("usage: ") && output.contains(told));
        }
    }
}

/// Some of the example's turns, with the turns' own numbers; without options all are drawn, as from
/// turn 1 on.
#[test]
fn a_window_of_the_example_is_drawn() {
    let drawn = |options: &[&str]| {
        let (status, picture, words) = run(DRAW, options, EXAMPLE);
        assert_eq!((status, words), (Some(0), String::new()));
        String::from_utf8(picture).unwrap()
    };
    let all = drawn(&[]);
    for same in [
        &["--from", "1"][..],
        &["--turns", "300"],
        &["--turns", "19"],
    ] {
        assert!(drawn(same) == all, "{same:?}");
    }
    let picture = drawn(&["--turns", "8", "--from", "9"]);
    for told in [
        "Only turns 9 to 16 of 19 are drawn.",
        "turn 9, worker 1: answers command 1: done",
        "turn 16, worker 1: looks up and answers command 2: chute 7",
        "7 by worker 1",
    ] {
        assert!(picture.contains(&format!(">{told}<")), "{told}");
    }
    for turn in ["turn 8,", "turn 17,"] {
        assert!(all.contains(turn) && !picture.contains(turn), "{turn}");
    }
}

/// A window past the end is refused; an input without turns is drawn as long as none is named.
#[test]
fn a_window_past_the_end_ends_with_1_and_writes_nothing() {
    let empty = &EXAMPLE[..38];
    for (input, turn, turns) in [(&EXAMPLE[..], "20", "19 turns"), (empty, "1", "0 turns")] {
        let told = format!("depot_draw: --from is past the end: the schedule has {turns}\n");
        let refused = run(DRAW, &["--from", turn], input);
        assert_eq!(refused, (Some(1), Vec::new(), told));
    }
    for options in [&[][..], &["--turns", "5"]] {
        let (status, picture, words) = run(DRAW, options, empty);
        assert_eq!((status, words), (Some(0), String::new()));
        assert!(picture.starts_with(b"<svg "));
    }
    assert_eq!(run(DRAW, &["--from", "19"], EXAMPLE).0, Some(0));
}

#[test]
fn the_turns_go_through_a_file() {
    let file = std::env::temp_dir().join(format!("depot-turns-{}", std::process::id()));
    let file = file.to_str().expect("a path in UTF-8");
    let (status, list, _) = run(TEXT, &["unpack", "--turns-file", file], EXAMPLE);
    assert_eq!(status, Some(0));
    let options = [&SETTINGS[..], &["--turns-file", file]].concat();
    let packed = run(TEXT, &options, &list);
    std::fs::remove_file(file).expect("the file was written");
    assert_eq!(packed, (Some(0), EXAMPLE.to_vec(), String::new()));
}
