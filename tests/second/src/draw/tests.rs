//! Pictures of runs, looked at as text.

mod form;
mod labels;
mod rounds;
mod windows;

use super::options::MOST_TURNS;
use super::*;
use crate::random::Random;
use crate::run::{Party, Run};
use crate::text::options as packing;

const EXAMPLE: &str = "insert AA000000005AA 7\nread AA000000005AA";

/// The input that `depot_text pack` makes of these options and this list.
fn input(options: &str, list: &str) -> Input {
    let words: Vec<&str> = options.split(' ').collect();
    let file = |turns: &str| Ok(turns.replace(',', " ").into_bytes());
    let options = packing::Options::read(&words).unwrap();
    let bytes = options.pack(list.as_bytes(), file);
    Input::read(&bytes.unwrap()).unwrap()
}

/// The picture without options.
fn whole(input: &Input) -> String {
    draw(input, &Options::default()).unwrap()
}

/// The picture of the whole with colours by round.
fn coloured(input: &Input) -> String {
    draw(input, &Options::read(&["--rounds"]).unwrap()).unwrap()
}

/// Document 01, the program's example.
fn example() -> Input {
    let turns = "--turns-file 0,0,0,0,0,1,1,1,1,1,1,1,1,1,1,1,1,1,1";
    input(&format!("--size 2 --workers 1 --room 4 {turns}"), EXAMPLE)
}

fn random_input(random: &mut Random) -> Input {
    let kinds = [
        "insert AA000000005AA 7\n",
        "insert RR473124829GB 512\n",
        "read AA000000005AA\n",
        "read RR473124829GB\n",
        "update AA000000005AA 8\n",
        "delete AA000000005AA\n",
    ];
    let list: String = (0..random.below(30)).map(|_| random.pick(&kinds)).collect();
    let [size, workers, room] = [20, 12, 2].map(|most| 1 + random.below(most));
    let turns = format!("--random {} {}", random.number(), random.below(400));
    input(
        &format!("--size {size} --workers {workers} --room {room} {turns}"),
        &list,
    )
}

/// One with worker changes and checkpoints.
fn random_shifts(random: &mut Random) -> Input {
    let kinds = [
        "insert AA000000005AA 7\n",
        "read AA000000005AA\n",
        "workers 1\n",
        "workers 2\n",
        "workers 5\n",
        "checkpoint\n",
    ];
    let list: String = (0..1 + random.below(12))
        .map(|_| random.pick(&kinds))
        .collect();
    let [size, workers] = [1 + random.below(8), 1 + random.below(4)];
    let turns = format!("--random {} {}", random.number(), 1 + random.below(300));
    input(
        &format!("--size {size} --workers {workers} --room 4 {turns}"),
        &list,
    )
}

/// A window of a picture.
fn window(input: &Input, from: usize, turns: usize) -> String {
    draw(input, &window_options(from, turns)).unwrap()
}

/// A window of a picture with colours by round.
fn coloured_window(input: &Input, from: usize, turns: usize) -> String {
    let mut options = window_options(from, turns);
    options.rounds = true;
    draw(input, &options).unwrap()
}

fn window_options(from: usize, turns: usize) -> Options {
    let [from, turns] = [from, turns].map(|number| number.to_string());
    Options::read(&["--from", &from, "--turns", &turns]).unwrap()
}

/// Pictures of all sorts, some of them windows, half of them with colours by round.
fn pictures(seed: u64) -> Vec<String> {
    let random = &mut Random::new(seed);
    let mut inputs: Vec<Input> = (0..40).map(|_| random_input(random)).collect();
    inputs.extend((0..40).map(|_| random_shifts(random)));
    inputs.push(example());
    inputs.push(input("--size 1 --workers 1 --room 1", ""));
    let many = "--size 150 --workers 64 --room 1 --random 1 900";
    inputs.push(input(many, &format!("{EXAMPLE}\n").repeat(40)));
    // Answers as close to one another as they come.
    let dense = "--size 1 --workers 1 --room 1 --dispatch";
    let list = "read RR473124829GB\ninsert AA000000005AA 7\n".repeat(20);
    inputs.push(input(dense, &list));
    // Waits that begin soon after the answer of the command that had the record before; the window
    // ends at an answer.
    let turns = format!("0,0{}", ",0,0,0,1,1,1,1,1,1,1,1".repeat(20));
    let soon = format!("--size 2 --workers 1 --room 1 --turns-file {turns}");
    inputs.push(input(&soon, &"insert AA000000005AA 7\n".repeat(22)));
    let soon = &inputs[inputs.len() - 1];
    let mut pictures = vec![window(soon, 1, 119), coloured_window(soon, 1, 119)];
    // Turns with long numbers.
    let long = input("--size 4 --workers 3 --room 1 --random 2 20000", &list);
    for from in [11_111, 19_999] {
        pictures.extend([window, coloured_window].map(|draw| draw(&long, from, MOST_TURNS)));
    }
    for input in inputs {
        pictures.extend([whole(&input), coloured(&input)]);
        if let Some(past) = input.schedule.len().checked_sub(1) {
            let from = 1 + random.below(1 + past as u64) as usize;
            let turns = 1 + random.below(300) as usize;
            pictures.extend([window, coloured_window].map(|draw| draw(&input, from, turns)));
        }
    }
    pictures
}

fn marks(picture: &str, class: &str) -> usize {
    picture.matches(&format!("class=\"{class}\"")).count()
}

/// The marks of a class without the one of the legend.
fn marks_below_legend(picture: &str, class: &str) -> usize {
    marks(picture, class) - 1
}

#[test]
fn the_example_has_19_turns_two_of_them_writing_and_no_wait() {
    let picture = whole(&example());
    assert_eq!(marks(&picture, "turn"), 19);
    assert_eq!(marks_below_legend(&picture, "wait"), 0);
    // A writing turn is marked in the party's row and in the record's.
    assert_eq!(marks_below_legend(&picture, "wrote"), 4);
    assert_eq!(marks_below_legend(&picture, "arrow"), 1);
    assert_eq!(marks_below_legend(&picture, "freed"), 1);
    for words in [
        "done",
        "chute 7",
        "waits for 1",
        "1 (same item) until turn 12",
    ] {
        assert!(picture.contains(&format!(">{words}<")), "{words}");
    }
}

/// Document 02, A.8: the insert of the example has a turn that looks up and one that writes,
/// and the read one that does both.
#[test]
fn a_read_is_told_to_look_up_and_write_in_one_turn() {
    let picture = whole(&example());
    let told = [
        "turn 8, worker 1: looked up",
        "turn 9, worker 1: answers command 1: done",
        "turn 15, worker 1: holding",
        "turn 16, worker 1: looks up and answers command 2: chute 7",
        "turn 17, worker 1: walking",
        "turn 19, worker 1: becomes idle",
    ];
    for words in told {
        assert!(picture.contains(&format!(">{words}<")), "{words}");
    }
    assert_eq!(picture.matches(": looked up<").count(), 1);
}

/// Document 02, A.5: the delete waits for the insert of another item, the reads for commands of
/// their own item alone.
#[test]
fn waits_are_told_with_their_reasons() {
    let list = "insert AA000000005AA 7\nread RR473124829GB\nread AA000000005AA\n\
                delete RR473124829GB\nread RR473124829GB";
    let loads = vec!["0"; 20].join(",");
    let options = format!("--size 5 --workers 1 --room 4 --turns-file {loads}");
    let picture = whole(&input(&options, list));
    assert_eq!(marks_below_legend(&picture, "arrow"), 4);
    for words in [
        "1 (same item) to the end",
        "1 (an insert) to the end; 2 (same item) to the end",
        "4 (same item) to the end",
    ] {
        assert_eq!(picture.matches(&format!(">{words}<")).count(), 1, "{words}");
    }
}

/// Documents 01 and 02, A.7: each answer is told in words, at its record, in its turn's title and
/// in the table, and nowhere as a number.
#[test]
fn answers_are_told_in_words() {
    let list = "insert AA000000005AA 7\ninsert AA000000005AA 8\nread AA000000005AA\n\
                insert RR473124829GB 512\nread RR473124829GB";
    let picture = whole(&input(
        "--size 3 --workers 2 --room 1 --round-robin 180",
        list,
    ));
    let told = [
        "done",
        "announced again",
        "chute 8",
        "store full",
        "no such item",
    ];
    for (words, place) in told.iter().zip(1..) {
        assert_eq!(picture.matches(&format!(">{words}<")).count(), 2, "{words}");
        let title = format!("answers command {place}: {words}<");
        assert_eq!(picture.matches(&title).count(), 1, "{words}");
    }
    for number in ["1000", "1002", "1003", "1004"] {
        assert!(!picture.contains(&format!(">{number}<")), "{number}");
        assert!(!picture.contains(&format!("answer {number}")), "{number}");
    }
    assert_eq!(answer_words(512), "chute 512");
}

#[test]
fn each_turn_has_a_mark_and_each_wait_a_cross() {
    let random = &mut Random::new(4);
    for _ in 0..40 {
        let mut input = random_input(random);
        input.schedule.truncate(MOST_TURNS);
        input.settings.workers = input.settings.workers.min(8);
        input
            .schedule
            .retain(|party| *party <= input.settings.workers);
        let mut run = Run::open(input.settings, input.commands.clone());
        let waits = input
            .schedule
            .iter()
            .filter(|party| !run.turn(**party))
            .count();
        let picture = whole(&input);
        assert_eq!(marks(&picture, "turn"), input.schedule.len());
        assert_eq!(marks_below_legend(&picture, "wait"), waits);
        assert_eq!(marks(&picture, "why"), waits);
    }
}

/// Document 02, A.2: an idle worker above the count in force has a pale dot for its wait and no
/// cross; a search that it goes on with is told as one that may take nothing.
#[test]
fn each_wait_above_the_count_is_a_pale_dot() {
    let random = &mut Random::new(6);
    let mut pale = 0;
    for _ in 0..60 {
        let input = random_shifts(random);
        let mut run = Run::open(input.settings, input.commands.clone());
        let [mut rests, mut waits] = [0, 0];
        for party in &input.schedule {
            let idle = run.parties[usize::from(*party)] == Party::Idle;
            let rest = !run.allows(*party) && idle;
            let moved = run.turn(*party);
            rests += usize::from(rest);
            waits += usize::from(!moved && !rest);
        }
        let picture = whole(&input);
        assert_eq!(marks(&picture, "turn"), input.schedule.len());
        assert_eq!(marks(&picture, "why"), waits);
        if input.changes_workers() {
            let dots = picture.matches("class=\"rest p").count();
            assert_eq!(dots, rests + 1, "one is in the legend");
            pale += rests;
        }
    }
    assert!(pale > 500, "{pale}");
}

/// Document 02, A.3: a checkpoint's waits have their reasons, and the images are told with their
/// turns.
#[test]
fn checkpoints_are_told() {
    let list = "read AA000000005AA\ncheckpoint\ninsert RR473124829GB 3\ncheckpoint";
    let alone = ["0", "0", "1", "1", "1", "1", "1", "1", "1", "1", "1"].join(",");
    let turns = vec![alone; 5].join(",");
    let options = format!("--size 4 --workers 1 --room 4 --turns-file 0,0,0,{turns}");
    let picture = whole(&input(&options, list));
    for words in [
        "2 checkpoint",
        "1 (any command) until turn 11",
        "2 (a checkpoint) until turn 29",
        "turn 17, worker 1: looked up",
        "turn 18, worker 1: answers command 2: done",
        RULE,
        "Image: zeros from the opening; place 2 and 0 entries from turn 18; \
         place 4 and 1 entry from turn 53.",
    ] {
        assert!(picture.contains(&format!(">{words}<")), "{words}");
    }
    let plain = whole(&example());
    assert!(!plain.contains("Image:") && !plain.contains(RULE));
}

const RULE: &str = "A checkpoint waits for every earlier command, and every later one waits \
                    for it. Its writing turn puts the store into the image.";

/// A.2: the counts in force are drawn and told, with who waits for a change and why.
#[test]
fn the_count_in_force_is_shown() {
    let list = "read AA000000005AA\nworkers 1\nread RR473124829GB";
    let turns = "0,0,0,0,0,1,1,1,1,1,1,1,1,1,1,0,0,0,2,1,1,2,2,2,2,1,1,1,1,2";
    let options = format!("--size 3 --workers 2 --room 4 --turns-file {turns}");
    let picture = whole(&input(&options, list));
    for words in [
        "workers 1 to 2",
        "worker 1",
        "allowed",
        "2 workers 1",
        "1 (any command) until turn 11",
        "2 (workers change) until turn 28",
        "turn 19, worker 2: searching",
        "turn 22, worker 2: searching, may take nothing",
        "turn 25, worker 2: waits, above the worker count 1",
        "Worker count in force: 2 from the opening; 1 from turn 20.",
        "Idle waits above it: worker 2 at turns 25 30.",
        "a worker above the count in force",
    ] {
        let told = picture.contains(&format!(">{words}<"));
        assert!(told, "{words}");
    }
    assert!(picture.contains("2 workers at first, 2 at the most"));
    let plain = whole(&example());
    for words in ["allowed", "a worker above the count in force"] {
        assert!(!plain.contains(&format!(">{words}<")), "{words}");
    }
    assert!(!plain.contains("Worker count in force"));
}

#[test]
fn what_is_left_out_is_said() {
    let said = |options: &str| {
        let list = "read AA000000005AA\n".repeat(14);
        let input = input(options, &list);
        let turns = Options::default().turns(input.schedule.len());
        notes(&input, &Trace::of(&input, turns.unwrap()))
    };
    let loads = vec!["0"; 120].join(",");
    assert!(said("--size 12 --workers 8 --room 1 --random 1 300").is_empty());
    assert_eq!(
        said("--size 12 --workers 8 --room 1 --random 1 301"),
        ["Only turns 1 to 300 of 301 are drawn."]
    );
    assert_eq!(
        said(&format!(
            "--size 13 --workers 8 --room 1 --turns-file {loads}"
        )),
        ["Only the first 12 of 13 records used are drawn."]
    );
    assert_eq!(
        said("--size 12 --workers 10 --room 1 --round-robin 22"),
        ["Only 8 of 10 workers are drawn, the first that have a turn."]
    );
}
