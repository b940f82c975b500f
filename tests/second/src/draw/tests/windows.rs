//! Windows: some of the turns of a run.

use super::*;

/// An input of which the whole picture leaves out no turn, record or party.
fn small_input(random: &mut Random) -> Input {
    loop {
        let input = match random.below(2) {
            0 => random_input(random),
            _ => random_shifts(random),
        };
        let few = usize::from(input.settings.size) <= MOST_RECORDS
            && usize::from(input.largest()) <= MOST_WORKERS;
        if few && (1..=MOST_TURNS).contains(&input.schedule.len()) {
            return input;
        }
    }
}

/// The titles of a picture's turns, with their numbers.
pub fn titles(picture: &str) -> Vec<(usize, &str)> {
    let pieces = picture.split("<title>turn ").skip(1);
    let titles = pieces.map(|piece| piece.split('<').next().unwrap().split_once(", ").unwrap());
    titles
        .map(|(number, words)| (number.parse().unwrap(), words))
        .collect()
}

/// The words of a picture's line in the table that begins with these, as far as nine cells.
pub fn line<'a>(picture: &'a str, command: &str) -> Vec<&'a str> {
    let table = picture.split(">had to wait for<").nth(1).unwrap();
    let texts = table.lines().filter(|line| line.starts_with("<text "));
    let words = texts.map(|line| line.split(['<', '>']).nth(2).unwrap());
    words
        .skip_while(|words| *words != command)
        .take(9)
        .collect()
}

#[test]
fn without_options_the_window_begins_at_turn_1() {
    let random = &mut Random::new(8);
    let mut inputs: Vec<Input> = (0..20).map(|_| random_input(random)).collect();
    inputs.retain(|input| !input.schedule.is_empty());
    for input in inputs {
        assert!(whole(&input) == window(&input, 1, MOST_TURNS));
    }
}

/// A window's titles are those that the whole picture has for its turns, and so are the marks that
/// stand in its columns.
#[test]
fn a_window_has_what_the_whole_picture_has_in_its_columns() {
    let random = &mut Random::new(9);
    for _ in 0..60 {
        let input = small_input(random);
        let all = input.schedule.len();
        let from = 1 + random.below(all as u64) as usize;
        let last = from + random.below((all - from + 1) as u64) as usize;
        let picture = window(&input, from, last - from + 1);
        let whole = whole(&input);
        let mut expected = titles(&whole);
        expected.retain(|(number, _)| (from..=last).contains(number));
        assert_eq!(titles(&picture), expected);
        let waits = expected
            .iter()
            .filter(|(_, words)| words.contains(": waits, "));
        let rests = waits
            .clone()
            .filter(|(_, words)| words.contains("above the worker count"));
        let crosses = waits.count() - rests.count();
        assert_eq!(marks(&picture, "turn"), last - from + 1);
        assert_eq!(marks(&picture, "why"), crosses);
        assert_eq!(marks_below_legend(&picture, "wait"), crosses);
    }
}

/// Two windows side by side have all turns, answers, waits and arrows of the whole picture, each
/// once.
#[test]
fn adjacent_windows_have_all_that_the_whole_picture_has() {
    let random = &mut Random::new(10);
    for _ in 0..60 {
        let input = small_input(random);
        let all = input.schedule.len();
        let first = 1 + random.below(all as u64) as usize;
        if first == all {
            continue;
        }
        let windows = [
            window(&input, 1, first),
            window(&input, first + 1, MOST_TURNS),
        ];
        let whole = whole(&input);
        let sorted = |mut titles: Vec<(usize, String)>| {
            titles.sort();
            titles
        };
        let owned = |picture: &String| -> Vec<(usize, String)> {
            let titles = titles(picture).into_iter();
            titles
                .map(|(number, words)| (number, words.to_string()))
                .collect()
        };
        let together = windows.iter().flat_map(owned).collect();
        assert_eq!(sorted(together), sorted(owned(&whole)));
        for class in ["wait", "wrote", "block", "arrow", "head", "freed", "ring"] {
            let [one, two] = [0, 1].map(|index| marks_below_legend(&windows[index], class));
            assert_eq!(one + two, marks_below_legend(&whole, class), "{class}");
        }
    }
}

/// A run of more turns than one picture has, seen through three.
#[test]
fn a_long_run_is_drawn_window_by_window() {
    let list = format!("{EXAMPLE}\n").repeat(40);
    let input = input("--size 4 --workers 3 --room 2 --random 3 800", &list);
    let mut numbers = Vec::new();
    for (from, last) in [(1, 300), (301, 600), (601, 800)] {
        let picture = window(&input, from, MOST_TURNS);
        let note = format!(">Only turns {from} to {last} of 800 are drawn.<");
        assert!(picture.contains(&note), "{note}");
        numbers.extend(titles(&picture).into_iter().map(|(number, _)| number));
    }
    numbers.sort();
    assert!(numbers.into_iter().eq(1..=800));
}

/// What was before the window is told with its turns, what was gone before it is not; columns have
/// their true numbers.
#[test]
fn a_window_tells_what_was_before_it() {
    let picture = window(&example(), 14, MOST_TURNS);
    let told = "2 read AA000000005AA";
    let expected = [
        told,
        "chute 7",
        "2",
        "3",
        "5",
        "15 by worker 1",
        "16",
        "19",
        "1 (same item) until turn 12",
    ];
    assert_eq!(line(&picture, told), expected);
    for words in [
        "Only turns 14 to 19 of 19 are drawn.",
        "Removed before these turns: 1 command.",
        "record 2",
        "14",
        "15",
        "turn 16, worker 1: looks up and answers command 2: chute 7",
    ] {
        assert!(picture.contains(&format!(">{words}<")), "{words}");
    }
    for words in ["record 1", "1 insert AA000000005AA 7", "done", "10", "20"] {
        assert!(!picture.contains(&format!(">{words}<")), "{words}");
    }
    assert_eq!(marks_below_legend(&picture, "arrow"), 0);
    assert_eq!(marks(&picture, "axis"), 2);
}

/// What comes behind the window is not told: the answer, and until when a command waits.
#[test]
fn a_window_does_not_tell_what_comes_behind_it() {
    let picture = window(&example(), 8, 1);
    for (command, wait) in [
        ("1 insert AA000000005AA 7", ""),
        ("2 read AA000000005AA", "1 (same item) past turn 8"),
    ] {
        let line = line(&picture, command);
        assert_eq!([line[1], line[7], line[8]], ["", "", wait]);
    }
    assert!(picture.contains(">Only turn 8 of 19 is drawn.<"));
    let early = window(&example(), 1, 2);
    assert!(early.contains(">Not loaded in these turns: the last 1 command.<"));
}
