//! Colours by round: document 02, A.9, for a person.

use super::windows::{line, titles};
use super::*;
use crate::draw::rounds::class;
use crate::rounds::rounds_of;
use crate::text::show_command;

/// Three inserts one behind the other, two of which two reads pass; an update, a worker change and a
/// read.
const LIST: &str = "insert AA000000005AA 7\ninsert RR473124829GB 3\ninsert ZZ999999995ZZ 5\n\
                    read AA000000005AA\nread AA000000005AA\nupdate AA000000005AA 9\nworkers 1\n\
                    read RR473124829GB";

/// The widths of all rectangles of a class below the legend and above the table, together.
fn widths(picture: &str, class: &str) -> f64 {
    let rows = picture.split(">who<").nth(1).unwrap();
    let rows = rows.split(">What became of").next().unwrap();
    let before = format!("<rect class=\"{class}\" ");
    let rects = rows.lines().filter(|line| line.starts_with(&before));
    let widths = rects.map(|line| line.split("width=\"").nth(1).unwrap());
    widths
        .map(|value| value.split('"').next().unwrap().parse::<f64>().unwrap())
        .sum()
}

/// How many columns the records and the parties have in each colour, in the turns of a page.
fn columns_of_colours(page: &Page, input: &Input) -> [[usize; 8]; 2] {
    let rounds = rounds_of(&input.commands);
    let mut run = Run::open(input.settings, input.commands.clone());
    let [mut records, mut parties] = [[0; 8]; 2];
    for (turn, party) in (1..).zip(&input.schedule) {
        run.turn(*party);
        if !page.trace.shows(turn) {
            continue;
        }
        let colour = |record: u8| match run.records.place[usize::from(record)] {
            0 => None,
            place => Some(usize::from(rounds[usize::from(place) - 1] - 1) % 8),
        };
        for colour in page.records.iter().filter_map(|record| colour(*record)) {
            records[colour] += 1;
        }
        let owned = |party: &u8| run.parties[usize::from(*party)].own().and_then(colour);
        for colour in page.parties.iter().filter_map(owned) {
            parties[colour] += 1;
        }
    }
    [records, parties]
}

/// Each bar of a record, from the loading to the removal of its command, and each bar of a party that
/// has a command, has the colour of the command's round, and nothing else has one.
#[test]
fn each_bar_has_the_colour_of_its_round() {
    let random = &mut Random::new(12);
    let mut met = [false; 8];
    for _ in 0..60 {
        let input = match random.below(2) {
            0 => random_input(random),
            _ => random_shifts(random),
        };
        if input.schedule.is_empty() {
            continue;
        }
        let from = 1 + random.below(input.schedule.len() as u64) as usize;
        let turns = [from, input.schedule.len().min(from + 299)];
        let page = Page::of(&input, turns, None);
        let picture = coloured_window(&input, from, 300);
        let [records, parties] = columns_of_colours(&page, &input);
        for (index, round) in (1..=8).enumerate() {
            let near = |class: &str, columns: usize| {
                let expected = columns as f64 * page.columns.width;
                let drawn = widths(&picture, class);
                assert!(
                    (drawn - expected).abs() < 5.0,
                    "{class}: {drawn}, {expected}"
                );
            };
            near(class(round), records[index]);
            near(&format!("{} state", class(round)), parties[index]);
            met[index] |= records[index] > 0 && parties[index] > 0;
        }
    }
    assert_eq!(met, [true; 8]);
}

/// The rounds stand on the bars and in the table, the colours in the legend.
#[test]
fn rounds_are_told_in_words() {
    let loads = vec!["0"; 60].join(",");
    let options = format!("--size 8 --workers 2 --room 4 --turns-file {loads}");
    let input = input(&options, LIST);
    let picture = coloured(&input);
    for words in [
        "1 insert AA000000005AA 7, round 1",
        "2 insert RR473124829GB 3, round 2",
        "3 insert ZZ999999995ZZ 5, round 3",
        "4 read AA000000005AA, round 2",
        "5 read AA000000005AA, round 2",
        "6 update AA000000005AA 9, round 3",
        "7 workers 1, round 4",
        "8 read RR473124829GB, round 5",
        "round 1",
        "round 5",
        "round",
        "the band on a bar: the round of its command, by these colours",
        "The round of a command is the first after those of the earlier ones that it must wait \
         for. 8 commands in 5 rounds, at most 3 in one: no round has work for more than 3 workers.",
    ] {
        let told = picture.matches(&format!(">{words}<")).count();
        assert_eq!(told, 1, "{words}");
    }
    assert!(!picture.contains(">round 6<"));
    let rounds = rounds_of(&input.commands);
    for ((place, command), round) in (1..).zip(&input.commands).zip(&rounds) {
        let line = line(&picture, &format!("{place} {}", show_command(command)));
        assert_eq!(line[8], round.to_string());
    }
    let table = picture.split(">had to wait for<").nth(1).unwrap();
    let rects = table.lines().filter(|line| line.starts_with("<rect "));
    let classes: Vec<&str> = rects.map(|line| line.split('"').nth(1).unwrap()).collect();
    let expected: Vec<&str> = rounds.iter().copied().map(class).collect();
    assert_eq!(classes, expected);
}

/// Colours change nothing else: the turns, signs, answers and waits are those of the picture without
/// them, which has no colour of a round at all.
#[test]
fn what_is_drawn_stays_the_same_below_the_colours() {
    let random = &mut Random::new(13);
    for _ in 0..40 {
        let input = random_shifts(random);
        let [plain, picture] = [whole(&input), coloured(&input)];
        assert_eq!(titles(&picture), titles(&plain));
        for class in [
            "wait",
            "why",
            "wrote",
            "block",
            "arrow",
            "head",
            "freed",
            "ring",
            "loading",
            "ready",
            "executing",
            "clearing",
            "small",
            "label",
            "axis",
            "idle",
            "onlock",
            "searching state",
        ] {
            assert_eq!(marks(&picture, class), marks(&plain, class), "{class}");
        }
        assert!(!plain.contains("class=\"r1") && !plain.contains("\n.r1 "));
        assert!(picture.contains("class=\"r1\"") && picture.contains("\n.r1 "));
    }
}

/// The end of a run of 2,000 rounds: each bar says its round, and the legend how the scale goes on.
#[test]
fn thousands_of_rounds_are_coloured() {
    let list = "insert AA000000005AA 7\n".repeat(2000);
    let input = input("--size 2 --workers 1 --room 1 --dispatch", &list);
    let last = input.schedule.len();
    let picture = coloured_window(&input, last - 26, 27);
    for (words, class) in [
        ("1998 insert, round 1998", "r6"),
        ("1999 insert, round 1999", "r7"),
        ("2000 insert, round 2000", "r8"),
    ] {
        assert!(picture.contains(&format!(">{words}<")), "{words}");
        assert!(widths(&picture, class) > 100.0, "{class}");
    }
    assert_eq!(widths(&picture, "r5") + widths(&picture, "r1"), 0.0);
    for words in ["rounds 1, 9, 17 ..", "rounds 8, 16, 24 ..", "1999"] {
        assert!(picture.contains(&format!(">{words}<")), "{words}");
    }
}
