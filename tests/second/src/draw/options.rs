//! The options of `depot_draw`: which turns are drawn, and whether commands are coloured by round.

use crate::text::count;

/// The most turns that are drawn.
pub const MOST_TURNS: usize = 300;

/// The options that have a number, and the one that has none.
const NAMES: [&str; 2] = ["--from", "--turns"];
const ROUNDS: &str = "--rounds";

/// What is asked for.
#[derive(Clone, Copy, Debug, Default, PartialEq, Eq)]
pub struct Options {
    /// From which turn on, and how many.
    from: Option<usize>,
    count: Option<usize>,
    /// Whether commands are coloured by round.
    pub rounds: bool,
}

impl Options {
    /// Reads the options, or says what is wrong with them.
    pub fn read(words: &[&str]) -> Result<Options, String> {
        let mut values = [None; NAMES.len()];
        let mut rounds = false;
        let mut words = words.iter();
        while let Some(name) = words.next() {
            if *name == ROUNDS {
                if rounds {
                    return Err(format!("{name} given twice"));
                }
                rounds = true;
                continue;
            }
            let index = NAMES.iter().position(|known| known == name);
            let index = index.ok_or(format!("unknown option `{name}`"))?;
            let word = words.next().ok_or(format!("{name} without a number"))?;
            if values[index].replace(read_number(name, word)?).is_some() {
                return Err(format!("{name} given twice"));
            }
        }
        let [from, count] = values;
        match count {
            Some(count) if count > MOST_TURNS => {
                Err(format!("--turns: at most {MOST_TURNS} turns are drawn"))
            }
            _ => Ok(Options {
                from,
                count,
                rounds,
            }),
        }
    }

    /// The first and the last turn that are drawn of a schedule of so many; of an empty one that
    /// is turns 1 to 0, where no turn is named.
    pub fn turns(&self, all: usize) -> Result<[usize; 2], String> {
        let first = self.from.unwrap_or(1);
        if self.from.is_some() && first > all {
            let turns = count(all, "turn");
            return Err(format!("--from is past the end: the schedule has {turns}"));
        }
        let most = self.count.unwrap_or(MOST_TURNS);
        Ok([first, all.min(first - 1 + most)])
    }
}

/// A number from 1 on; one that is too long to be kept is past every end.
fn read_number(name: &str, word: &str) -> Result<usize, String> {
    let digits = !word.is_empty() && word.bytes().all(|byte| byte.is_ascii_digit());
    match word.parse().unwrap_or(usize::MAX) {
        number if digits && number > 0 => Ok(number),
        _ => Err(format!("{name}: `{word}` is no number from 1 on")),
    }
}

#[cfg(test)]
mod tests {
    use super::*;

    fn read(options: &str) -> Result<Options, String> {
        Options::read(&options.split_whitespace().collect::<Vec<&str>>())
    }

    fn turns(options: &str, all: usize) -> Result<[usize; 2], String> {
        read(options).unwrap().turns(all)
    }

    #[test]
    fn a_window_is_as_long_as_it_may_be_or_as_it_is_asked_for() {
        for (options, all, expected) in [
            ("", 19, [1, 19]),
            ("", 0, [1, 0]),
            ("--turns 5", 0, [1, 0]),
            ("", 301, [1, 300]),
            ("--from 1", 301, [1, 300]),
            ("--from 2", 301, [2, 301]),
            ("--from 301", 301, [301, 301]),
            ("--from 700", 5000, [700, 999]),
            ("--turns 7", 19, [1, 7]),
            ("--from 4 --turns 1", 19, [4, 4]),
            ("--turns 300 --from 18", 19, [18, 19]),
            ("--from 4 --rounds --turns 2", 19, [4, 5]),
        ] {
            assert_eq!(turns(options, all), Ok(expected), "{options} of {all}");
        }
    }

    #[test]
    fn rounds_are_asked_for_anywhere() {
        for options in ["--rounds", "--rounds --from 2", "--from 2 --rounds"] {
            assert!(read(options).unwrap().rounds, "{options}");
        }
        for options in ["", "--from 2 --turns 3"] {
            assert!(!read(options).unwrap().rounds, "{options}");
        }
    }

    #[test]
    fn a_window_past_the_end_is_refused_with_the_number_of_turns() {
        let longest = format!("--from {}0", u128::MAX);
        for (options, all, number) in [
            ("--from 20", 19, "19 turns"),
            ("--from 2 --turns 1", 1, "1 turn"),
            ("--from 1", 0, "0 turns"),
            (&longest, 19, "19 turns"),
        ] {
            let words = format!("--from is past the end: the schedule has {number}");
            assert_eq!(turns(options, all), Err(words), "{options} of {all}");
        }
    }

    /// What is said of options that are not understood.
    const WRONG: [(&str, &str); 15] = [
        ("--from", "--from without a number"),
        ("--turns", "--turns without a number"),
        ("--from 1 --turns", "--turns without a number"),
        ("--from 0", "--from: `0` is no number from 1 on"),
        ("--turns 0", "--turns: `0` is no number from 1 on"),
        ("--turns x", "--turns: `x` is no number from 1 on"),
        ("--from -3", "--from: `-3` is no number from 1 on"),
        ("--from +3", "--from: `+3` is no number from 1 on"),
        ("--from 3 --from 3", "--from given twice"),
        ("--turns 301", "--turns: at most 300 turns are drawn"),
        ("--rounds --from 2 --rounds", "--rounds given twice"),
        (
            "--turns --rounds 5",
            "--turns: `--rounds` is no number from 1 on",
        ),
        ("--rounds 5", "unknown option `5`"),
        ("--to 9", "unknown option `--to`"),
        ("run.svg", "unknown option `run.svg`"),
    ];

    #[test]
    fn options_that_are_not_understood_are_told() {
        for (options, words) in WRONG {
            assert_eq!(read(options), Err(words.to_string()), "{options}");
        }
        let longest = format!("--turns {}", u128::MAX);
        assert!(read(&longest).unwrap_err().contains("at most 300"));
    }
}
