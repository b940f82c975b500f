//! The options of `depot_text pack`: the settings, and one of five ways to give the turns.

use super::input::{Input, check_length, check_schedule, check_settings};
use super::{read_list, read_number, read_turns};
use crate::dispatch::dispatch;
use crate::random::Random;
use crate::run::Run;

const SETTINGS: [&str; 3] = ["--size", "--workers", "--room"];

#[derive(Clone, Debug, PartialEq, Eq)]
pub struct Options {
    size: u64,
    workers: u64,
    room: u64,
    turns: Turns,
}

/// How the turns are given.
#[derive(Clone, Debug, PartialEq, Eq)]
enum Turns {
    Given(Vec<u64>),
    File(String),
    RoundRobin {
        count: u64,
    },
    Random {
        seed: u64,
        count: u64,
    },
    /// The dispatcher's, from the opening to the end.
    Dispatch,
}

impl Options {
    /// Reads the options, or says what is wrong with them.
    pub fn read(words: &[&str]) -> Result<Options, String> {
        let mut settings = [None; 3];
        let mut turns = None;
        let mut words = words.iter().copied();
        while let Some(name) = words.next() {
            match SETTINGS.iter().position(|known| *known == name) {
                Some(index) => put(&mut settings[index], name, read_value(name, words.next())?)?,
                None => put(&mut turns, "the turns", Turns::read(name, &mut words)?)?,
            }
        }
        let setting =
            |index: usize| settings[index].ok_or(format!("{} is missing", SETTINGS[index]));
        Ok(Options {
            size: setting(0)?,
            workers: setting(1)?,
            room: setting(2)?,
            turns: turns.unwrap_or(Turns::Given(Vec::new())),
        })
    }

    /// The input that the options and the list give, as bytes; `read_file` reads a file of turns.
    /// Settings are tested first, then the list, then the turns, as the program does.
    pub fn pack(
        &self,
        list: &[u8],
        read_file: impl Fn(&str) -> Result<Vec<u8>, String>,
    ) -> Result<Vec<u8>, String> {
        let settings = check_settings(self.size, self.workers, self.room)?;
        let run = Run::open(settings, read_list(list)?);
        let parties = self.turns.parties(&run, read_file)?;
        let schedule = check_schedule(&parties, run.largest)?;
        let input = Input {
            settings,
            commands: run.commands,
            schedule,
        };
        Ok(input.bytes()?)
    }
}

impl Turns {
    fn read<'a>(name: &str, values: &mut impl Iterator<Item = &'a str>) -> Result<Turns, String> {
        match name {
            "--turns" => {
                let text = values.next().ok_or("--turns without party numbers")?;
                let turns = read_turns(text.as_bytes());
                Ok(Turns::Given(
                    turns.map_err(|fault| format!("--turns: {fault}"))?,
                ))
            }
            "--turns-file" => {
                let file = values.next().ok_or("--turns-file without a file")?;
                Ok(Turns::File(file.to_string()))
            }
            "--round-robin" => Ok(Turns::RoundRobin {
                count: read_value(name, values.next())?,
            }),
            "--random" => Ok(Turns::Random {
                seed: read_value(name, values.next())?,
                count: read_value(name, values.next())?,
            }),
            "--dispatch" => Ok(Turns::Dispatch),
            _ => Err(format!("unknown option `{name}`")),
        }
    }

    /// The parties of the turns of a run that is opened, one after the other; round-robin and random
    /// turns are those of all parties up to the largest worker count.
    fn parties(
        &self,
        run: &Run,
        read_file: impl Fn(&str) -> Result<Vec<u8>, String>,
    ) -> Result<Vec<u64>, String> {
        let parties = u64::from(run.largest) + 1;
        match self {
            Turns::Given(turns) => Ok(turns.clone()),
            Turns::File(file) => {
                let at_file = |fault| format!("{file}: {fault}");
                read_turns(&read_file(file).map_err(at_file)?).map_err(at_file)
            }
            Turns::RoundRobin { count } => {
                check_length(*count as usize)?;
                Ok((0..*count).map(|turn| turn % parties).collect())
            }
            Turns::Random { seed, count } => {
                check_length(*count as usize)?;
                let mut random = Random::new(*seed);
                Ok((0..*count).map(|_| random.below(parties)).collect())
            }
            Turns::Dispatch => {
                let turns = dispatch(&mut run.clone());
                Ok(turns.into_iter().map(u64::from).collect())
            }
        }
    }
}

fn read_value(name: &str, word: Option<&str>) -> Result<u64, String> {
    let word = word.ok_or(format!("{name} without a number"))?;
    read_number(word).ok_or(format!("{name}: `{word}` is no number"))
}

/// Puts a value where none is yet.
fn put<T>(slot: &mut Option<T>, name: &str, value: T) -> Result<(), String> {
    match slot.replace(value) {
        Some(_) => Err(format!("{name} given twice")),
        None => Ok(()),
    }
}

#[cfg(test)]
mod tests {
    use super::*;

    const LIST: &[u8] = b"insert AA000000005AA 7\nread AA000000005AA";
    const SMALL: &str = "--size 2 --workers 2 --room 4";

    fn read(options: &str) -> Result<Options, String> {
        Options::read(&options.split(' ').collect::<Vec<&str>>())
    }

    fn read_file(name: &str) -> Result<Vec<u8>, String> {
        match name {
            "good" => Ok(b"# a comment\n0 1\n2".to_vec()),
            "bad" => Ok(b"0 1\n2 x".to_vec()),
            _ => Err("not there".to_string()),
        }
    }

    fn pack(options: &str) -> Result<Vec<u8>, String> {
        read(options).unwrap().pack(LIST, read_file)
    }

    /// The turns that these options add to the settings give.
    fn turns(options: &str) -> Vec<u8> {
        pack(&format!("{SMALL} {options}")).unwrap()[38..].to_vec()
    }

    #[test]
    fn turns_are_given_in_five_ways_or_not_at_all() {
        assert_eq!(pack(SMALL).unwrap().len(), 38);
        let given = Options::read(&[
            "--turns",
            "2 0\n1",
            "--room",
            "1",
            "--size",
            "1",
            "--workers",
            "2",
        ]);
        assert_eq!(
            given.unwrap().pack(b"", read_file),
            Ok(vec![1, 2, 0, 1, 0, 0, 2, 0, 1])
        );
        assert_eq!(turns("--turns-file good"), [0, 1, 2]);
        assert_eq!(turns("--round-robin 7"), [0, 1, 2, 0, 1, 2, 0]);
        let random = turns("--random 5 300");
        assert_eq!(random.len(), 300);
        assert!((0..3).all(|party| random.contains(&party)));
        assert_eq!(random, turns("--random 5 300"));
        assert_ne!(random, turns("--random 6 300"));
        let [insert, read] = [
            [0, 0, 1, 1, 1, 1, 1, 1, 1].as_slice(),
            &[0, 0, 1, 1, 1, 1, 1, 1],
        ];
        assert_eq!(turns("--dispatch"), [insert, read].concat());
    }

    /// Document 02, A.2: turns go to parties up to the largest count of the opening and the list.
    #[test]
    fn turns_are_dealt_up_to_the_largest_count() {
        let pack = |options: &str| {
            let options = read(&format!("{SMALL} {options}")).unwrap();
            options.pack(b"workers 1\nworkers 4\nworkers 3", read_file)
        };
        let turns = |options: &str| pack(options).unwrap()[54..].to_vec();
        assert_eq!(turns("--round-robin 7"), [0, 1, 2, 3, 4, 0, 1]);
        let random = turns("--random 5 300");
        assert!((0..5).all(|party| random.contains(&party)));
        assert!(random.iter().all(|party| *party < 5));
        assert_eq!(turns("--turns 4"), [4]);
        let words = "refused 11: turn 1 is party 5's, above the largest worker count 4";
        assert_eq!(pack("--turns 5"), Err(words.to_string()));
    }

    #[test]
    fn options_that_are_not_understood_are_told() {
        let cases = [
            ("--size 2 --room 4", "--workers is missing"),
            ("--size 2 --size 2", "--size given twice"),
            ("--size x", "--size: `x` is no number"),
            ("--size -1", "--size: `-1` is no number"),
            ("--size", "--size without a number"),
            ("--depth 1", "unknown option `--depth`"),
            ("--random 1", "--random without a number"),
            ("--turns", "--turns without party numbers"),
            ("--turns x", "--turns: line 1: `x` is no party number"),
            ("--turns-file", "--turns-file without a file"),
            ("--turns 1 --round-robin 4", "the turns given twice"),
        ];
        for (options, words) in cases {
            assert_eq!(read(options), Err(words.to_string()));
        }
    }

    /// Options that the program would refuse, and what is said of them.
    const REFUSED: &[(&str, &str)] = &[
        (
            "--size 151 --workers 1 --room 4",
            "refused 1: graph size 151 is not 1 to 150",
        ),
        (
            "--size 150 --workers 0 --room 4",
            "refused 2: workers 0 is not 1 to 64",
        ),
        (
            "--size 150 --workers 1 --room 4097",
            "refused 3: room 4097 is not 1 to 4096",
        ),
        (
            "--size 2 --workers 2 --room 4 --turns 3",
            "refused 11: turn 1 is party 3's, above the largest worker count 2",
        ),
        (
            "--size 2 --workers 2 --room 4 --turns 256",
            "refused 11: turn 1 is party 256's, above the largest worker count 2",
        ),
        (
            "--size 2 --workers 2 --room 4 --round-robin 65499",
            "refused 5: an input of 65537 bytes, over 65536",
        ),
        (
            "--size 2 --workers 2 --room 4 --random 1 99999999999",
            "refused 5: an input of 99999999999 bytes, over 65536",
        ),
        (
            "--size 2 --workers 2 --room 4 --turns-file bad",
            "bad: line 2: `x` is no party number",
        ),
        (
            "--size 2 --workers 2 --room 4 --turns-file none",
            "none: not there",
        ),
    ];

    #[test]
    fn what_the_program_would_refuse_is_not_packed() {
        for (options, words) in REFUSED {
            assert_eq!(pack(options), Err(words.to_string()));
        }
        assert_eq!(
            pack("--size 2 --workers 2 --room 4 --round-robin 65498")
                .unwrap()
                .len(),
            65_536
        );
    }
}
