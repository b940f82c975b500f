//! Speed of the proved controller beside plain Rust. Both sides get the same bytes, by turns in
//! one process, and their lists are compared at the end; a difference ends with status 1.
//!
//! `bench [runs [part [turns]]]`: 11 runs, all parts and whole lists unless said. The parts are
//! `steps`, `calls`, `growth`, `reads`, `mailing`, `checkpoint`, `dispatch`, `rounds` and `full`; `turns`
//! is the most that is dealt of a list, but for `dispatch` and `full`, which make their own, and
//! `rounds`, which has none.

use std::env;
use std::path::PathBuf;
use std::process::ExitCode;

use archive::Archive;
use measure::Bench;

// The proved calls through C, as the comparisons of the second program make them.
#[path = "../../tests/second/src/bin/compare_depot/archive.rs"]
mod archive;
mod checkpoint;
mod clock;
mod dispatch;
mod full;
mod input;
mod lists;
mod measure;
mod rounds;
mod tables;
mod threads;
mod waiting;

fn main() -> ExitCode {
    match run(&env::args().skip(1).collect::<Vec<String>>()) {
        Ok(()) => ExitCode::SUCCESS,
        Err(fault) => {
            eprintln!("bench: {fault}");
            ExitCode::FAILURE
        }
    }
}

fn run(arguments: &[String]) -> Result<(), String> {
    let bench = Bench {
        proved: Archive {
            program: PathBuf::new(), // the program is not run here
        },
        runs: number(arguments.first(), 11)?,
        most_turns: number(arguments.get(2), 100_000_000)?,
    };
    tables::print(&bench, arguments.get(1).map(String::as_str))
}

/// The number that an argument is, from 1; `usual` where there is none.
fn number(argument: Option<&String>, usual: usize) -> Result<usize, String> {
    match argument.map_or(Ok(usual), |word| word.parse()) {
        Ok(number @ 1..) => Ok(number),
        _ => Err("runs and turns are numbers from 1".to_string()),
    }
}
