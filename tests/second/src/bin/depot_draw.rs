//! Draws the run of an input of the program `depot`, or some of its turns, as SVG:
//!
//!     depot_draw [--from TURN] [--turns COUNT] [--rounds] < input.bin > run.svg
//!
//! It ends with 0, with 1 where the input or the window is refused and 2 where the options are
//! wrong.

use std::io::{self, Read, Write};
use std::process::ExitCode;

use second::draw::draw;
use second::draw::options::{MOST_TURNS, Options};
use second::text::input::Input;

fn usage() -> String {
    format!(
        "\
usage: depot_draw [--from TURN] [--turns COUNT] [--rounds] < input.bin > run.svg
       depot_draw --help
--from TURN: the first turn that is drawn; without it, turn 1
--turns COUNT: how many turns are drawn; without it, as many as there are
--rounds: commands are coloured by round (depot_text rounds lists them)
At most {MOST_TURNS} turns are drawn."
    )
}

fn main() -> ExitCode {
    let words: Vec<String> = std::env::args().skip(1).collect();
    let words: Vec<&str> = words.iter().map(String::as_str).collect();
    if let ["--help" | "-h"] = words[..] {
        println!("{}", usage());
        return ExitCode::SUCCESS;
    }
    let options = match Options::read(&words) {
        Ok(options) => options,
        Err(fault) => {
            eprintln!("depot_draw: {fault}\n{}", usage());
            return ExitCode::from(2);
        }
    };
    match picture(&options).and_then(|picture| write_output(&picture)) {
        Ok(()) => ExitCode::SUCCESS,
        Err(fault) => {
            eprintln!("depot_draw: {fault}");
            ExitCode::from(1)
        }
    }
}

fn picture(options: &Options) -> Result<String, String> {
    let mut bytes = Vec::new();
    let read = io::stdin().read_to_end(&mut bytes);
    read.map_err(|error| format!("input: {error}"))?;
    draw(&Input::read(&bytes)?, options)
}

fn write_output(picture: &str) -> Result<(), String> {
    let written = io::stdout().write_all(picture.as_bytes());
    written.map_err(|error| format!("output: {error}"))
}
