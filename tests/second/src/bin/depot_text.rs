//! Turns a list of commands in text into the binary input of the program `depot`, and back, and shows
//! a list with its rounds.
//! It ends with 0, with 1 where something is refused and 2 where the options are wrong.

use std::fs;
use std::io::{self, Read, Write};
use std::process::ExitCode;

use second::text::input::Input;
use second::text::options::Options;
use second::text::{read_list, rounds, show, show_turns};

const USAGE: &str = "\
usage: depot_text --help
       depot_text pack --size N --workers N --room N [TURNS] < list.txt > input.bin
       depot_text unpack [--turns-file FILE] < input.bin > list.txt
       depot_text rounds < list.txt
TURNS: --turns \"0 1 ..\" | --turns-file FILE | --round-robin COUNT | --random SEED COUNT | --dispatch
list.txt has a line a command, with its place before it or without:
       insert IDENTIFIER CHUTE | update IDENTIFIER CHUTE | delete IDENTIFIER | read IDENTIFIER |
       workers COUNT | checkpoint
Behind # is a comment. Turns go to parties 0 up to the largest of --workers and the list's counts.
With --dispatch they are the dispatcher's, which bring the list to its end.
rounds shows the list with each command's round in a comment, from 1: the first round after those of the
earlier commands that it depends on. Those of one round do not wait for one another.";

/// Why there is no output.
enum Failure {
    /// The options are not understood.
    Usage(String),
    /// What was read is refused, or cannot be read or written.
    Refused(String),
}

fn main() -> ExitCode {
    let words: Vec<String> = std::env::args().skip(1).collect();
    match convert(&words).and_then(|output| write_output(&output)) {
        Ok(()) => ExitCode::SUCCESS,
        Err(Failure::Refused(fault)) => {
            eprintln!("depot_text: {fault}");
            ExitCode::from(1)
        }
        Err(Failure::Usage(fault)) => {
            eprintln!("depot_text: {fault}\n{USAGE}");
            ExitCode::from(2)
        }
    }
}

fn convert(words: &[String]) -> Result<Vec<u8>, Failure> {
    let words: Vec<&str> = words.iter().map(String::as_str).collect();
    match words.as_slice() {
        ["--help" | "-h"] => Ok(format!("{USAGE}\n").into_bytes()),
        ["pack", options @ ..] => {
            let options = Options::read(options).map_err(Failure::Usage)?;
            let list = read_input()?;
            options.pack(&list, read_file).map_err(Failure::Refused)
        }
        ["unpack"] => unpack(None),
        ["unpack", "--turns-file", file] => unpack(Some(file)),
        ["unpack", ..] => Err(Failure::Usage(
            "unpack has one option, --turns-file".to_string(),
        )),
        ["rounds"] => {
            let commands = read_list(&read_input()?).map_err(Failure::Refused)?;
            Ok(rounds::show(&commands).into_bytes())
        }
        ["rounds", ..] => Err(Failure::Usage("rounds has no options".to_string())),
        _ => Err(Failure::Usage("pack, unpack or rounds?".to_string())),
    }
}

fn unpack(turns_file: Option<&str>) -> Result<Vec<u8>, Failure> {
    let input = Input::read(&read_input()?).map_err(|refused| Failure::Refused(refused.into()))?;
    if let Some(file) = turns_file {
        let turns = show_turns(&input.schedule) + "\n";
        fs::write(file, turns).map_err(|error| refused(file, &error))?;
    }
    Ok(show(&input, turns_file).into_bytes())
}

fn read_input() -> Result<Vec<u8>, Failure> {
    let mut bytes = Vec::new();
    io::stdin()
        .read_to_end(&mut bytes)
        .map_err(|error| refused("input", &error))?;
    Ok(bytes)
}

fn write_output(output: &[u8]) -> Result<(), Failure> {
    io::stdout()
        .write_all(output)
        .map_err(|error| refused("output", &error))
}

fn read_file(file: &str) -> Result<Vec<u8>, String> {
    fs::read(file).map_err(|error| error.to_string())
}

fn refused(what: &str, error: &io::Error) -> Failure {
    Failure::Refused(format!("{what}: {error}"))
}
