//! The forms of the comparison, and what they print.

use std::env;
use std::fs;
use std::path::PathBuf;
use std::process::ExitCode;

use second::generate::runs::{self, FIXED};
use second::generate::{Sort, cases};
use second::met::Met;
use second::play::{Difference, Play};
use second::script::Step;

use crate::archive::Archive;

const DEFAULT_SEED: u64 = 47_312_482;
/// Of 23 runs, 21 deal turns through the calls; the others are refused openings and inputs of the
/// program.
const DEFAULT_RUNS: u64 = 22_000;
const FAILING: &str = "target/failing-case";
/// How many differing inputs are printed.
const SHOWN: usize = 10;

/// What the words of the call ask for.
struct Options {
    seed: u64,
    runs: u64,
    replay: Option<PathBuf>,
    program: PathBuf,
}

pub fn main() -> ExitCode {
    let Some(options) = options() else {
        eprintln!("usage: compare_depot [--seed N] [--runs N] [--replay FILE] [--program PATH]");
        return ExitCode::from(2);
    };
    let archive = Archive {
        program: options.program,
    };
    if !archive.program.is_file() {
        eprintln!("compare_depot: no program {}", archive.program.display());
        return ExitCode::from(2);
    }
    let same = match options.replay {
        Some(file) => replay_file(&archive, &file),
        None => Some(compare_all(&archive, options.seed, options.runs)),
    };
    match same {
        Some(true) => ExitCode::SUCCESS,
        Some(false) => ExitCode::FAILURE,
        None => ExitCode::from(2),
    }
}

fn options() -> Option<Options> {
    let program = env::var_os("DEPOT_PROGRAM").unwrap_or("target/bin/depot".into());
    let mut options = Options {
        seed: DEFAULT_SEED,
        runs: DEFAULT_RUNS,
        replay: None,
        program: program.into(),
    };
    let mut words = env::args().skip(1);
    while let Some(word) = words.next() {
        let value = words.next()?;
        match word.as_str() {
            "--seed" => options.seed = value.parse().ok()?,
            "--runs" => options.runs = value.parse().ok()?,
            "--replay" => options.replay = Some(value.into()),
            "--program" => options.program = value.into(),
            _ => return None,
        }
    }
    Some(options)
}

/// Whether nothing differs in all inputs of a seed, and these meet all that they should.
fn compare_all(archive: &Archive, seed: u64, runs: u64) -> bool {
    fs::remove_file(FAILING).ok(); // of an earlier comparison
    let mut tally = Tally::default();
    for (sort, case) in cases(seed) {
        let mut play = Play::new(archive);
        let outcome = play.take_all(case).map(|_| ());
        tally.count(sort, &play, outcome);
    }
    for index in 0..FIXED + runs {
        let mut play = Play::new(archive);
        let outcome = runs::play(seed, index, &mut play);
        tally.count(runs::sort(index), &play, outcome);
    }
    println!("met: {}", tally.met.lines().join(", "));
    println!("{}", tally.met.dispatches.nearest());
    if tally.met.lacks_any() {
        println!("compare_depot: something is never met");
    }
    let sorts = Sort::ALL.map(|sort| format!("{} {}", sort.name(), tally.counts[sort as usize]));
    println!("{}", sorts.join(", "));
    println!(
        "compare_depot: {} compared, {} differ, seed {seed}",
        tally.counts.iter().sum::<u64>(),
        tally.differing
    );
    tally.differing == 0 && !tally.met.lacks_any()
}

/// What was compared so far.
#[derive(Default)]
struct Tally {
    /// How many inputs of each sort, in the order of `Sort::ALL`.
    counts: [u64; Sort::ALL.len()],
    met: Met,
    differing: usize,
}

impl Tally {
    /// Counts an input; one that differs is printed, and the first is written down.
    fn count(&mut self, sort: Sort, play: &Play, outcome: Result<(), Difference>) {
        self.met += &play.met;
        let count = &mut self.counts[sort as usize];
        *count += 1;
        let Err(difference) = outcome else {
            return;
        };
        if self.differing < SHOWN {
            println!("{} {count}: {difference}", sort.name());
        }
        if self.differing == 0 {
            write_failing(&play.steps, &difference);
        }
        self.differing += 1;
    }
}

/// Writes an input down, a line a step.
fn write_failing(steps: &[Step], difference: &Difference) {
    let lines: String = steps.iter().map(|step| format!("{step}\n")).collect();
    let written = fs::create_dir_all("target").and_then(|()| fs::write(FAILING, lines));
    match written {
        Ok(()) => println!("written to {FAILING}: {difference}"),
        Err(error) => eprintln!("compare_depot: {FAILING}: {error}"),
    }
}

/// Whether nothing differs in the input of a file, if it is one.
fn replay_file(archive: &Archive, file: &PathBuf) -> Option<bool> {
    let lines = fs::read_to_string(file)
        .inspect_err(|error| eprintln!("compare_depot: {}: {error}", file.display()))
        .ok()?;
    let steps: Option<Vec<Step>> = lines.lines().map(Step::parse).collect();
    let Some(steps) = steps else {
        eprintln!("compare_depot: {} is no input", file.display());
        return None;
    };
    let count = steps.len();
    let outcome = Play::new(archive).take_all(steps);
    match &outcome {
        Ok(_) => println!("{}: {count} steps, nothing differs", file.display()),
        Err(difference) => println!("{}: {difference}", file.display()),
    }
    Some(outcome.is_ok())
}
