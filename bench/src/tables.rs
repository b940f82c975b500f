//! The tables: what is measured, and how it is shown.

use std::time::Duration;

use second::command::Kind;
use second::run::Settings;

use crate::checkpoint::{MANY, list, source};
use crate::input::{Input, Kinds, Order};
use crate::measure::{Bench, CALL_STEPS, StepTimes, Times, ratio};
use crate::rounds;

const MOST_COMMANDS: usize = 4096;
/// The most turns dealt of a list where many settings are measured.
const FEWER_TURNS: usize = 2_000_000;
const LARGEST: Settings = settings(150, 64, 4096);
/// Settings of which whole lists are measured.
const WHOLE: [Settings; 3] = [LARGEST, settings(8, 4, 4096), settings(2, 1, 4096)];

const fn settings(size: u8, workers: u8, room: u16) -> Settings {
    Settings {
        size,
        workers,
        room,
    }
}

/// Measures and prints one part, or all.
pub fn print(bench: &Bench, part: Option<&str>) -> Result<(), String> {
    type Part = fn(&Bench) -> Result<(), String>;
    let parts: [(&str, Part); 9] = [
        ("steps", steps),
        ("calls", calls),
        ("growth", growth),
        ("reads", reads),
        ("mailing", mailing),
        ("checkpoint", checkpoint),
        ("dispatch", dispatch),
        ("rounds", rounds),
        ("full", full),
    ];
    if let Some(part) = part
        && parts.iter().all(|(name, _)| *name != part)
    {
        return Err(format!(
            "no part `{part}`; the parts are steps, calls, growth, reads, mailing, checkpoint, \
             dispatch, rounds and full"
        ));
    }
    println!(
        "Medians of {} runs, processor time. After every run the lists of both sides are compared; a \
         difference ends this with status 1.",
        bench.runs
    );
    for (name, print) in parts {
        if part.is_none_or(|part| part == name) {
            println!();
            print(bench)?;
        }
    }
    Ok(())
}

/// Whole lists by random and round-robin turns.
fn steps(bench: &Bench) -> Result<(), String> {
    println!("Steps: a list of {MOST_COMMANDS} commands, in calls of {CALL_STEPS}.\n");
    table_of_steps(bench, Kinds::InsertsAndReads)
}

/// The same of a list that has nothing but reads.
fn reads(bench: &Bench) -> Result<(), String> {
    println!("Reads: a list of {MOST_COMMANDS} reads, in calls of {CALL_STEPS}.\n");
    table_of_steps(bench, Kinds::Reads)
}

/// The same of a list that inserts new items by turns with reads of others, and how long these wait.
fn mailing(bench: &Bench) -> Result<(), String> {
    println!(
        "Mailing: a list of {MOST_COMMANDS} commands, every second an insert of a new item, the \
         others reads of other items, in calls of {CALL_STEPS}.\n"
    );
    table_of_steps(bench, Kinds::Mailing)
}

const STEPS: [&str; 10] = [
    "Size, workers, room",
    "Schedule",
    "Steps",
    "Waits",
    "Proved, steps/s",
    "Plain, steps/s",
    "Ratio of times",
    "Plain turns alone, steps/s",
    "Ratio",
    "Ratio, both with opening",
];

fn table_of_steps(bench: &Bench, kinds: Kinds) -> Result<(), String> {
    let mut headings = STEPS.map(str::to_string).to_vec();
    if kinds == Kinds::Mailing {
        headings.push("Mean steps from a read's linking to its answer".to_string());
    }
    print_row(&headings);
    println!("|{}", "---|".repeat(headings.len()));
    let orders = [
        ("random", Order::Random),
        ("round-robin", Order::RoundRobin),
        ("long chain", Order::LongChain),
        ("random, no waits", Order::Moving),
    ];
    for settings in WHOLE {
        for (name, order) in orders {
            let input = Input::new(settings, kinds, MOST_COMMANDS, order, bench.most_turns);
            let mut row = row_of_steps(name, &input, &bench.steps(&input)?);
            if kinds == Kinds::Mailing {
                let mean = input.waiting.mean();
                row.push(mean.map_or(String::new(), |mean| format!("{mean:.0}")));
            }
            print_row(&row);
        }
    }
    Ok(())
}

fn row_of_steps(name: &str, input: &Input, times: &StepTimes) -> Vec<String> {
    let steps = input.schedule.len();
    let done = if input.done { "" } else { " (not done)" };
    vec![
        shown(input.settings),
        name.to_string(),
        format!("{steps}{done}"),
        percent(input.waits, steps),
        rate(steps, times.calls.proved),
        rate(steps, times.calls.plain),
        format!("{:.2}", times.calls.ratio()),
        rate(steps, times.turns.plain),
        format!("{:.2}", times.turns.ratio()),
        format!("{:.2}", times.whole.ratio()),
    ]
}

/// Size, workers and room.
fn shown(settings: Settings) -> String {
    let Settings {
        size,
        workers,
        room,
    } = settings;
    format!("{size}, {workers}, {room}")
}

fn print_row(cells: &[String]) {
    println!("| {} |", cells.join(" | "));
}

/// Opening, and a call with an empty schedule.
fn calls(bench: &Bench) -> Result<(), String> {
    let input = long_chain(LARGEST, MOST_COMMANDS);
    println!("Calls: size 150, 64 workers, room 4096, {MOST_COMMANDS} commands.\n");
    println!("| Call | Proved | Plain | Ratio |");
    println!("|---|---|---|---|");
    for (name, times) in [
        ("open", bench.open(&input)?),
        ("advance, empty schedule", bench.empty(&input)?),
    ] {
        println!("| {name} | {} |", cells(times));
    }
    Ok(())
}

/// A checkpoint of a full store, and openings from its image. What a checkpoint costs is what a call
/// takes longer than one with worker changes, which have as many turns, in the same places.
fn checkpoint(bench: &Bench) -> Result<(), String> {
    println!(
        "Checkpoint: size 150, 64 workers, room 4096, 4096 entries in the store; {MANY} commands, \
         one after the other.\n"
    );
    println!("| | Proved | Plain | Ratio |");
    println!("|---|---|---|---|");
    let [checkpoints, changes] = [Kind::Checkpoint, Kind::Workers].map(list);
    let [with, without] = [bench.served(&checkpoints)?, bench.served(&changes)?];
    println!("| call that writes {MANY} checkpoints | {} |", cells(with));
    println!("| {MANY} worker changes for them | {} |", cells(without));
    println!(
        "| a checkpoint, by the difference | {} |",
        cells(with.less(without, MANY))
    );
    for (name, input) in [
        ("a checkpoint", &checkpoints),
        ("a worker change", &changes),
    ] {
        let times = bench.writing(input)?;
        println!("| call of one turn that writes {name} | {} |", cells(times));
    }
    for (name, in_order) in [("in order", true), ("in any order", false)] {
        let times = bench.open_from(&checkpoints, &source(in_order))?;
        println!("| open_from, 4096 entries {name} | {} |", cells(times));
    }
    println!(
        "| open, the same list | {} |",
        cells(bench.open(&checkpoints)?)
    );
    Ok(())
}

/// A list dispatched from its opening to its end, and the same turns given to both sides.
fn dispatch(bench: &Bench) -> Result<(), String> {
    println!(
        "Dispatch: the list of the steps, from its opening to its end in one call; and the steps \
         that were written, advanced from the same opening in one call.\n"
    );
    println!(
        "| Size, workers, room | Steps | Bound | Used | Dispatch, proved | Advance, proved | Ratio \
         | Advance, plain | Dispatch, ratio to plain | Advance, ratio to plain |"
    );
    println!("|---|---|---|---|---|---|---|---|---|---|");
    for settings in WHOLE {
        let kinds = Kinds::InsertsAndReads;
        let input = Input::new(settings, kinds, MOST_COMMANDS, Order::Random, 0);
        let it = bench.dispatch(&input)?;
        println!(
            "| {} | {} | {} | {} | {} | {} | {:.2} | {} | {:.2} | {:.2} |",
            shown(settings),
            it.steps,
            it.bound,
            percent(it.steps, it.bound),
            micros(it.dispatch),
            micros(it.advance),
            ratio(it.dispatch, it.advance),
            micros(it.plain),
            ratio(it.dispatch, it.plain),
            ratio(it.advance, it.plain),
        );
    }
    Ok(())
}

/// Document 02, A.9: the rounds of full lists, beside plain Rust that keeps the largest rounds, and beside
/// plain Rust that goes over all pairs.
fn rounds(bench: &Bench) -> Result<(), String> {
    println!("Rounds: lists of {MOST_COMMANDS} commands.\n");
    println!(
        "| List | Rounds | Proved | Plain | Ratio | Plain, commands read before | Plain by all pairs, \
         commands read before |"
    );
    println!("|---|---|---|---|---|---|---|");
    for (name, list) in rounds::input::lists() {
        let it = bench.rounds(&list)?;
        println!(
            "| {name} | {} | {} | {} | {} |",
            it.rounds,
            cells(it.calls),
            micros(it.kept),
            micros(it.pairs)
        );
    }
    Ok(())
}

/// Document 02, A.14: a full list's schedule by the dispatcher, beside plain Rust and beside threads. The
/// ratio that the request names is printed last.
fn full(bench: &Bench) -> Result<(), String> {
    let input = Input::new(
        LARGEST,
        Kinds::InsertsAndReads,
        MOST_COMMANDS,
        Order::Random,
        0,
    );
    let it = bench.full(&input)?;
    println!(
        "Full list: size 150, 64 workers, room 4096, {MOST_COMMANDS} commands, the dispatcher's {} \
         steps from opening.\n",
        it.steps
    );
    println!("| | Commands a second |");
    println!("|---|---|");
    let commands = |time: Duration| {
        let millions = MOST_COMMANDS as f64 / time.as_secs_f64() / 1e6;
        format!("{millions:.2} million")
    };
    println!(
        "| open and dispatch, proved, one core | {} |",
        commands(it.dispatched)
    );
    for workers in [1, 2, 4, 64] {
        let time = bench.threads(&input, workers)?;
        println!(
            "| plain threads, a mutex a record, {workers} workers | {} |",
            commands(time)
        );
    }
    println!("\n| | Proved | Plain | Ratio |");
    println!("|---|---|---|---|");
    println!(
        "| open and advance; plain reads each command once and keeps its arrays | {} |",
        cells(it.dealt.whole)
    );
    println!(
        "| advance; plain keeps its arrays | {} |",
        cells(it.dealt.turns)
    );
    println!(
        "| advance, calls on the same bytes | {} |",
        cells(it.dealt.calls)
    );
    Ok(())
}

/// How opening, an empty call and a step grow with list, size and room.
fn growth(bench: &Bench) -> Result<(), String> {
    println!(
        "Growth: long chain, 64 workers, at most {FEWER_TURNS} steps; the rest at its largest.\n"
    );
    println!(
        "| | Open, proved | plain | ratio | Empty call, proved | plain | ratio \
         | Steps | Waits | A step, proved | plain | ratio |"
    );
    println!("|---|---|---|---|---|---|---|---|---|---|---|---|");
    for count in [1, 16, 256, 1024, MOST_COMMANDS] {
        grown(bench, &format!("list {count}"), LARGEST, count)?;
    }
    for size in [1, 8, 32, 64, 150] {
        let settings = settings(size, 64, 4096);
        grown(bench, &format!("size {size}"), settings, MOST_COMMANDS)?;
    }
    for room in [1, 64, 512, 4096] {
        let settings = settings(150, 64, room);
        grown(bench, &format!("room {room}"), settings, MOST_COMMANDS)?;
    }
    Ok(())
}

fn grown(bench: &Bench, name: &str, settings: Settings, count: usize) -> Result<(), String> {
    let input = long_chain(settings, count);
    let steps = input.schedule.len();
    let whole = bench.steps(&input)?.calls;
    let step = |time: Duration| format!("{:.1} ns", time.as_secs_f64() * 1e9 / steps as f64);
    println!(
        "| {name} | {} | {} | {steps} | {} | {} | {} | {:.2} |",
        cells(bench.open(&input)?),
        cells(bench.empty(&input)?),
        percent(input.waits, steps),
        step(whole.proved),
        step(whole.plain),
        whole.ratio(),
    );
    Ok(())
}

/// A list with inserts, by turns that fill the chain up.
fn long_chain(settings: Settings, count: usize) -> Input {
    let kinds = Kinds::InsertsAndReads;
    Input::new(settings, kinds, count, Order::LongChain, FEWER_TURNS)
}

/// Both times and their ratio.
fn cells(times: Times) -> String {
    let ratio = times.ratio();
    format!(
        "{} | {} | {ratio:.2}",
        micros(times.proved),
        micros(times.plain)
    )
}

fn micros(time: Duration) -> String {
    format!("{:.1} µs", time.as_secs_f64() * 1e6)
}

fn rate(steps: usize, time: Duration) -> String {
    format!("{:.1} million", steps as f64 / time.as_secs_f64() / 1e6)
}

fn percent(part: usize, whole: usize) -> String {
    format!("{:.0} %", 100.0 * part as f64 / whole as f64)
}
