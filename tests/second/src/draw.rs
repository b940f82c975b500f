//! A picture of a run: time runs to the right, a column a turn; the head, the records and the
//! parties have a row each, and a table below says what became of each command and why it waited.
//!
//! `options` says which turns are drawn, `trace` finds out what happened, `columns` and `look` how
//! much room it takes, `svg` and `signs` write shapes, `rows` draws the rows, `legend` and `table`
//! what stands above and below them, and `rounds` gives the commands colours if that is asked for.

mod columns;
mod legend;
mod look;
pub mod options;
mod rounds;
mod rows;
mod signs;
mod svg;
mod table;
#[cfg(test)]
mod tests;
mod trace;

use crate::serial::{ANNOUNCED_AGAIN, DONE, NO_SUCH_ITEM, STORE_FULL};
use crate::text::count;
use crate::text::input::Input;
use columns::Columns;
use look::{ROUND_STYLE, STYLE};
use options::Options;
use rounds::Rounds;
use svg::Svg;
use trace::Trace;

/// The most records and workers that are drawn.
const MOST_RECORDS: usize = 12;
const MOST_WORKERS: usize = 8;

/// Where the names of the rows end, where the first column begins, and how wide the page is at
/// least.
const NAMES: f64 = 78.0;
const LEFT: f64 = 92.0;
const RIGHT: f64 = 24.0;
const LEAST_WIDTH: f64 = 1200.0;
/// The height of a line of words, and of the space between two parts.
const LINE: f64 = 17.0;
const GAP: f64 = 14.0;

/// Draws the run of an input as SVG, or a window of it, or says why there is no such window.
pub fn draw(input: &Input, options: &Options) -> Result<String, String> {
    let turns = options.turns(input.schedule.len())?;
    let rounds = options.rounds.then(|| Rounds::of(&input.commands));
    let page = Page::of(input, turns, rounds);
    let mut svg = Svg::new();
    svg.rect("paper", [0.0, 0.0, page.width, page.height]);
    page.draw_heading(&mut svg);
    page.draw_legend(&mut svg);
    page.draw_axis(&mut svg);
    page.draw_records(&mut svg);
    page.draw_counts(&mut svg);
    page.draw_parties(&mut svg);
    page.draw_table(&mut svg);
    Ok(svg.finish(page.width, page.height, &page.title(), &page.style()))
}

/// What is drawn, and where.
struct Page<'a> {
    input: &'a Input,
    trace: Trace,
    /// The rounds of the commands, if they are coloured by them.
    rounds: Option<Rounds>,
    /// The records and parties that have a row.
    records: Vec<u8>,
    parties: Vec<u8>,
    columns: Columns,
    width: f64,
    height: f64,
    /// Where the axis, the parties and the table begin.
    axis: f64,
    parties_top: f64,
    table_top: f64,
}

impl Page<'_> {
    /// The page of the turns from a first to a last one.
    fn of(input: &Input, turns: [usize; 2], rounds: Option<Rounds>) -> Page<'_> {
        let trace = Trace::of(input, turns);
        let mut records = trace.records_used();
        records.truncate(MOST_RECORDS);
        let parties = parties_drawn(input, &trace);
        let columns = Columns::of(&trace);
        let width = (columns.end(&trace) + RIGHT).max(LEAST_WIDTH);
        let notes = notes(input, &trace).len() as f64;
        let legend = legend::height(input, rounds.as_ref(), width);
        let axis = legend::TOP + notes * LINE + legend + GAP;
        let counts = if input.changes_workers() {
            rows::COUNT
        } else {
            0.0
        };
        let parties_top = axis + rows::above_parties(records.len()) + GAP + counts;
        let table_top = parties_top + rows::PARTY * parties.len() as f64 + 2.0 * GAP;
        let height = table_top + table::height(&trace, input, rounds.as_ref());
        Page {
            input,
            trace,
            rounds,
            records,
            parties,
            columns,
            width,
            height,
            axis,
            parties_top,
            table_top,
        }
    }

    fn title(&self) -> String {
        format!("A run of {}", count(self.input.commands.len(), "command"))
    }

    fn style(&self) -> String {
        match self.rounds {
            Some(_) => [STYLE, ROUND_STYLE].concat(),
            None => STYLE.to_string(),
        }
    }

    fn draw_heading(&self, svg: &mut Svg) {
        let settings = self.input.settings;
        svg.text("heading", RIGHT, 30.0, &self.title());
        let words = format!(
            "Graph size {}, {}, room {}, {}. One column is one turn, and shows how things stand \
             after it.",
            settings.size,
            self.workers(),
            settings.room,
            count(self.input.schedule.len(), "turn"),
        );
        svg.text("cell", RIGHT, 50.0, &words);
        for (index, note) in notes(self.input, &self.trace).iter().enumerate() {
            svg.text("note", RIGHT, 50.0 + LINE * (index + 1) as f64, note);
        }
    }

    /// The workers of the opening, and where the list changes them, the most.
    fn workers(&self) -> String {
        let first = count(self.input.settings.workers.into(), "worker");
        if self.input.changes_workers() {
            format!("{first} at first, {} at the most", self.input.largest())
        } else {
            first
        }
    }
}

/// The loader, all workers if there are few, and else those that have a turn.
fn parties_drawn(input: &Input, trace: &Trace) -> Vec<u8> {
    let few = usize::from(input.largest()) <= MOST_WORKERS;
    let drawn = |worker: &u8| few || trace.turns.iter().any(|turn| turn.party == *worker);
    let workers = (1..=input.largest()).filter(drawn);
    [0].into_iter().chain(workers.take(MOST_WORKERS)).collect()
}

/// What is left out of the picture.
fn notes(input: &Input, trace: &Trace) -> Vec<String> {
    let mut notes = Vec::new();
    let [first, last, all] = [trace.first, trace.last(), input.schedule.len()];
    if trace.turns.len() < all {
        notes.push(if first == last {
            format!("Only turn {first} of {all} is drawn.")
        } else {
            format!("Only turns {first} to {last} of {all} are drawn.")
        });
    }
    let records = trace.records_used().len();
    if records > MOST_RECORDS {
        notes.push(format!(
            "Only the first {MOST_RECORDS} of {records} records used are drawn."
        ));
    }
    let [drawn, workers] = [
        parties_drawn(input, trace).len() - 1,
        input.largest().into(),
    ];
    if drawn < workers {
        notes.push(format!(
            "Only {drawn} of {workers} workers are drawn, the first that have a turn."
        ));
    }
    notes
}

/// An answer in words.
fn answer_words(answer: u16) -> String {
    match answer {
        DONE => "done".to_string(),
        NO_SUCH_ITEM => "no such item".to_string(),
        STORE_FULL => "store full".to_string(),
        ANNOUNCED_AGAIN => "announced again".to_string(),
        chute => format!("chute {chute}"),
    }
}

fn party_name(party: u8) -> String {
    match party {
        0 => "loader".to_string(),
        _ => format!("worker {party}"),
    }
}

/// The class that has a party's colour.
fn party_class(party: u8) -> String {
    match party {
        0..=8 => format!("p{party}"),
        _ => "other".to_string(),
    }
}

fn party_mark(party: u8) -> String {
    match party {
        0 => "L".to_string(),
        _ => party.to_string(),
    }
}
