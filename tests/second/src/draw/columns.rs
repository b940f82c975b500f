//! The columns of the picture, one a turn, and how wide they must be for what stands in them.

use super::look::width;
use super::rows::reason_mark;
use super::trace::{Life, Outcome, Trace};
use super::{LEFT, answer_words, party_mark};

/// The narrowest and the widest column, and how wide all are together if that lies between.
const NARROWEST: f64 = 8.0;
const WIDEST: f64 = 22.0;
const TOGETHER: f64 = 1400.0;
/// How far the sign of an answer reaches to both sides, and where its words begin.
pub const SIGN: f64 = 5.0;
pub const ANSWER: f64 = 7.0;
/// The space behind an answer's words.
pub const SPACE: f64 = 3.0;

pub struct Columns {
    first: usize,
    count: usize,
    pub width: f64,
}

impl Columns {
    pub fn of(trace: &Trace) -> Columns {
        let count = trace.turns.len();
        let least = [NARROWEST, widest_mark(trace), room_for_answers(trace)];
        let least = least.into_iter().fold(0.0, f64::max).min(WIDEST);
        Columns {
            first: trace.first,
            count,
            width: (TOGETHER / count.max(1) as f64).clamp(least, WIDEST),
        }
    }

    /// Where the column of a turn begins.
    pub fn x(&self, turn: usize) -> f64 {
        LEFT + (turn - self.first) as f64 * self.width
    }

    /// The middle of a turn's column.
    pub fn middle(&self, turn: usize) -> f64 {
        self.x(turn) + self.width / 2.0
    }

    /// Where the words of an answer end that is written in these turns.
    pub fn answer_end(&self, trace: &Trace, life: &Life) -> Option<f64> {
        let (turn, answer) = trace.answer_shown(life)?;
        Some(self.middle(turn) + answer_length(answer))
    }

    /// Where the last column and the last words end.
    pub fn end(&self, trace: &Trace) -> f64 {
        let answers = trace.lives_shown();
        let ends = answers.filter_map(|(_, life)| self.answer_end(trace, life));
        ends.fold(self.x(self.first + self.count), f64::max)
    }
}

/// How far an answer reaches to the right of the middle of its turn's column.
fn answer_length(answer: u16) -> f64 {
    ANSWER + width(&answer_words(answer), "small")
}

/// The widest of the marks that stand in the middle of a column.
fn widest_mark(trace: &Trace) -> f64 {
    let widths = trace.turns.iter().map(|turn| {
        let why = match turn.outcome {
            Outcome::Wait(reason) => width(&reason_mark(reason), "why"),
            Outcome::Step | Outcome::Wrote { .. } => 0.0,
        };
        why.max(width(&party_mark(turn.party), "who"))
    });
    widths.fold(0.0, f64::max)
}

/// How wide columns must be so that each answer of a record ends before the next one's sign.
fn room_for_answers(trace: &Trace) -> f64 {
    let mut least: f64 = 0.0;
    for record in trace.records_used() {
        let lives = trace
            .lives_shown()
            .filter(|(_, life)| life.record == record);
        let answers = lives.filter_map(|(_, life)| trace.answer_shown(life));
        for pair in answers.collect::<Vec<(usize, u16)>>().windows(2) {
            let length = answer_length(pair[0].1) + SPACE + SIGN;
            least = least.max(length / (pair[1].0 - pair[0].0) as f64);
        }
    }
    least
}
