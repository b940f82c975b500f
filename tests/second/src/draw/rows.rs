//! The rows: the turns' numbers, the head, a row a record and a row a party.

use super::columns::{ANSWER, SPACE};
use super::look::width;
use super::rounds;
use super::signs::{Line, draw_block, draw_cross, draw_diamond, draw_rest};
use super::svg::{Svg, short};
use super::trace::{Frame, Life, Outcome, Phase, Reason, Span, Turn};
use super::{NAMES, Page, answer_words, party_class, party_mark, party_name};
use crate::command::Kind;
use crate::run::{HEAD, Party};
use crate::text::{kind_name, show_command};

/// Heights of the axis and of the rows.
const AXIS: f64 = 28.0;
const HEAD_ROW: f64 = 22.0;
const RECORD: f64 = 58.0;
/// The row of the worker count in force.
pub const COUNT: f64 = 24.0;
pub const PARTY: f64 = 46.0;
/// Within a record's row: where the lock's strip, the bar, the words on it and those below it
/// stand. The bar has room above and below its words for the ends of arrows.
const STRIP: f64 = 6.0;
const STRIP_HEIGHT: f64 = 10.0;
const BAR: f64 = 17.0;
const BAR_HEIGHT: f64 = 26.0;
const ON_BAR: f64 = 33.0;
const WORDS: f64 = 53.0;
/// The band with the colour of a command's round: how far below the edge of a record's bar and of a
/// party's it begins, and how high it is. The edge keeps the colour of the state.
const BAND: f64 = 6.0;
const BAND_HEIGHT: f64 = 17.0;
const PARTY_BAND: f64 = 3.0;
const PARTY_BAND_HEIGHT: f64 = 12.0;
/// Where words begin in a span.
const MARGIN: f64 = 3.0;

/// The height of all that stands above the parties.
pub fn above_parties(records: usize) -> f64 {
    AXIS + HEAD_ROW + RECORD * records as f64
}

impl Page<'_> {
    pub fn draw_axis(&self, svg: &mut Svg) {
        let bottom = self.parties_top + PARTY * self.parties.len() as f64;
        svg.text("label", NAMES, self.axis + 9.0, "turn");
        svg.text("label", NAMES, self.axis + 22.0, "who");
        for (number, turn) in self.trace.numbered() {
            if self.has_number(number) {
                svg.text(
                    "axis",
                    self.columns.middle(number),
                    self.axis + 8.0,
                    &number.to_string(),
                );
            }
            if number % 5 == 0 {
                let x = short(self.columns.x(number + 1));
                let [top, bottom] = [short(self.axis + AXIS), short(bottom)];
                svg.path("grid", &format!("M{x} {top}V{bottom}"));
            }
            let class = format!("who {}", party_class(turn.party));
            svg.text(
                &class,
                self.columns.middle(number),
                self.axis + 21.0,
                &party_mark(turn.party),
            );
        }
    }

    /// Whether a turn's number stands above its column: every fifth does, and the first if the
    /// next is far enough.
    fn has_number(&self, number: usize) -> bool {
        let next = number.next_multiple_of(5);
        let far = (next - number) as f64 * self.columns.width;
        let first = number == self.trace.first;
        next == number || (first && far > width(&next.to_string(), "axis") + SPACE)
    }

    /// The lines between the records, then their bars, which hide the lines of others, then the
    /// ends of the lines, and then the words.
    pub fn draw_records(&self, svg: &mut Svg) {
        svg.text("label", NAMES, self.axis + AXIS + 14.0, "head");
        let lives = self.trace.lives_shown();
        let lines: Vec<Line> = lives.flat_map(|(_, life)| self.lines(life)).collect();
        for line in &lines {
            line.draw(svg);
        }
        for record in &self.records {
            self.draw_phases(svg, *record);
        }
        for line in &lines {
            line.draw_end(svg);
        }
        self.draw_locks(svg, HEAD);
        for record in &self.records {
            self.draw_locks(svg, *record);
            self.draw_sets(svg, *record);
        }
        for (index, life) in self.trace.lives_shown() {
            self.draw_command(svg, index, life);
        }
    }

    /// The row above the parties that says which workers the count in force allows.
    pub fn draw_counts(&self, svg: &mut Svg) {
        if !self.input.changes_workers() {
            return;
        }
        let y = self.parties_top - COUNT;
        svg.text("label", NAMES, y + 14.0, "allowed");
        for span in self.trace.spans(|frame| frame.in_force) {
            self.draw_bar(svg, "force", &span, y + 2.0, 16.0);
            let words = match span.value {
                1 => "worker 1".to_string(),
                count => format!("workers 1 to {count}"),
            };
            let brief = span.value.to_string();
            self.draw_fitting(svg, "cell", &span, y + 14.0, &[&words, &brief]);
        }
    }

    /// The turns after which a worker is above the count in force, behind all else in its row.
    fn draw_above(&self, svg: &mut Svg, party: u8, y: f64) {
        for span in self.trace.spans(|frame| u16::from(party) > frame.in_force) {
            if span.value {
                self.draw_bar(svg, "above", &span, y + 1.0, PARTY - 4.0);
            }
        }
    }

    pub fn draw_parties(&self, svg: &mut Svg) {
        for (index, party) in self.parties.iter().enumerate() {
            let y = self.parties_top + PARTY * index as f64;
            svg.text("label", NAMES, y + 14.0, &party_name(*party));
            self.draw_above(svg, *party, y);
            for span in self
                .trace
                .spans(|frame| (state(frame, *party), self.round_had(frame, *party)))
            {
                let (([name, brief], class), round) = span.value;
                self.draw_bar(svg, class, &span, y + 3.0, 15.0);
                if let Some(round) = round {
                    let class = format!("{} state", rounds::class(round));
                    self.draw_bar(svg, &class, &span, y + 3.0 + PARTY_BAND, PARTY_BAND_HEIGHT);
                }
                self.draw_fitting(svg, "small", &span, y + 14.0, &[name, brief]);
            }
            for (number, turn) in self.trace.numbered() {
                if turn.party == *party {
                    self.draw_turn(svg, number, turn, y + 26.0);
                }
            }
        }
    }

    /// Where the row of a record begins, if it has one.
    fn record_y(&self, record: u8) -> Option<f64> {
        let top = self.axis + AXIS;
        if record == HEAD {
            return Some(top);
        }
        let index = self.records.iter().position(|drawn| *drawn == record)?;
        Some(top + HEAD_ROW + RECORD * index as f64)
    }

    /// A record's bar, with the colour of the worker that has it along its lower edge.
    fn draw_phases(&self, svg: &mut Svg, record: u8) {
        let y = self.record_y(record).unwrap_or(0.0) + BAR;
        svg.text("label", NAMES, y + 17.0, &format!("record {record}"));
        for span in self
            .trace
            .spans(|frame| (frame.place(record), frame.phase(record)))
        {
            let phase = span.value.1;
            self.draw_bar(svg, phase_class(phase), &span, y, BAR_HEIGHT);
            if let Phase::Executing(worker) | Phase::Clearing(worker) = phase {
                self.draw_bar(svg, &party_class(worker), &span, y + BAR_HEIGHT - 3.0, 3.0);
            }
        }
        self.draw_bands(svg, record, y);
    }

    /// The colours of the rounds of the commands that have a record, on its bar at `y`.
    fn draw_bands(&self, svg: &mut Svg, record: u8, y: f64) {
        for span in self.trace.spans(|frame| self.round_at(frame.place(record))) {
            if let Some(round) = span.value {
                self.draw_bar(svg, rounds::class(round), &span, y + BAND, BAND_HEIGHT);
            }
        }
    }

    fn draw_bar<T>(&self, svg: &mut Svg, class: &str, span: &Span<T>, y: f64, height: f64) {
        let x = self.columns.x(span.first);
        let length = self.columns.x(span.last + 1) - x;
        match class {
            "" => {}
            "idle" => svg.rect(class, [x, y + height / 2.0 - 1.0, length, 2.0]),
            _ => svg.rect(class, [x, y, length, height]),
        }
    }

    /// The first of several wordings that fits on a span's bar, if one does.
    fn draw_fitting<T>(&self, svg: &mut Svg, class: &str, span: &Span<T>, y: f64, words: &[&str]) {
        let x = self.columns.x(span.first) + MARGIN;
        let room = self.columns.x(span.last + 1) - x - 1.0;
        if let Some(words) = fitting(class, room, words) {
            svg.text(class, x, y, words);
        }
    }

    /// The strip that shows who has a record locked, and which turns waited for that.
    fn draw_locks(&self, svg: &mut Svg, record: u8) {
        let y = self.record_y(record).unwrap_or(0.0) + STRIP;
        for span in self.trace.spans(|frame| frame.locked_by(record)) {
            let Some(party) = span.value else { continue };
            self.draw_bar(svg, &party_class(party), &span, y, STRIP_HEIGHT);
            let middle = (self.columns.x(span.first) + self.columns.x(span.last + 1)) / 2.0;
            svg.text("onlock", middle, y + 8.0, &party_mark(party));
        }
        for (number, turn) in self.trace.numbered() {
            if turn.outcome == Outcome::Wait(Reason::Locked(record)) {
                draw_block(svg, self.columns.middle(number), y);
            }
        }
    }

    /// The words below a bar that say for which commands it waits. They stand beside the line that
    /// begins or ends there, and behind the answer of the command that had the record before.
    fn draw_sets(&self, svg: &mut Svg, record: u8) {
        let places = |frame: &Frame| -> Vec<String> {
            let records = frame.waits_for(record).into_iter();
            records
                .map(|record| frame.place(record).to_string())
                .collect()
        };
        let y = self.record_y(record).unwrap_or(0.0) + WORDS;
        for span in self.trace.spans(places) {
            if !span.value.is_empty() {
                let list = span.value.join(", ");
                let words = [&format!("waits for {list}")[..], &format!("for {list}")];
                let x = self.columns.middle(span.first) + MARGIN;
                let x = x.max(self.answers_end(record, span.first) + SPACE);
                let room = self.columns.x(span.last + 1) - x;
                if let Some(words) = fitting("small", room, &words) {
                    svg.label("small", x, y, words);
                }
            }
        }
    }

    /// Where the answers of a record end that were written before a turn.
    fn answers_end(&self, record: u8, turn: usize) -> f64 {
        let lives = self.trace.lives_shown().filter(|(_, life)| {
            life.record == record && life.written.is_some_and(|(written, _)| written < turn)
        });
        let ends = lives.filter_map(|(_, life)| self.columns.answer_end(&self.trace, life));
        ends.fold(0.0, f64::max)
    }

    /// The lines to the records that a command begins to wait for in these turns, and back where
    /// such a wait ends; they go from bar to bar.
    fn lines(&self, life: &Life) -> Vec<Line> {
        let edge = |from: f64, to: f64| from + BAR + if to > from { BAR_HEIGHT } else { 0.0 };
        let mut lines = Vec::new();
        for wait in &life.waits {
            let rows = [life.record, wait.record].map(|record| self.record_y(record));
            let [Some(own), Some(other)] = rows else {
                continue;
            };
            let [own, other] = [edge(own, other), edge(other, own)];
            let ends = [
                (true, Some(wait.from), own, other),
                (false, wait.until, other, own),
            ];
            for (begins, turn, from, to) in ends {
                if let Some(turn) = turn.filter(|turn| self.trace.shows(*turn)) {
                    let x = self.columns.middle(turn);
                    lines.push(Line {
                        begins,
                        x,
                        from,
                        to,
                    });
                }
            }
        }
        lines
    }

    /// A command's words on its bar, and its writing turn with the answer below it.
    fn draw_command(&self, svg: &mut Svg, index: usize, life: &Life) {
        let Some(y) = self.record_y(life.record) else {
            return;
        };
        let command = &self.input.commands[index];
        let last = life.removed.map_or(self.trace.last(), |turn| turn - 1);
        let span = Span {
            value: (),
            first: life.loaded.max(self.trace.first),
            last,
        };
        let place = index + 1;
        let round = self.round_at(place as u16);
        let round = round.map_or(String::new(), |round| format!(", round {round}"));
        let words = [
            &format!("{place} {}{round}", show_command(command)),
            &format!("{place} {}{round}", kind_name(command.kind)),
            &format!("{place}{round}"),
            &place.to_string()[..],
        ];
        self.draw_fitting(svg, "cell", &span, y + ON_BAR, &words);
        if let Some((turn, answer)) = self.trace.answer_shown(life) {
            let x = self.columns.middle(turn);
            svg.label("small", x + ANSWER, y + WORDS, &answer_words(answer));
            draw_diamond(svg, x, y + WORDS - 3.0);
        }
    }

    /// A turn's mark in its party's row.
    fn draw_turn(&self, svg: &mut Svg, number: usize, turn: Turn, y: f64) {
        let x = self.columns.middle(number);
        let words = format!(
            "turn {number}, {}: {}",
            party_name(turn.party),
            self.told(number)
        );
        svg.open_group("turn", &words);
        match turn.outcome {
            Outcome::Step => svg.circle(&party_class(turn.party), x, y, 3.5),
            Outcome::Wrote { .. } => draw_diamond(svg, x, y),
            Outcome::Wait(Reason::NotAllowed) => draw_rest(svg, turn.party, x, y),
            Outcome::Wait(reason) => {
                draw_cross(svg, x, y);
                svg.text("why", x, y + 13.0, &reason_mark(reason));
            }
        }
        svg.close_group();
    }

    /// What became of a turn, in words.
    fn told(&self, number: usize) -> String {
        let turn = self.trace.turn(number);
        let frame = self.trace.frame(number);
        let above = u16::from(turn.party) > frame.in_force;
        match turn.outcome {
            Outcome::Step => match (state(frame, turn.party).0[0], above) {
                ("", _) => "becomes idle".to_string(),
                ("searching", true) => "searching, may take nothing".to_string(),
                (name, _) => name.to_string(),
            },
            Outcome::Wrote { record, answer } => {
                let place = frame.place(record);
                let looks = match self.input.commands[usize::from(place) - 1].kind {
                    Kind::Read => "looks up and ",
                    Kind::Insert
                    | Kind::Delete
                    | Kind::Update
                    | Kind::Workers
                    | Kind::Checkpoint => "",
                };
                let words = answer_words(answer);
                format!("{looks}answers command {place}: {words}")
            }
            Outcome::Wait(Reason::NoRecordFree) => "waits, no record is free".to_string(),
            Outcome::Wait(Reason::EveryCommandLoaded) => "waits, all is loaded".to_string(),
            Outcome::Wait(Reason::NotAllowed) => {
                format!("waits, above the worker count {}", frame.in_force)
            }
            Outcome::Wait(Reason::Locked(record)) => {
                let what = match record {
                    HEAD => "the head".to_string(),
                    _ => format!("record {record}"),
                };
                let whose = frame.locked_by(record).map_or(String::new(), party_name);
                format!("waits, {what} is locked by {whose}")
            }
        }
    }
}

/// The first of several wordings that is not wider than the room.
fn fitting<'a>(class: &str, room: f64, words: &[&'a str]) -> Option<&'a str> {
    let mut words = words.iter().copied();
    words.find(|words| width(words, class) <= room)
}

/// The sign below a wait that says why; a pale dot says it alone.
pub fn reason_mark(reason: Reason) -> String {
    match reason {
        Reason::NotAllowed => String::new(),
        Reason::Locked(HEAD) => "H".to_string(),
        Reason::Locked(record) => record.to_string(),
        Reason::NoRecordFree => "F".to_string(),
        Reason::EveryCommandLoaded => "E".to_string(),
    }
}

fn phase_class(phase: Phase) -> &'static str {
    match phase {
        Phase::Unused => "",
        Phase::Loading => "loading",
        Phase::Waiting => "waiting",
        Phase::Ready => "ready",
        Phase::Executing(_) => "executing",
        Phase::Clearing(_) => "clearing",
    }
}

/// The name of a party's state, long and short, and the class of its bar.
fn state(frame: &Frame, party: u8) -> ([&'static str; 2], &'static str) {
    match frame.parties[usize::from(party)] {
        Party::Idle => (["", ""], "idle"),
        Party::Loading { .. } => (["loading", "load"], "loading state"),
        Party::Searching { .. } => (["searching", "search"], "searching state"),
        Party::Holding { .. } => (["holding", "hold"], "executing state"),
        Party::LookedUp { .. } => (["looked up", "look"], "executing state"),
        Party::Written { .. } => (["written", "wrote"], "executing state"),
        Party::Walking { .. } => (["walking", "walk"], "executing state"),
        Party::Clearing { .. } => (["clearing", "clear"], "clearing state"),
    }
}
