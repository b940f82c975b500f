//! The table below the rows: what became of each command, at which turns, and why it waited.

use super::look::width;
use super::rounds::{self, Rounds};
use super::svg::Svg;
use super::trace::{Life, Outcome, Reason, Trace, Wait};
use super::{GAP, LINE, Page, RIGHT, answer_words, party_name};
use crate::command::{Command, Kind};
use crate::text::input::Input;
use crate::text::{count, show_command};

const HEADING: &str = "What became of each command, and at which turn";
const RULE: &str = "A command waits for every earlier one of the same item, but a read not for a \
read. Inserts and deletes also wait for one another, whatever their items. All else goes side by \
side.";
/// What is added to the rule where the list changes the worker count.
const RULE_OF_CHANGES: &str = "A change of the workers waits for every earlier command, and every \
later one waits for it. From its writing turn a worker above the new count begins no search and \
takes no command.";
/// What is added where it has a checkpoint.
const RULE_OF_CHECKPOINTS: &str = "A checkpoint waits for every earlier command, and every later \
one waits for it. Its writing turn puts the store into the image.";
/// What is added where commands are coloured by round.
const RULE_OF_ROUNDS: &str = "The round of a command is the first after those of the earlier ones \
that it must wait for";
/// The most commands that the table names.
const MOST: usize = 24;
/// Where each column begins, and its heading.
const COLUMNS: [(f64, &str); 9] = [
    (0.0, "command"),
    (206.0, "answer"),
    (314.0, "record"),
    (366.0, "loaded"),
    (418.0, "linked"),
    (466.0, "taken"),
    (588.0, "written"),
    (644.0, "removed"),
    (706.0, "had to wait for"),
];

/// The index of the last column. Where commands are coloured by round, the column of the rounds stands
/// before it, so wide and with such a patch behind each number.
const WAITS: usize = COLUMNS.len() - 1;
const ROUND_WIDTH: f64 = 56.0;
const PATCH: [f64; 4] = [-4.0, -11.0, 38.0, 14.0];

/// The height of the table and the space below it.
pub fn height(trace: &Trace, input: &Input, rounds: Option<&Rounds>) -> f64 {
    let rows =
        trace.lives_shown().count().min(MOST) + usize::from(left_out(trace, input).is_some());
    let [changes, checkpoints] = [input.changes_workers(), input.has_checkpoints()];
    let below = 2 * usize::from(changes) + usize::from(checkpoints);
    let space = if below > 0 { 0.5 } else { 0.0 };
    ((rows + rules(input, rounds).len() + below) as f64 + 2.2 + space) * LINE + GAP
}

/// The rule, and what is added to it.
fn rules(input: &Input, rounds: Option<&Rounds>) -> Vec<String> {
    let mut rules = vec![RULE];
    if input.changes_workers() {
        rules.push(RULE_OF_CHANGES);
    }
    if input.has_checkpoints() {
        rules.push(RULE_OF_CHECKPOINTS);
    }
    let rounds = rounds.map(|rounds| format!("{RULE_OF_ROUNDS}. {}.", rounds.told()));
    rules
        .into_iter()
        .map(str::to_string)
        .chain(rounds)
        .collect()
}

impl Page<'_> {
    pub fn draw_table(&self, svg: &mut Svg) {
        let top = self.table_top;
        svg.text("section", RIGHT, top, HEADING);
        let mut y = top + LINE;
        for rule in rules(self.input, self.rounds.as_ref()) {
            svg.text("cell", RIGHT, y, &rule);
            y += LINE;
        }
        y += 0.2 * LINE;
        let columns = self.columns_told();
        for (x, heading) in &columns {
            svg.text("column", RIGHT + x, y, heading);
        }
        y += LINE;
        for (index, life) in self.trace.lives_shown().take(MOST) {
            self.draw_patch(svg, index, y);
            for ((x, _), words) in columns.iter().zip(self.cells(index, life)) {
                svg.text("cell", RIGHT + x, y, &words);
            }
            y += LINE;
        }
        if let Some(words) = left_out(&self.trace, self.input) {
            svg.text("cell", RIGHT, y, &words);
            y += LINE;
        }
        let mut below = Vec::new();
        if self.input.changes_workers() {
            below.extend([self.counts(), self.rests()]);
        }
        if self.input.has_checkpoints() {
            below.push(self.images());
        }
        for (index, words) in below.iter().enumerate() {
            svg.text("cell", RIGHT, y + (index as f64 + 0.5) * LINE, words);
        }
    }

    /// The columns, the rounds' among them if commands are coloured by them.
    fn columns_told(&self) -> Vec<(f64, &'static str)> {
        let mut columns = COLUMNS.to_vec();
        columns[WAITS].0 = self.waits_column();
        if self.rounds.is_some() {
            columns.insert(WAITS, (COLUMNS[WAITS].0, "round"));
        }
        columns
    }

    /// Where the last column begins.
    fn waits_column(&self) -> f64 {
        let rounds = if self.rounds.is_some() {
            ROUND_WIDTH
        } else {
            0.0
        };
        COLUMNS[WAITS].0 + rounds
    }

    /// The colour behind the number of a command's round.
    fn draw_patch(&self, svg: &mut Svg, index: usize, y: f64) {
        if let Some(round) = self.round_at(index as u16 + 1) {
            let [x, top, width, height] = PATCH;
            let x = RIGHT + COLUMNS[WAITS].0 + x;
            svg.rect(rounds::class(round), [x, y + top, width, height]);
        }
    }

    /// Which image stood from which turn on.
    fn images(&self) -> String {
        let mut words = vec!["Image: zeros from the opening".to_string()];
        for (index, life) in self.trace.lives.iter().enumerate() {
            let checkpoint = self.input.commands[index].kind == Kind::Checkpoint;
            if let (true, Some((turn, _))) = (checkpoint, life.written) {
                let entries = match life.entries {
                    1 => "1 entry".to_string(),
                    entries => format!("{entries} entries"),
                };
                words.push(format!(
                    "place {} and {entries} from turn {turn}",
                    index + 1
                ));
            }
        }
        self.within(0.0, words) + "."
    }

    /// Which count was in force from which turn on.
    fn counts(&self) -> String {
        let first = self.input.settings.workers;
        let mut words = vec![format!("Worker count in force: {first} from the opening")];
        for (command, life) in self.input.commands.iter().zip(&self.trace.lives) {
            if let (Some(count), Some((turn, _))) = (command.count(), life.written) {
                words.push(format!("{count} from turn {turn}"));
            }
        }
        self.within(0.0, words) + "."
    }

    /// The turns at which idle workers waited above it.
    fn rests(&self) -> String {
        let mut words = Vec::new();
        for worker in self.parties.iter().skip(1) {
            let turns = self.trace.numbered().filter(|(_, turn)| {
                turn.party == *worker && turn.outcome == Outcome::Wait(Reason::NotAllowed)
            });
            let turns: Vec<String> = turns.map(|(number, _)| number.to_string()).collect();
            if !turns.is_empty() {
                let turns = turns.join(" ");
                words.push(format!("{} at turns {turns}", party_name(*worker)));
            }
        }
        match words.first_mut() {
            None => return "No idle worker had a turn above it.".to_string(),
            Some(first) => *first = format!("Idle waits above it: {first}"),
        }
        self.within(0.0, words) + "."
    }

    /// As many of these, one after another, as the page has room for from here on; at least the
    /// first.
    fn within(&self, from: f64, words: Vec<String>) -> String {
        let length = |words: &str| width(words, "cell");
        let room = self.width - 2.0 * RIGHT - from - length("; and 10 more");
        let mut line = String::new();
        for (told, next) in words.iter().enumerate() {
            if told > 0 && length(&line) + length(next) > room {
                return format!("{line}; and {} more", words.len() - told);
            }
            let comma = if told > 0 { "; " } else { "" };
            line = format!("{line}{comma}{next}");
        }
        line
    }

    fn cells(&self, index: usize, life: &Life) -> Vec<String> {
        let turn = |turn: Option<usize>| turn.map_or(String::new(), |turn| turn.to_string());
        let command = show_command(&self.input.commands[index]);
        let taken = life
            .taken
            .map(|(turn, worker)| format!("{turn} by worker {worker}"));
        let mut cells = vec![
            format!("{} {command}", index + 1),
            life.written
                .map_or(String::new(), |(_, answer)| answer_words(answer)),
            life.record.to_string(),
            life.loaded.to_string(),
            turn(life.linked),
            taken.unwrap_or_default(),
            turn(life.written.map(|(turn, _)| turn)),
            turn(life.removed),
        ];
        let round = self.round_at(index as u16 + 1);
        cells.extend(round.map(|round| round.to_string()));
        cells.push(self.waits(index, &life.waits));
        cells
    }

    /// The waits of a command, as many as there is room for.
    fn waits(&self, index: usize, waits: &[Wait]) -> String {
        let words = waits.iter().map(|wait| {
            let earlier = &self.input.commands[usize::from(wait.place) - 1];
            let why = why(earlier, &self.input.commands[index]);
            let until = match wait.until {
                Some(turn) => format!("until turn {turn}"),
                None if self.trace.last() < self.input.schedule.len() => {
                    format!("past turn {}", self.trace.last())
                }
                None => "to the end".to_string(),
            };
            format!("{} ({why}) {until}", wait.place)
        });
        self.within(self.waits_column(), words.collect())
    }
}

/// Why a command waits for an earlier one that it depends on. None but a worker change or a
/// checkpoint waits for a read or an update of another item.
fn why(earlier: &Command, later: &Command) -> &'static str {
    match (earlier.kind, later.kind, earlier.key == later.key) {
        (Kind::Workers, ..) => "workers change",
        (Kind::Checkpoint, ..) => "a checkpoint",
        (_, Kind::Workers | Kind::Checkpoint, _) => "any command",
        (Kind::Insert, _, false) => "an insert",
        (Kind::Delete, _, false) => "a delete",
        (Kind::Read | Kind::Update, _, false) | (_, _, true) => "same item",
    }
}

/// What the table does not tell.
fn left_out(trace: &Trace, input: &Input) -> Option<String> {
    let [loaded, shown] = [trace.lives.len(), trace.lives_shown().count()];
    let number = |commands: usize| count(commands, "command");
    let [more, waiting, gone] = [
        shown.saturating_sub(MOST),
        input.commands.len() - loaded,
        loaded - shown,
    ];
    let sentences = [
        (more, format!("And {more} more.")),
        (
            waiting,
            format!("Not loaded in these turns: the last {}.", number(waiting)),
        ),
        (
            gone,
            format!("Removed before these turns: {}.", number(gone)),
        ),
    ];
    let told = sentences.into_iter().filter(|(commands, _)| *commands > 0);
    let told: Vec<String> = told.map(|(_, sentence)| sentence).collect();
    (!told.is_empty()).then(|| told.join(" "))
}
