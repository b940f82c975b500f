//! The legend: each sign of the picture with its meaning, in lines as wide as the page.

use super::look::width;
use super::rounds::Rounds;
use super::signs::{Line, draw_block, draw_cross, draw_diamond, draw_rest};
use super::svg::Svg;
use super::{LINE, Page, RIGHT, notes};
use crate::text::input::Input;

/// Where the legend begins if there is no note.
pub const TOP: f64 = 68.0;
/// Room for a sign, and between two entries.
const SIGN: f64 = 26.0;
const SPACE: f64 = 20.0;

/// A sign of the picture.
#[derive(Clone, Copy)]
enum Sign {
    Bar(&'static str),
    Band,
    Lock,
    Block,
    Turn,
    Writing,
    Wait,
    Rest,
    Arrow,
    Freed,
}

const ENTRIES: [(Sign, &str); 13] = [
    (Sign::Bar("loading"), "being loaded"),
    (
        Sign::Bar("waiting"),
        "in the chain, waits for other commands",
    ),
    (Sign::Bar("ready"), "in the chain, may be taken"),
    (Sign::Bar("executing"), "a worker has it (its colour below)"),
    (
        Sign::Bar("clearing"),
        "out of the chain, its worker takes it out of the others' sets",
    ),
    (Sign::Bar("searching"), "a worker searches the chain"),
    (Sign::Lock, "locked, by the party named (L: the loader)"),
    (Sign::Turn, "a turn of this party"),
    (
        Sign::Writing,
        "the writing turn, with the answer; a read looks up in it too",
    ),
    (
        Sign::Wait,
        "a wait, and why: number of the locked record, H head locked, F no record free, \
         E every command loaded",
    ),
    (Sign::Block, "a turn waited for this lock"),
    (Sign::Arrow, "begins to wait for the command it points at"),
    (Sign::Freed, "that wait ends"),
];

/// What is added where the list changes the worker count.
const CHANGES: [(Sign, &str); 3] = [
    (
        Sign::Bar("force"),
        "the workers that the count in force allows",
    ),
    (Sign::Bar("above"), "a worker above the count in force"),
    (
        Sign::Rest,
        "its wait: idle, it begins no search while it is above",
    ),
];

/// What is added, before the scale, where commands are coloured by round.
const BAND: (Sign, &str) = (
    Sign::Band,
    "the band on a bar: the round of its command, by these colours",
);

fn entries(input: &Input, rounds: Option<&Rounds>) -> Vec<(Sign, String)> {
    let mut entries = ENTRIES.to_vec();
    if input.changes_workers() {
        entries.extend(CHANGES);
    }
    if rounds.is_some() {
        entries.push(BAND);
    }
    let owned = |(sign, words): (Sign, &str)| (sign, words.to_string());
    let scale = rounds.into_iter().flat_map(Rounds::scale);
    let scale = scale.map(|(class, words)| (Sign::Bar(class), words));
    entries.into_iter().map(owned).chain(scale).collect()
}

/// The height of the legend on a page of this width.
pub fn height(input: &Input, rounds: Option<&Rounds>, page: f64) -> f64 {
    let places = places(&entries(input, rounds), page);
    places.last().map_or(0.0, |(_, y)| y + LINE)
}

impl Page<'_> {
    pub fn draw_legend(&self, svg: &mut Svg) {
        let top = TOP + LINE * notes(self.input, &self.trace).len() as f64;
        let entries = entries(self.input, self.rounds.as_ref());
        for ((sign, words), (x, y)) in entries.iter().zip(places(&entries, self.width)) {
            draw_sign(svg, *sign, x, top + y + LINE / 2.0);
            svg.text("cell", x + SIGN, top + y + LINE / 2.0 + 4.0, words);
        }
    }
}

/// Where each entry stands, from the legend's top left.
fn places(entries: &[(Sign, String)], page: f64) -> Vec<(f64, f64)> {
    let [mut x, mut y] = [RIGHT, 0.0];
    let mut places = Vec::new();
    for (_, words) in entries {
        let length = SIGN + width(words, "cell") + SPACE;
        if x + length > page && x > RIGHT {
            [x, y] = [RIGHT, y + LINE];
        }
        places.push((x, y));
        x += length;
    }
    places
}

/// Draws a sign whose middle line is at `y`.
fn draw_sign(svg: &mut Svg, sign: Sign, x: f64, y: f64) {
    let middle = x + 10.0;
    match sign {
        Sign::Bar(class) => svg.rect(class, [x, y - 6.0, 20.0, 12.0]),
        Sign::Band => {
            svg.rect("waiting", [x, y - 7.0, 20.0, 14.0]);
            svg.rect("r1", [x, y - 3.0, 20.0, 9.0]);
        }
        Sign::Lock => {
            svg.rect("p1", [x, y - 5.0, 20.0, 10.0]);
            svg.text("onlock", middle, y + 3.0, "1");
        }
        Sign::Block => draw_block(svg, middle, y + 3.0),
        Sign::Turn => svg.circle("p1", middle, y, 3.5),
        Sign::Writing => draw_diamond(svg, middle, y),
        Sign::Wait => draw_cross(svg, middle, y),
        Sign::Rest => draw_rest(svg, 1, middle, y),
        Sign::Arrow | Sign::Freed => {
            let begins = matches!(sign, Sign::Arrow);
            let [from, to] = if begins { [7.0, -1.0] } else { [-7.0, 0.0] };
            let line = Line {
                begins,
                x: middle,
                from: y + from,
                to: y + to,
            };
            line.draw(svg);
            line.draw_end(svg);
        }
    }
}
