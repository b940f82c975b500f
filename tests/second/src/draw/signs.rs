//! The signs of the picture, which the legend shows once more.

use super::columns::SIGN;
use super::party_class;
use super::svg::{Svg, short};

/// How long an arrow's head is, and how far behind its line's end a ring has its middle.
const HEAD: f64 = 6.0;
const RING: f64 = 3.6;

/// A line between two records: with an arrow's head to the one that a wait begins for, or with a
/// ring back to the one whose wait ends.
pub struct Line {
    pub begins: bool,
    pub x: f64,
    pub from: f64,
    pub to: f64,
}

impl Line {
    pub fn draw(&self, svg: &mut Svg) {
        let class = if self.begins { "arrow" } else { "freed" };
        let [x, from, to] = [self.x, self.from, self.to].map(short);
        svg.path(class, &format!("M{x} {from}V{to}"));
    }

    /// Draws the head or the ring, which goes on where the line ends.
    pub fn draw_end(&self, svg: &mut Svg) {
        let sign = (self.to - self.from).signum();
        if self.begins {
            let [x, tip, back] = [self.x, self.to + sign * HEAD, -sign * HEAD].map(short);
            svg.path("head", &format!("M{x} {tip}l-3 {back}h6z"));
        } else {
            svg.circle("ring", self.x, self.to + sign * RING, 2.8);
        }
    }
}

/// The sign above a lock that a turn waited for; `y` is where the lock's strip begins.
pub fn draw_block(svg: &mut Svg, x: f64, y: f64) {
    svg.path(
        "block",
        &format!("M{} {}h7l-3.5 5z", short(x - 3.5), short(y - 5.5)),
    );
}

/// A writing turn.
pub fn draw_diamond(svg: &mut Svg, x: f64, y: f64) {
    let half = short(SIGN);
    svg.path(
        "wrote",
        &format!(
            "M{} {}l{half} {half}l-{half} {half}l-{half} -{half}z",
            short(x),
            short(y - SIGN)
        ),
    );
}

pub fn draw_cross(svg: &mut Svg, x: f64, y: f64) {
    let [x, y] = [short(x - 3.0), short(y - 3.0)];
    svg.path("wait", &format!("M{x} {y}l6 6m0 -6l-6 6"));
}

/// The wait of an idle worker that is above the count in force: its dot, but pale.
pub fn draw_rest(svg: &mut Svg, party: u8, x: f64, y: f64) {
    svg.circle(&format!("rest {}", party_class(party)), x, y, 3.5);
}
