//! Words that no line crosses.

use super::*;
use crate::draw::look::{look, text_box};

type Point = [f64; 2];

/// A shape of a picture.
#[derive(Default)]
struct Shape<'a> {
    /// The box around it.
    place: [f64; 4],
    /// What it says, if it is words.
    words: Option<&'a str>,
    is_rect: bool,
    /// Whether it hides what is behind it.
    hides: bool,
    /// The lines that it draws, and half their width.
    lines: Vec<[Point; 2]>,
    half: f64,
}

/// Which words are hard to read, by this rule. Shapes are drawn in the order of the picture, a
/// later one over an earlier one. Words have the box that `text_box` estimates. For each words:
///
/// 1. A line is a segment of a path, of a square around a circle, or of the outline of a rectangle
///    whose class has a stroke; it meets the words if it comes nearer to their box than half its
///    stroke. No line that is drawn after the words meets them. One that is drawn before them may,
///    if each point of the box that it reaches lies in a rectangle that is drawn between line and
///    words and is not pale (its class has no fill-opacity).
/// 2. No rectangle that is drawn after the words reaches into their box.
/// 3. The box of no other words reaches into theirs.
fn label_faults(picture: &str) -> Vec<String> {
    let shapes: Vec<Shape> = picture.lines().filter_map(read_shape).collect();
    let mut faults = Vec::new();
    for (at, text) in shapes.iter().enumerate() {
        let Some(words) = text.words else { continue };
        let near = |shape: &Shape| reach(shape.place, text.place) > -shape.half;
        for (other, shape) in shapes.iter().enumerate().filter(|(_, shape)| near(shape)) {
            let between = shapes.get(other + 1..at).unwrap_or_default();
            // Boxes that only touch reach into one another by what is lost to rounding.
            let covers = other > at && reach(shape.place, text.place) > 0.1;
            if covers && (shape.is_rect || shape.words.is_some()) {
                faults.push(format!("`{words}` is covered, shape {other}"));
            } else if crossed(shape, text.place, between) {
                faults.push(format!("`{words}` is crossed, shape {other}"));
            }
        }
    }
    faults
}

/// Whether a shape has a line that meets words in this place and is not hidden by what is drawn
/// between them.
fn crossed(shape: &Shape, [x, y, width, height]: [f64; 4], between: &[Shape]) -> bool {
    let half = shape.half;
    let wider = [x - half, y - half, width + 2.0 * half, height + 2.0 * half];
    let inside = |[at_x, at_y]: Point| [at_x.clamp(x, x + width), at_y.clamp(y, y + height)];
    let met = shape.lines.iter().filter_map(|line| clip(*line, wider));
    met.flat_map(points)
        .any(|point| !hidden(inside(point), between))
}

fn hidden([x, y]: Point, between: &[Shape]) -> bool {
    let at = [x, y, 0.0, 0.0];
    let mut covers = between.iter().filter(|shape| shape.hides);
    covers.any(|shape| reach(shape.place, at) >= 0.0)
}

/// How far two boxes reach into one another; less than 0 is how far they are apart.
fn reach(one: [f64; 4], other: [f64; 4]) -> f64 {
    let along = |axis: usize| {
        let ends = [one, other].map(|place| place[axis] + place[axis + 2]);
        ends[0].min(ends[1]) - one[axis].max(other[axis])
    };
    along(0).min(along(1))
}

/// The part of a segment that lies inside a box.
fn clip([from, to]: [Point; 2], place: [f64; 4]) -> Option<[Point; 2]> {
    let [mut enters, mut leaves] = [0.0f64, 1.0f64];
    for axis in 0..2 {
        let [start, way] = [from[axis], to[axis] - from[axis]];
        let [low, high] = [place[axis], place[axis] + place[axis + 2]];
        if way == 0.0 {
            if start <= low || start >= high {
                return None;
            }
        } else {
            let [one, two] = [(low - start) / way, (high - start) / way];
            enters = enters.max(one.min(two));
            leaves = leaves.min(one.max(two));
        }
    }
    (enters < leaves).then(|| [enters, leaves].map(|part| along([from, to], part)))
}

fn along([from, to]: [Point; 2], part: f64) -> Point {
    [0, 1].map(|axis| from[axis] + part * (to[axis] - from[axis]))
}

/// Points along a segment, its ends included.
fn points(segment: [Point; 2]) -> impl Iterator<Item = Point> {
    (0..=20).map(move |part| along(segment, f64::from(part) / 20.0))
}

fn around([x, y, width, height]: [f64; 4]) -> Vec<[Point; 2]> {
    let corners = [
        [x, y],
        [x + width, y],
        [x + width, y + height],
        [x, y + height],
    ];
    (0..4)
        .map(|corner| [corners[corner], corners[(corner + 1) % 4]])
        .collect()
}

/// The shape that stands in a line of a picture, if one does; empty words are none.
fn read_shape(line: &str) -> Option<Shape<'_>> {
    let attribute = |name: &str| -> Option<&str> {
        let (_, value) = line.split_once(&format!(" {name}=\""))?;
        Some(value.split_once('"')?.0)
    };
    let number = |name: &str| attribute(name).map_or(0.0, |value| value.parse().unwrap());
    let class = attribute("class")?;
    let [x, y, width, height] = ["x", "y", "width", "height"].map(number);
    match line.split(' ').next()? {
        "<text" => {
            let words = line.split(['<', '>']).nth(2).filter(|it| !it.is_empty())?;
            Some(Shape {
                place: text_box(class, x, y, words),
                words: Some(words),
                ..Shape::default()
            })
        }
        "<rect" => {
            let place = [x, y, width, height];
            let stroked = look(class, "stroke").is_some();
            let lines = if stroked { around(place) } else { Vec::new() };
            Some(Shape {
                is_rect: true,
                hides: look(class, "fill-opacity").is_none(),
                ..drawn(class, place, lines)
            })
        }
        "<circle" => {
            let [x, y, radius] = ["cx", "cy", "r"].map(number);
            let square = [x - radius, y - radius, 2.0 * radius, 2.0 * radius];
            Some(drawn(class, square, around(square)))
        }
        "<path" => {
            let lines = read_path(attribute("d")?);
            Some(drawn(class, box_of(&lines), lines))
        }
        _ => None,
    }
}

/// A shape of lines that are as wide as its class has it.
fn drawn(class: &str, place: [f64; 4], lines: Vec<[Point; 2]>) -> Shape<'static> {
    let half = match (look(class, "stroke"), look(class, "stroke-width")) {
        (None, _) => 0.0,
        (_, None) => 0.5,
        (_, Some(width)) => width.parse::<f64>().unwrap() / 2.0,
    };
    Shape {
        place,
        lines,
        half,
        ..Shape::default()
    }
}

fn box_of(lines: &[[Point; 2]]) -> [f64; 4] {
    let end = |axis: usize, choose: fn(f64, f64) -> f64| {
        let values = lines.iter().flatten().map(|point| point[axis]);
        values.reduce(choose).unwrap()
    };
    let [x, y] = [0, 1].map(|axis| end(axis, f64::min));
    [x, y, end(0, f64::max) - x, end(1, f64::max) - y]
}

/// The segments of a path of moves M, m, l, h, V and z.
fn read_path(moves: &str) -> Vec<[Point; 2]> {
    let starts = moves
        .char_indices()
        .filter(|(_, sign)| sign.is_alphabetic());
    let starts: Vec<usize> = starts
        .map(|(start, _)| start)
        .chain([moves.len()])
        .collect();
    let [mut at, mut begin] = [[0.0; 2]; 2];
    let mut segments = Vec::new();
    for pair in starts.windows(2) {
        let (name, rest) = moves[pair[0]..pair[1]].split_at(1);
        let numbers: Vec<f64> = rest
            .split_whitespace()
            .map(|it| it.parse().unwrap())
            .collect();
        let to = match (name, &numbers[..]) {
            ("M", [x, y]) => [*x, *y],
            ("m" | "l", [x, y]) => [at[0] + x, at[1] + y],
            ("h", [x]) => [at[0] + x, at[1]],
            ("V", [y]) => [at[0], *y],
            ("z", []) => begin,
            _ => panic!("a move of another sort: {moves}"),
        };
        match name {
            "M" | "m" => begin = to,
            _ => segments.push([at, to]),
        }
        at = to;
    }
    segments
}

/// The pictures that are kept.
fn kept() -> [String; 3] {
    ["wait", "shifts", "rounds"].map(|name| {
        let folder = concat!(env!("CARGO_MANIFEST_DIR"), "/../../examples");
        std::fs::read_to_string(format!("{folder}/{name}.svg")).expect("the example's picture")
    })
}

#[test]
fn no_line_crosses_words() {
    for picture in pictures(7).into_iter().chain(kept()) {
        let faults = label_faults(&picture);
        assert!(faults.is_empty(), "{faults:?}");
    }
}

/// All words are inside the page, which is the first rectangle.
#[test]
fn words_are_inside_the_page() {
    for picture in pictures(7).into_iter().chain(kept()) {
        let shapes: Vec<Shape> = picture.lines().filter_map(read_shape).collect();
        let page = shapes.iter().find(|shape| shape.is_rect).unwrap().place;
        for shape in shapes.iter().filter(|shape| shape.words.is_some()) {
            let [x, y, width, height] = shape.place;
            let inside = x >= 0.0 && x + width <= page[2] && y >= 0.0 && y + height <= page[3];
            assert!(inside, "{:?} at {:?} of {page:?}", shape.words, shape.place);
        }
    }
}

/// The rule, part by part.
#[test]
fn the_label_test_finds_faults() {
    let words = "<text class=\"small\" x=\"10\" y=\"20\">waits for 2</text>";
    let line = "<path class=\"arrow\" d=\"M30 0V40\"/>";
    let paper = "<rect class=\"paper\" x=\"9\" y=\"11\" width=\"70\" height=\"14\"/>";
    let pale = paper.replace("paper", "above");
    let short = paper.replace("70", "15");
    let stroked = paper
        .replace("paper", "force")
        .replace("x=\"9\"", "x=\"20\"");
    let dot = "<circle class=\"p1\" cx=\"30\" cy=\"18\" r=\"3.5\"/>";
    let cross = "<path class=\"wait\" d=\"M27 12l6 6m0 -6l-6 6\"/>";
    let beside = "<path class=\"arrow\" d=\"M8 0V40\"/>";
    let close = "<path class=\"arrow\" d=\"M9.7 0V40\"/>";
    for right in [
        &[words][..],
        &[line, paper, words],
        &[words, beside],
        &[paper, words],
        &[line, dot, cross, &stroked, paper, words],
    ] {
        assert_eq!(label_faults(&right.join("\n")), [""; 0], "{right:?}");
    }
    for wrong in [
        &[line, words][..],
        &[words, line],
        &[words, paper, line],
        &[paper, line, words],
        &[line, &pale, words],
        &[line, &short, words],
        &[words, paper],
        &[words, words],
        &[&stroked, words],
        &[dot, words],
        &[words, cross],
        &[words, close],
    ] {
        assert!(!label_faults(&wrong.join("\n")).is_empty(), "{wrong:?}");
    }
}
