//! A picture in SVG, written piece by piece: shapes with a class, whose look the style sheet gives.

use std::fmt::Write;

use super::look::text_box;

/// Grows downwards; numbers are in pixels.
pub struct Svg {
    body: String,
}

impl Svg {
    pub fn new() -> Svg {
        Svg {
            body: String::new(),
        }
    }

    pub fn rect(&mut self, class: &str, [x, y, width, height]: [f64; 4]) {
        self.push(&format!(
            "<rect class=\"{class}\" x=\"{}\" y=\"{}\" width=\"{}\" height=\"{}\"/>",
            short(x),
            short(y),
            short(width),
            short(height),
        ));
    }

    pub fn text(&mut self, class: &str, x: f64, y: f64, words: &str) {
        self.push(&format!(
            "<text class=\"{class}\" x=\"{}\" y=\"{}\">{}</text>",
            short(x),
            short(y),
            escape(words),
        ));
    }

    /// Words on a piece of paper, which hides the lines that run behind them.
    pub fn label(&mut self, class: &str, x: f64, y: f64, words: &str) {
        let [left, top, width, height] = text_box(class, x, y, words);
        self.rect("paper", [left - 1.0, top - 1.0, width + 2.0, height + 2.0]);
        self.text(class, x, y, words);
    }

    pub fn circle(&mut self, class: &str, x: f64, y: f64, radius: f64) {
        self.push(&format!(
            "<circle class=\"{class}\" cx=\"{}\" cy=\"{}\" r=\"{}\"/>",
            short(x),
            short(y),
            short(radius),
        ));
    }

    /// A path through points, each a step from the one before; the first from the origin.
    pub fn path(&mut self, class: &str, moves: &str) {
        self.push(&format!("<path class=\"{class}\" d=\"{moves}\"/>"));
    }

    /// Opens a group with words that a viewer shows when it is pointed at.
    pub fn open_group(&mut self, class: &str, words: &str) {
        self.push(&format!(
            "<g class=\"{class}\"><title>{}</title>",
            escape(words)
        ));
    }

    pub fn close_group(&mut self) {
        self.push("</g>");
    }

    /// The whole picture.
    pub fn finish(self, width: f64, height: f64, title: &str, style: &str) -> String {
        let [width, height] = [short(width), short(height)];
        let title = escape(title);
        let body = self.body;
        format!(
            "<svg xmlns=\"http://www.w3.org/2000/svg\" role=\"img\" width=\"{width}\" \
             height=\"{height}\" viewBox=\"0 0 {width} {height}\">\n<title>{title}</title>\n\
             <style>\n{style}</style>\n{body}</svg>\n"
        )
    }

    fn push(&mut self, line: &str) {
        writeln!(self.body, "{line}").expect("a string takes all");
    }
}

/// A number with at most one digit behind the point.
pub fn short(number: f64) -> String {
    let tenths = (number * 10.0).round() / 10.0;
    format!("{tenths}")
}

fn escape(words: &str) -> String {
    words
        .replace('&', "&amp;")
        .replace('<', "&lt;")
        .replace('>', "&gt;")
}

#[cfg(test)]
mod tests {
    use super::*;

    #[test]
    fn words_are_escaped_and_numbers_short() {
        let mut svg = Svg::new();
        svg.text("cell", 1.0, 2.25, "1 < 2 & 3 > 2");
        svg.open_group("turn", "a & b");
        svg.close_group();
        let expected = "<text class=\"cell\" x=\"1\" y=\"2.3\">1 &lt; 2 &amp; 3 &gt; 2</text>\n\
                        <g class=\"turn\"><title>a &amp; b</title>\n</g>\n";
        assert_eq!(svg.body, expected);
    }
}
