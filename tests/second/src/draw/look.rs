//! The look of words: what the style sheet says of their class, and how much room they take.

pub const STYLE: &str = include_str!("style.css");
/// What is added to it where commands are coloured by round.
pub const ROUND_STYLE: &str = include_str!("rounds.css");

/// What the style sheets say of a property of a class; of several, the first that it is said of.
pub fn look(classes: &str, property: &str) -> Option<&'static str> {
    classes.split(' ').find_map(|class| {
        let before = format!(".{class} {{ ");
        let mut lines = STYLE.lines().chain(ROUND_STYLE.lines());
        let rule = lines.find_map(|line| line.strip_prefix(&before))?;
        let mut pairs = rule.trim_end_matches(" }").split("; ");
        pairs.find_map(|pair| pair.strip_prefix(property)?.strip_prefix(": "))
    })
}

/// The font size of a class.
pub fn size(class: &str) -> f64 {
    let size = look(class, "font-size").and_then(|size| size.strip_suffix("px")?.parse().ok());
    size.expect("a class of words has a font size")
}

/// About how wide words of a class are, in a font that is rather wide.
pub fn width(words: &str, class: &str) -> f64 {
    let widths = words.chars().map(|sign| match sign {
        'm' | 'w' | 'M' | 'W' => 0.95,
        'A'..='Z' => 0.76,
        'f' | 'i' | 'j' | 'l' | 'r' | 't' => 0.38,
        'a'..='z' | '0'..='9' => 0.635,
        _ => 0.36,
    });
    let bold = match look(class, "font-weight") {
        Some("bold") => 1.12,
        _ => 1.0,
    };
    widths.sum::<f64>() * bold * size(class)
}

/// How far words reach above their line and below it, in a font of size 1.
pub const ABOVE: f64 = 0.77;
pub const BELOW: f64 = 0.22;

/// The box of words of a class that begin here, as `Svg::rect` has it.
pub fn text_box(class: &str, x: f64, y: f64, words: &str) -> [f64; 4] {
    let [size, width] = [size(class), width(words, class)];
    let left = match look(class, "text-anchor") {
        Some("middle") => x - width / 2.0,
        Some("end") => x - width,
        _ => x,
    };
    [left, y - ABOVE * size, width, (ABOVE + BELOW) * size]
}

#[cfg(test)]
mod tests {
    use super::*;

    #[test]
    fn the_style_sheet_is_read() {
        assert_eq!(look("small", "font-size"), Some("9px"));
        assert_eq!(look("who p3", "font-weight"), Some("bold"));
        assert_eq!(look("who p3", "fill"), Some("#007a5a"));
        assert_eq!(look("who", "fill"), None);
        assert_eq!(look("r8 state", "fill"), Some("#f59a8c"));
        assert_eq!(look("none", "fill"), None);
        assert_eq!([size("small"), size("heading")], [9.0, 18.0]);
    }

    /// The widths that DejaVu Sans, one of the widest fonts in use, gives in size 1; the estimate
    /// is not less, and at most a tenth more.
    #[test]
    fn words_are_estimated_as_wide_as_in_a_wide_font() {
        for (words, measured) in [
            ("announced again", 8.62),
            ("no such item", 6.47),
            ("chute 512", 5.06),
            ("waits for 2, 4, 5", 7.83),
            ("3 insert RR473124829GB 512", 14.97),
            ("searching", 4.88),
            ("1 (any command) until turn 59; ", 16.03),
        ] {
            let estimate = width(words, "small") / size("small");
            let near = measured <= estimate && estimate <= 1.1 * measured;
            assert!(near, "{words}: {estimate}, not {measured}");
        }
    }

    #[test]
    fn a_box_lies_around_its_words() {
        let [left, top, width, height] = text_box("why", 50.0, 20.0, "12");
        assert!(left < 50.0 && left + width / 2.0 == 50.0);
        assert!(top < 14.0 && top + height > 20.0);
        assert_eq!(text_box("small", 50.0, 20.0, "12")[0], 50.0);
        assert!(text_box("label", 50.0, 20.0, "12")[0] < 40.0);
    }
}
