//! Colours by round: a scale that begins again behind its last colour, so that rounds next to one
//! another never look alike, however many there are. The number of the round stands on the colour
//! where there is room for it.

use super::Page;
use super::trace::Frame;
use crate::command::Command;
use crate::rounds::{count_of, rounds_of};
use crate::text::rounds::told;

/// The classes of the scale.
const SCALE: [&str; 8] = ["r1", "r2", "r3", "r4", "r5", "r6", "r7", "r8"];
/// How many rounds of one colour the legend names.
const MOST_NAMED: usize = 3;

/// The rounds of a list.
pub struct Rounds {
    rounds: Vec<u16>,
}

impl Rounds {
    pub fn of(commands: &[Command]) -> Rounds {
        let rounds = rounds_of(commands);
        Rounds { rounds }
    }

    /// What they tell, in words.
    pub fn told(&self) -> String {
        told(&self.rounds)
    }

    /// Each colour that the list has, with the words for its rounds.
    pub fn scale(&self) -> impl Iterator<Item = (&'static str, String)> {
        let last = count_of(&self.rounds) as usize;
        let colours = SCALE.iter().zip(1..=last);
        colours.map(move |(class, first)| {
            let rounds = (first..=last).step_by(SCALE.len());
            let more = rounds.clone().nth(MOST_NAMED).is_some();
            let named: Vec<String> = rounds.take(MOST_NAMED).map(|it| it.to_string()).collect();
            let noun = if named.len() == 1 { "round" } else { "rounds" };
            let ending = if more { " .." } else { "" };
            (*class, format!("{noun} {}{ending}", named.join(", ")))
        })
    }
}

impl Page<'_> {
    /// The round of the command at a place, if there is one and commands are coloured by round.
    pub fn round_at(&self, place: u16) -> Option<u16> {
        let index = usize::from(place).checked_sub(1)?;
        self.rounds.as_ref().map(|all| all.rounds[index])
    }

    /// The round of the command that a party has, in the same way.
    pub fn round_had(&self, frame: &Frame, party: u8) -> Option<u16> {
        let record = frame.parties[usize::from(party)].own()?;
        self.round_at(frame.place(record))
    }
}

/// The class that has a round's colour.
pub fn class(round: u16) -> &'static str {
    SCALE[usize::from(round - 1) % SCALE.len()]
}

#[cfg(test)]
mod tests {
    use super::*;
    use crate::draw::look::{STYLE, look};
    use crate::text::read_list;

    /// Red, green and blue of a class.
    fn colour(class: &str) -> [f64; 3] {
        let digits = look(class, "fill").unwrap().strip_prefix('#').unwrap();
        [0, 2, 4].map(|at| u8::from_str_radix(&digits[at..at + 2], 16).unwrap().into())
    }

    /// The relative luminance of a colour, as the contrast rule of WCAG 2 has it.
    fn luminance(colour: [f64; 3]) -> f64 {
        let [red, green, blue] = colour.map(|part| match part / 255.0 {
            low if low <= 0.04045 => low / 12.92,
            part => ((part + 0.055) / 1.055).powf(2.4),
        });
        0.2126 * red + 0.7152 * green + 0.0722 * blue
    }

    /// WCAG 2 asks for 4.5, and for 7 where it is strict.
    #[test]
    fn words_are_read_on_each_colour() {
        assert!(
            STYLE.contains("\ntext { font-family: sans-serif; font-size: 11px; fill: #222 }\n")
        );
        let words = luminance([34.0; 3]);
        for class in SCALE {
            let contrast = (luminance(colour(class)) + 0.05) / (words + 0.05);
            assert!(contrast > 7.0, "{class}: {contrast}");
        }
    }

    /// How far apart two colours are; white and black are 442.
    fn distance(one: &str, other: &str) -> f64 {
        let [one, other] = [one, other].map(colour);
        let parts = one.iter().zip(other);
        parts.map(|(a, b)| (a - b).powi(2)).sum::<f64>().sqrt()
    }

    #[test]
    fn colours_are_told_apart_and_neighbours_from_afar() {
        for (index, class) in SCALE.iter().enumerate() {
            for later in &SCALE[index + 1..] {
                assert!(distance(class, later) > 50.0, "{class} {later}");
            }
            let next = SCALE[(index + 1) % SCALE.len()];
            assert!(distance(class, next) > 100.0, "{class} {next}");
        }
    }

    #[test]
    fn rounds_next_to_one_another_have_different_colours() {
        assert_eq!([1, 8, 9, 4096].map(class), ["r1", "r8", "r1", "r8"]);
        assert!((1..4096).all(|round| class(round) != class(round + 1)));
    }

    /// The legend of a list of so many rounds.
    fn named(rounds: usize) -> Vec<String> {
        let list = "update AA000000005AA 1\n".repeat(rounds);
        let rounds = Rounds::of(&read_list(list.as_bytes()).unwrap());
        let scale = rounds.scale().zip(SCALE);
        scale
            .map(|((class, words), expected)| {
                assert_eq!(class, expected);
                words
            })
            .collect()
    }

    #[test]
    fn the_legend_names_the_rounds_of_each_colour() {
        assert_eq!(named(0), [""; 0]);
        assert_eq!(named(2), ["round 1", "round 2"]);
        assert_eq!(named(8)[7], "round 8");
        assert_eq!(named(9)[..2], ["rounds 1, 9", "round 2"]);
        assert_eq!(named(24)[7], "rounds 8, 16, 24");
        assert_eq!(named(25)[..2], ["rounds 1, 9, 17 ..", "rounds 2, 10, 18"]);
        let most = named(4096);
        assert_eq!((most.len(), &most[7][..]), (8, "rounds 8, 16, 24 .."));
    }
}
