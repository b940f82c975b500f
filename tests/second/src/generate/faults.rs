//! Identifiers with one fault and with two, at every position and of every sort.

use super::with_byte;
use crate::identifier::{CHECK_DIGIT, LENGTH, LETTERS};
use crate::random::Random;

/// Wrong in a letter's place: a digit, a small letter, the neighbours of A and Z, the first byte
/// and the last.
const NO_LETTERS: &[u8; 6] = b"0a@[\x00\xff";
/// Wrong in a digit's place: a letter, a small one, the neighbours of 0 and 9, the first byte and
/// the last.
const NO_DIGITS: &[u8; 6] = b"Aa/:\x00\xff";

/// Characters that are wrong at a position, one of each sort.
pub fn wrong_at(position: usize) -> &'static [u8; 6] {
    if LETTERS.contains(&position) {
        NO_LETTERS
    } else {
        NO_DIGITS
    }
}

/// A right text with each single fault but a wrong check digit.
pub fn one_fault(text: &[u8]) -> Vec<Vec<u8>> {
    texts(faults_from(text, 0))
}

/// A right text with each two faults: two positions, or one and a wrong check digit.
pub fn two_faults(text: &[u8]) -> Vec<Vec<u8>> {
    let two_positions = faults_from(text, 0)
        .into_iter()
        .flat_map(|(position, once)| faults_from(&once, position + 1));
    let with_check_digit = wrong_check_digits(text)
        .into_iter()
        .flat_map(|wrong| faults_from(&wrong, 0))
        .filter(|(position, _)| *position != CHECK_DIGIT);
    texts(two_positions.chain(with_check_digit).collect())
}

/// A right text with each of the nine wrong check digits.
pub fn wrong_check_digits(text: &[u8]) -> Vec<Vec<u8>> {
    (b'0'..=b'9')
        .filter(|digit| *digit != text[CHECK_DIGIT])
        .map(|digit| with_byte(text, CHECK_DIGIT, digit))
        .collect()
}

/// A right text with a fault of some sort at each position, and with a wrong check digit: one text
/// for each refusal and character that there is.
pub fn each_character(random: &mut Random, text: &[u8]) -> Vec<Vec<u8>> {
    let mut texts = wrong_check_digits(text);
    texts.truncate(1);
    texts.extend((0..LENGTH).map(|position| {
        let wrong = random.pick(wrong_at(position));
        with_byte(text, position, wrong)
    }));
    texts
}

/// A text with each wrong character at each position from one on, and that position.
fn faults_from(text: &[u8], first: usize) -> Vec<(usize, Vec<u8>)> {
    (first..LENGTH)
        .flat_map(|position| wrong_at(position).map(|wrong| (position, wrong)))
        .map(|(position, wrong)| (position, with_byte(text, position, wrong)))
        .collect()
}

fn texts(faults: Vec<(usize, Vec<u8>)>) -> Vec<Vec<u8>> {
    faults.into_iter().map(|(_, text)| text).collect()
}

#[cfg(test)]
mod tests {
    use super::*;
    use crate::identifier;
    use crate::refusal::Refusal;

    const RIGHT: &[u8; LENGTH] = b"RR473124829GB";

    /// Where two texts differ, from 1.
    fn changed(text: &[u8]) -> Vec<usize> {
        let differs = |position: &usize| text[position - 1] != RIGHT[position - 1];
        (1..=LENGTH).filter(differs).collect()
    }

    /// 13 positions and 6 sorts; the changed character is the one that is told.
    #[test]
    fn a_single_fault_is_the_character_told() {
        let faults = one_fault(RIGHT);
        assert_eq!(faults.len(), 13 * 6);
        for text in faults {
            let fault = identifier::read(&text).expect_err("it is faulty");
            assert_eq!(changed(&text), [fault.character], "{text:?}");
        }
    }

    /// 78 pairs of positions with 36 pairs of sorts, and 12 positions with 6 sorts and 9 check
    /// digits; the first counts, and a check digit never before another fault.
    #[test]
    fn the_first_of_two_faults_is_told() {
        let faults = two_faults(RIGHT);
        assert_eq!(faults.len(), 78 * 36 + 12 * 6 * 9);
        for text in faults {
            let fault = identifier::read(&text).expect_err("it is faulty");
            let changed = changed(&text);
            let told = if text[CHECK_DIGIT].is_ascii_digit() {
                changed.iter().find(|character| **character != 11)
            } else {
                changed.first()
            };
            assert_eq!(changed.len(), 2);
            assert_eq!(told, Some(&fault.character), "{text:?}");
            assert_ne!(fault.refusal, Refusal::CheckDigit);
        }
    }
}
