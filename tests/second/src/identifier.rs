//! S10 identifiers: text to key and key to text.
//!
//! The text is two letters, eight serial digits, a check digit and two letters.

use crate::refusal::{Fault, Refusal};

/// Characters in an identifier.
pub const LENGTH: usize = 13;
/// Where the check digit stands.
pub const CHECK_DIGIT: usize = 10;
/// Where the four letters stand.
pub const LETTERS: [usize; 4] = [0, 1, 11, 12];
/// The key of ZZ999999995ZZ.
pub const LARGEST_KEY: u64 = 45_697_599_999_999;
/// What the digits of the serial are multiplied by.
pub const WEIGHTS: [u32; 8] = [8, 6, 4, 2, 3, 5, 9, 7];
/// What stands for an identifier in a command that names no item.
pub const NONE: [u8; LENGTH] = [b'0'; LENGTH];
/// How many pairs of letters there are.
pub const PAIRS: u64 = 676;
/// How many serials there are.
pub const SERIALS: u64 = 100_000_000;
/// What `sum` gives of AA000000005AA, whose key is 0.
pub const SUM_OF_KEY_0: u64 = 118_998_533_331_483;
/// How many times what the character behind it counts for a character counts in `sum`, by the later
/// of the two; the check digit is left out.
const TIMES: [u64; LENGTH - 1] = [26, 26, 10, 10, 10, 10, 10, 10, 10, 10, 26, 26];

/// The key of an identifier, or refusal 8, 13 or 9 with the first faulty character: 8 or 13 is
/// tested first, and the character is 0 where the length is wrong.
pub fn read(text: &[u8]) -> Result<u64, Fault> {
    let text: &[u8; LENGTH] = text.try_into().map_err(|_| Refusal::Identifier)?;
    check_characters(text)?;
    let serial = number(&text[2..CHECK_DIGIT]);
    if text[CHECK_DIGIT] != check_digit(serial) {
        return Err(fault_at(CHECK_DIGIT, Refusal::CheckDigit));
    }
    let first = pair(text[0], text[1]);
    let last = pair(text[11], text[12]);
    Ok((first * SERIALS + u64::from(serial)) * PAIRS + last)
}

/// Refusal 8, of a command that names no item, with the first character that is not 0; it is 0
/// where the length is wrong.
pub fn read_none(text: &[u8]) -> Result<(), Fault> {
    let text: &[u8; LENGTH] = text.try_into().map_err(|_| Refusal::Identifier)?;
    match text.iter().position(|character| *character != b'0') {
        Some(position) => Err(fault_at(position, Refusal::Identifier)),
        None => Ok(()),
    }
}

/// The key of a text that nobody tested, as docs/DECISIONS.md, 26, has it: "a sum less
/// 118,998,533,331,483, or 0 where the sum is smaller". On an accepted text it is that text's key; on
/// others it may be any up to 348,342,799,989,582.
pub fn untested(text: &[u8; LENGTH]) -> u64 {
    sum(text).saturating_sub(SUM_OF_KEY_0)
}

/// The sum that is the key of a text, "with the codes of the characters where that has letters from 0
/// and digits", so that it is at most 467,341,333,321,065. "The check digit is not looked at."
pub fn sum(text: &[u8; LENGTH]) -> u64 {
    let (before, from_check_digit) = text.split_at(CHECK_DIGIT);
    let characters = before.iter().chain(&from_check_digit[1..]);
    characters
        .zip(TIMES)
        .fold(0, |sum, (code, times)| sum * times + u64::from(*code))
}

/// Writes the identifier of a key into `out`, or refuses with 6 or 12 and leaves it as it was.
pub fn write(key: u64, out: &mut [u8]) -> Result<(), Refusal> {
    let out: &mut [u8; LENGTH] = out.try_into().map_err(|_| Refusal::Length)?;
    *out = text(key)?;
    Ok(())
}

/// The identifier of a key, or refusal 12.
pub fn text(key: u64) -> Result<[u8; LENGTH], Refusal> {
    if key > LARGEST_KEY {
        return Err(Refusal::OutOfRange);
    }
    let serial = (key / PAIRS % SERIALS) as u32;
    let mut text = [0; LENGTH];
    text[..2].copy_from_slice(&letters(key / PAIRS / SERIALS));
    text[2..CHECK_DIGIT].copy_from_slice(format!("{serial:08}").as_bytes());
    text[CHECK_DIGIT] = check_digit(serial);
    text[11..].copy_from_slice(&letters(key % PAIRS));
    Ok(text)
}

/// Refusals 8 and 13: letters stand where letters belong, and digits where digits do.
fn check_characters(text: &[u8; LENGTH]) -> Result<(), Fault> {
    for (position, character) in text.iter().enumerate() {
        let (in_order, refusal) = if LETTERS.contains(&position) {
            (character.is_ascii_uppercase(), Refusal::Identifier)
        } else {
            (character.is_ascii_digit(), Refusal::Digit)
        };
        if !in_order {
            return Err(fault_at(position, refusal));
        }
    }
    Ok(())
}

/// A refusal for the character at a position, which is counted from 0.
fn fault_at(position: usize, refusal: Refusal) -> Fault {
    Fault {
        character: position + 1,
        ..refusal.into()
    }
}

/// The check digit, as a character, of a serial below 100,000,000.
pub fn check_digit(serial: u32) -> u8 {
    let mut rest = serial;
    let mut sum = 0;
    for weight in WEIGHTS.iter().rev() {
        sum += rest % 10 * weight;
        rest /= 10;
    }
    match 11 - sum % 11 {
        10 => b'0',
        11 => b'5',
        digit => b'0' + digit as u8,
    }
}

fn number(digits: &[u8]) -> u32 {
    digits
        .iter()
        .fold(0, |number, digit| number * 10 + u32::from(digit - b'0'))
}

fn pair(first: u8, second: u8) -> u64 {
    26 * u64::from(first - b'A') + u64::from(second - b'A')
}

/// The two letters of a pair below 676.
fn letters(pair: u64) -> [u8; 2] {
    [b'A' + (pair / 26) as u8, b'A' + (pair % 26) as u8]
}

#[cfg(test)]
mod tests {
    use std::collections::BTreeSet;

    use super::*;
    use crate::random::Random;

    /// Number and character of a text: 0 and 0 where it is accepted.
    fn outcome(text: &[u8]) -> (u64, usize) {
        match read(text) {
            Ok(_) => (0, 0),
            Err(fault) => {
                assert_eq!(fault.place, 0);
                (fault.refusal.number(), fault.character)
            }
        }
    }

    /// Document 01, marked case (a).
    #[test]
    fn serial_00000000_has_check_digit_5() {
        assert_eq!(check_digit(0), b'5');
    }

    /// Document 01, marked case (b).
    #[test]
    fn serial_00000008_has_check_digit_0() {
        assert_eq!(check_digit(8), b'0');
    }

    /// Document 01, marked case (c).
    #[test]
    fn serial_12345678_has_check_digit_5() {
        assert_eq!(check_digit(12_345_678), b'5');
    }

    /// Published with the standard: serial 47312482 has check digit 9 (sum 200, remainder 2).
    /// The publication itself was not at hand.
    #[test]
    fn serial_47312482_has_check_digit_9() {
        assert_eq!(check_digit(47_312_482), b'9');
        let key = read(b"RR473124829GB").unwrap();
        assert_eq!(text(key), Ok(*b"RR473124829GB"));
    }

    /// Document 01, marked case (d).
    #[test]
    fn the_first_identifier_is_key_0() {
        assert_eq!(read(b"AA000000005AA"), Ok(0));
        assert_eq!(text(0), Ok(*b"AA000000005AA"));
    }

    /// Document 01, marked case (e).
    #[test]
    fn the_last_identifier_is_the_largest_key() {
        assert_eq!(read(b"ZZ999999995ZZ"), Ok(LARGEST_KEY));
        assert_eq!(text(LARGEST_KEY), Ok(*b"ZZ999999995ZZ"));
    }

    /// Document 01, section "Identifier": the key, each factor seen once.
    #[test]
    fn the_key_is_pair_then_serial_then_pair() {
        assert_eq!(read(b"AA000000005AB"), Ok(1));
        assert_eq!(read(b"AA000000005BA"), Ok(26));
        assert_eq!(read(b"AA000000014AA"), Ok(676));
        assert_eq!(read(b"AB000000005AA"), Ok(67_600_000_000));
        assert_eq!(read(b"BA000000005AA"), Ok(26 * 67_600_000_000));
    }

    /// Document 01, the examples of refusals 8 and 9, with document 02's A.1: the first faulty
    /// character; the check digit is judged last.
    #[test]
    fn the_first_faulty_character_is_told() {
        assert_eq!(outcome(b"AA000000005AA"), (0, 0));
        assert_eq!(outcome(b"Aa000000005AA"), (8, 2));
        assert_eq!(outcome(b"aAx00000000AA"), (8, 1));
        assert_eq!(outcome(b"AA000000004Aa"), (8, 13));
        assert_eq!(outcome(b"AA000000004aA"), (8, 12));
        assert_eq!(outcome(b"AAx00000000AA"), (13, 3));
        assert_eq!(outcome(b"AA00000000xAA"), (13, 11));
        assert_eq!(outcome(b"AA00000000xaA"), (13, 11));
        assert_eq!(outcome(b"AA000000004AA"), (9, 11));
    }

    /// A.1: a wrong length has no character, whatever the text has.
    #[test]
    fn a_wrong_length_has_no_character() {
        for length in (0..40).filter(|length| *length != LENGTH) {
            for byte in *b"A0ax\0" {
                assert_eq!(outcome(&vec![byte; length]), (8, 0));
            }
            let right = b"AA000000005AA".iter().copied().cycle();
            let text: Vec<u8> = right.take(length).collect();
            assert_eq!(outcome(&text), (8, 0));
        }
    }

    /// Document 02, A.2: thirteen characters 0, else the first that is not; a wrong length has no
    /// character.
    #[test]
    fn the_first_character_that_is_not_0_is_told() {
        assert_eq!(read_none(&NONE), Ok(()));
        for length in (0..40).filter(|length| *length != LENGTH) {
            let fault = read_none(&vec![b'0'; length]).expect_err("a wrong length");
            assert_eq!(fault, Refusal::Identifier.into());
        }
        for text in texts().iter().filter(|text| text.len() == LENGTH) {
            let fault = read_none(text).expect_err("there are letters");
            assert_eq!(fault, fault_at(fault.character - 1, Refusal::Identifier));
            assert!(text[..fault.character - 1].iter().all(|it| *it == b'0'));
            assert_ne!(text[fault.character - 1], b'0');
        }
    }

    /// What belongs at each position: a letter or a digit.
    const FORM: &[u8; LENGTH] = b"LLDDDDDDDDDLL";

    fn belongs(position: usize, character: u8) -> bool {
        let range = if FORM[position] == b'L' {
            b'A'..=b'Z'
        } else {
            b'0'..=b'9'
        };
        range.contains(&character)
    }

    /// Right texts, texts damaged at up to three positions, and some of them cut or lengthened.
    fn texts() -> Vec<Vec<u8>> {
        let random = &mut Random::new(13);
        (0..20_000).map(|_| perhaps_damaged(random)).collect()
    }

    fn perhaps_damaged(random: &mut Random) -> Vec<u8> {
        let key = random.below(LARGEST_KEY + 1);
        let mut text = text(key).expect("the key is not too large").to_vec();
        for _ in 0..random.below(4) {
            let position = random.below(LENGTH as u64) as usize;
            text[position] = random.pick(b"/09:@AZ[az\0\xff");
        }
        let length = random.pick(&[LENGTH, LENGTH, LENGTH, LENGTH - 1, LENGTH + 1]);
        text.resize(length, b'A');
        text
    }

    /// The texts above have each number, and each character that it can have.
    #[test]
    fn every_number_and_character_is_met() {
        let met: BTreeSet<(u64, usize)> = texts().iter().map(|text| outcome(text)).collect();
        let letters = [0, 1, 2, 12, 13].map(|character| (8, character));
        let digits = (3..=11).map(|character| (13, character));
        let mut expected = BTreeSet::from([(0, 0), (9, 11)]);
        expected.extend(letters.into_iter().chain(digits));
        assert_eq!(met, expected);
    }

    /// A.1: the character is 0 exactly on an accepted text and on a wrong length.
    #[test]
    fn the_character_is_0_exactly_on_an_accepted_text_or_a_wrong_length() {
        for text in texts() {
            let (number, character) = outcome(&text);
            let wrong_length = text.len() != LENGTH;
            assert_eq!(character == 0, number == 0 || wrong_length, "{text:?}");
            assert!(!wrong_length || number == 8, "{text:?}");
        }
    }

    /// A.1: what stands before the faulty character is in order, and it is not; only under 9 is
    /// every letter and digit in order. The number goes by where it stands.
    #[test]
    fn the_character_is_the_first_out_of_order() {
        for text in texts() {
            let (number, character) = outcome(&text);
            let in_order = |count: usize| (0..count).all(|index| belongs(index, text[index]));
            match number {
                0 => assert!(in_order(LENGTH), "{text:?}"),
                9 => assert!(character == 11 && in_order(LENGTH), "{text:?}"),
                8 if character == 0 => assert_ne!(text.len(), LENGTH),
                _ => {
                    assert!(in_order(character - 1) && !in_order(character), "{text:?}");
                    let letter = [1, 2, 12, 13].contains(&character);
                    assert_eq!(number, if letter { 8 } else { 13 }, "{text:?}");
                }
            }
        }
    }

    /// A.1: under 8 and 13, what stands behind the faulty character does not matter.
    #[test]
    fn later_characters_change_neither_number_nor_character() {
        let random = &mut Random::new(8);
        for mut text in texts() {
            let before = outcome(&text);
            if before.1 == 0 || before.0 == 9 {
                continue;
            }
            for _ in 0..10 {
                for later in &mut text[before.1..] {
                    *later = random.byte();
                }
                assert_eq!(outcome(&text), before, "{text:?}");
            }
        }
    }

    /// A.1: under 9 exactly one other check digit is accepted, and other letters change nothing.
    #[test]
    fn a_wrong_check_digit_is_mended_by_one_other_digit() {
        for text in texts().into_iter().filter(|text| outcome(text).0 == 9) {
            let with = |position: usize, character: u8| {
                let mut text = text.clone();
                text[position] = character;
                outcome(&text)
            };
            let right = (b'0'..=b'9').filter(|digit| with(CHECK_DIGIT, *digit) == (0, 0));
            assert_eq!(right.count(), 1);
            for position in LETTERS {
                assert!((b'A'..=b'Z').all(|letter| with(position, letter) == (9, 11)));
            }
        }
    }

    /// Document 01, the examples of refusals 6 and 12, and 6 before 12.
    #[test]
    fn a_refused_write_leaves_the_list_as_it_was() {
        let mut short = [7; 12];
        assert_eq!(write(0, &mut short), Err(Refusal::Length));
        assert_eq!(write(LARGEST_KEY + 1, &mut short), Err(Refusal::Length));
        assert_eq!(short, [7; 12]);
        let mut right = [7; LENGTH];
        assert_eq!(write(LARGEST_KEY + 1, &mut right), Err(Refusal::OutOfRange));
        assert_eq!(right, [7; LENGTH]);
    }

    /// Decision 26, word for word, with numbers that no text is too large for.
    fn as_decided(text: &[u8; LENGTH]) -> u64 {
        let [c1, c2, c3, c4, c5, c6, c7, c8, c9, c10, _, c12, c13] = text.map(u128::from);
        let serial = c3 * 10_000_000
            + c4 * 1_000_000
            + c5 * 100_000
            + c6 * 10_000
            + c7 * 1_000
            + c8 * 100
            + c9 * 10
            + c10;
        let sum = ((26 * c1 + c2) * 100_000_000 + serial) * 676 + 26 * c12 + c13;
        let key = sum.saturating_sub(118_998_533_331_483);
        u64::try_from(key).expect("no text has such a key")
    }

    /// Decision 26: "On an accepted command this is that command".
    #[test]
    fn an_accepted_text_has_the_same_key_untested() {
        let random = &mut Random::new(26);
        for _ in 0..100_000 {
            let key = random.below(LARGEST_KEY + 1);
            assert_eq!(untested(&text(key).unwrap()), key);
        }
        for key in [0, 1, 25, 26, 675, 676, LARGEST_KEY - 1, LARGEST_KEY] {
            assert_eq!(untested(&text(key).unwrap()), key);
        }
        for text in texts() {
            if let (Ok(key), Ok(text)) = (read(&text), text.as_slice().try_into()) {
                assert_eq!(untested(text), key);
            }
        }
    }

    /// Decision 26: "the number taken off is the sum of the identifier whose key is 0".
    #[test]
    fn what_is_taken_off_is_the_sum_of_key_0() {
        assert_eq!(sum(&text(0).unwrap()), SUM_OF_KEY_0);
    }

    /// Decision 26: "The check digit is not looked at."
    #[test]
    fn the_check_digit_is_not_looked_at() {
        let random = &mut Random::new(11);
        for check in 0..=u8::MAX {
            let mut first = *b"AA000000005AA";
            first[CHECK_DIGIT] = check;
            assert_eq!(untested(&first), 0);
            let key = random.below(LARGEST_KEY + 1);
            let mut text = text(key).unwrap();
            text[CHECK_DIGIT] = check;
            assert_eq!(untested(&text), key);
        }
    }

    /// Decision 26: "or 0 where the sum is smaller".
    #[test]
    fn smaller_characters_have_key_0() {
        assert_eq!(untested(&[0; LENGTH]), 0);
        assert_eq!(untested(&NONE), 0);
        let random = &mut Random::new(0);
        let first = text(0).unwrap();
        for _ in 0..10_000 {
            let smaller = first.map(|code| random.below(u64::from(code) + 1) as u8);
            assert_eq!(untested(&smaller), 0);
        }
        for position in (0..LENGTH).filter(|it| *it != CHECK_DIGIT) {
            let mut one_less = first;
            one_less[position] -= 1;
            assert_eq!(untested(&one_less), 0);
            assert!(sum(&one_less) < SUM_OF_KEY_0);
        }
    }

    #[test]
    fn the_largest_characters_have_the_key_of_the_sum() {
        let largest = [u8::MAX; LENGTH];
        assert_eq!(sum(&largest), 467_341_333_321_065);
        assert_eq!(untested(&largest), 348_342_799_989_582);
        assert_eq!(as_decided(&largest), 348_342_799_989_582);
        for position in 0..LENGTH {
            let mut text = text(0).unwrap();
            text[position] = u8::MAX;
            assert_eq!(untested(&text), as_decided(&text), "{position}");
            assert_eq!(untested(&text) == 0, position == CHECK_DIGIT);
        }
    }

    /// Any bytes, and texts that are right but for some characters.
    #[test]
    fn any_text_has_the_key_of_the_sum() {
        let random = &mut Random::new(14);
        for _ in 0..100_000 {
            let any: [u8; LENGTH] = std::array::from_fn(|_| random.byte());
            assert_eq!(untested(&any), as_decided(&any), "{any:?}");
        }
        for text in texts() {
            if let Ok(text) = text.as_slice().try_into() {
                assert_eq!(untested(text), as_decided(text), "{text:?}");
            }
        }
    }

    /// Document 00, demand 2: text and key turn into each other without loss.
    #[test]
    fn written_keys_read_back() {
        for key in (0..=LARGEST_KEY).step_by(999_999_937) {
            assert_eq!(read(&text(key).unwrap()), Ok(key));
        }
    }
}
