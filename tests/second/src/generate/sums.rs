//! Identifiers with every sum that eight weighted digits can have. A remainder that is wrong for a
//! single sum would hardly show otherwise: some sums have one serial in a hundred million.

use super::identifiers::{every_check_digit, read, write};
use super::{Case, Sort, text};
use crate::bytes::KEY;
use crate::identifier::{LENGTH, PAIRS, SERIALS, WEIGHTS};
use crate::random::Random;

/// The sum of serial 99999999.
const LARGEST_SUM: usize = 396;
/// How many serials of a sum are taken, where it has as many.
const TAKEN: usize = 3;

/// Each key is written, and its text is read with each check digit.
pub fn cases(random: &mut Random) -> [(Sort, Vec<Case>); 2] {
    let serials = serials(random).concat().into_iter();
    let keys: Vec<u64> = serials.map(|serial| with_letters(random, serial)).collect();
    let texts = keys.iter().flat_map(|key| every_check_digit(&text(*key)));
    [
        (
            Sort::Identifiers,
            texts.map(|text| read(text, KEY)).collect(),
        ),
        (
            Sort::Keys,
            keys.iter().map(|key| write(*key, LENGTH)).collect(),
        ),
    ]
}

/// For each sum from 0 on, different serials that have it. They grow digit by digit, and each sum
/// of the digits so far keeps at most three: none is lost, and three are left where three were.
fn serials(random: &mut Random) -> Vec<Vec<u64>> {
    let mut serials = vec![Vec::new(); LARGEST_SUM + 1];
    serials[0].push(0);
    for weight in WEIGHTS {
        serials = longer(&serials, weight as usize);
        for same_sum in &mut serials {
            while same_sum.len() > TAKEN {
                same_sum.swap_remove(random.below(same_sum.len() as u64) as usize);
            }
        }
    }
    serials
}

/// Each serial with each digit behind it, which has this weight.
fn longer(serials: &[Vec<u64>], weight: usize) -> Vec<Vec<u64>> {
    let mut longer = vec![Vec::new(); serials.len()];
    for (sum, same_sum) in serials.iter().enumerate() {
        for serial in same_sum {
            for digit in 0..10 {
                longer[sum + weight * digit].push(serial * 10 + digit as u64);
            }
        }
    }
    longer
}

/// The key of a serial between any letters.
fn with_letters(random: &mut Random, serial: u64) -> u64 {
    (random.below(PAIRS) * SERIALS + serial) * PAIRS + random.below(PAIRS)
}

#[cfg(test)]
mod tests {
    use std::collections::{BTreeMap, BTreeSet};

    use super::*;
    use crate::identifier::{self, CHECK_DIGIT};
    use crate::refusal::{Fault, Refusal};
    use crate::script::Step;

    /// How many serials have each sum that there is, counted over all digits.
    fn counts() -> BTreeMap<u32, usize> {
        let mut counts = BTreeMap::from([(0, 1)]);
        for weight in WEIGHTS {
            let mut longer = BTreeMap::new();
            for (sum, count) in counts {
                for digit in 0..10 {
                    *longer.entry(sum + weight * digit).or_default() += count;
                }
            }
            counts = longer;
        }
        counts
    }

    /// The sum of a text's serial.
    fn sum(text: &[u8]) -> u32 {
        let digits = text[2..CHECK_DIGIT].iter().zip(WEIGHTS);
        digits
            .map(|(digit, weight)| u32::from(digit - b'0') * weight)
            .sum()
    }

    /// The texts that are read, ten in a row with the same serial, and the keys that are written.
    fn texts_and_keys(seed: u64) -> (Vec<Vec<u8>>, Vec<u64>) {
        let [(_, read), (_, written)] = cases(&mut Random::new(seed));
        let texts = read.concat().into_iter().map(|step| match step {
            Step::ReadIdentifier(text, KEY) => text,
            other => panic!("{other}"),
        });
        let keys = written.concat().into_iter().map(|step| match step {
            Step::WriteIdentifier(key, LENGTH) => key,
            other => panic!("{other}"),
        });
        (texts.collect(), keys.collect())
    }

    /// 02, A.4: "the sum never passes 396".
    #[test]
    fn the_sums_are_0_to_396_without_1_and_395() {
        let expected = (0..=396).filter(|sum| ![1, 395].contains(sum));
        assert!(counts().into_keys().eq(expected));
        assert_eq!(counts().into_values().sum::<usize>(), 100_000_000);
    }

    /// Different serials of each sum: three, or all that there are.
    #[test]
    fn every_sum_is_read_and_written() {
        let expected = counts().into_iter().map(|(sum, count)| (sum, count.min(3)));
        let expected: BTreeMap<u32, usize> = expected.collect();
        for seed in 0..5 {
            let (texts, keys) = texts_and_keys(seed);
            let written: Vec<Vec<u8>> = keys.into_iter().map(text).collect();
            for texts in [texts, written] {
                let serials = texts.iter().map(|text| (sum(text), &text[2..CHECK_DIGIT]));
                let mut met = BTreeMap::new();
                for (sum, _) in serials.collect::<BTreeSet<_>>() {
                    *met.entry(sum).or_default() += 1;
                }
                assert_eq!(met, expected);
            }
        }
    }

    /// The one that is accepted gives the key that is written, and the others are refused 9.
    #[test]
    fn one_of_ten_check_digits_is_accepted() {
        let wrong = Fault {
            character: 11,
            ..Refusal::CheckDigit.into()
        };
        let (texts, keys) = texts_and_keys(1);
        assert_eq!(texts.len(), 10 * keys.len());
        for (texts, key) in texts.chunks(10).zip(keys) {
            let digits: Vec<u8> = texts.iter().map(|text| text[CHECK_DIGIT]).collect();
            assert_eq!(digits, b"0123456789");
            let outcomes = texts.iter().map(|text| identifier::read(text));
            let (accepted, refused): (Vec<_>, Vec<_>) = outcomes.partition(|read| read.is_ok());
            assert_eq!(accepted, [Ok(key)]);
            assert_eq!(refused, [Err(wrong); 9]);
        }
    }

    /// docs/DECISIONS.md 43, for every sum: no identifier has 1 or 395, so no call can be asked for
    /// their remainders, and the inputs above cannot show them wrong.
    #[test]
    fn the_remainder_without_a_division_is_that_by_11() {
        for sum in 0..=396_u16 {
            assert_eq!(sum - 11 * ((sum * 93 + 36) >> 10), sum % 11, "{sum}");
        }
    }
}
