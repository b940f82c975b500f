//! Lists that no opening accepted: a right list is opened, and handed back with some of its commands
//! damaged, before any of them is loaded or in the middle of the run. They are dealt in one call, turn
//! by turn and in pieces, and dispatched.

use super::changes::{set_bytes, set_command};
use super::dealings::{Played, keys};
use super::openings::Opening;
use super::{apart, dispatches, reports, schedules};
use crate::bytes::{IN_FORCE, LARGEST};
use crate::command::Kind::{self, Checkpoint, Delete, Insert, Read, Update, Workers};
use crate::generate::commands::{CHUTE, TEXT, with_key, workers};
use crate::generate::{random_key, text};
use crate::identifier::{self, CHECK_DIGIT, LARGEST_KEY, LETTERS};
use crate::met::untested::Sort;
use crate::play::Play;
use crate::random::Random;
use crate::script::{List, Step};

/// How many runs there are: each fault so often in each way of dealing.
pub const COUNT: u64 = FAULTS.len() as u64 * WAYS * 16;
const WAYS: u64 = 5;

const SIZES: [u64; 6] = [1, 2, 3, 4, 6, 8];
const WORKERS: [u64; 4] = [1, 2, 3, 4];
/// Commands of a list at the least, and how many more it may have.
const LEAST: u64 = 6;
const MORE: u64 = 7;
const ITEMS: usize = 4;
/// Turns of a call, and calls of a run, at the most.
const MOST: usize = 2_000;
const CALLS: usize = 600;

/// How many turns a call has at the most.
type Turns = fn(&mut Random) -> usize;

/// Damages a right command.
type Damage = fn(&mut Random, &mut [u8]);

/// What a damaged command has, the kinds that it is made of, and how.
type Fault = (Sort, &'static [Kind], Damage);

/// One for each sort, in their order.
const FAULTS: [Fault; Sort::ALL.len()] = [
    (Sort::Kind0, &Kind::ALL, |_, part| part[0] = 0),
    (Sort::KindAbove, &Kind::ALL, |random, part| {
        part[0] = random.pick(&[7, 8, 9, 131, 255]);
    }),
    (Sort::LetterBelow, &Kind::OF_ITEMS, |random, part| {
        part[TEXT + random.pick(&LETTERS)] = random.pick(b"@@9 \x00");
    }),
    (Sort::LetterAbove, &Kind::OF_ITEMS, |random, part| {
        part[TEXT + random.pick(&LETTERS)] = random.pick(b"[[az\xff");
    }),
    (Sort::DigitBelow, &Kind::OF_ITEMS, |random, part| {
        part[TEXT + 2 + random.below(8) as usize] = random.pick(b"// \x01\x00");
    }),
    (Sort::DigitAbove, &Kind::OF_ITEMS, |random, part| {
        part[TEXT + 2 + random.below(8) as usize] = random.pick(b"::Aa\xff");
    }),
    (Sort::WrongCheckDigit, &Kind::OF_ITEMS, |random, part| {
        let digit = &mut part[TEXT + CHECK_DIGIT];
        *digit = b'0' + (*digit - b'0' + 1 + random.below(9) as u8) % 10;
    }),
    (Sort::NoCheckDigit, &Kind::OF_ITEMS, |random, part| {
        part[TEXT + CHECK_DIGIT] = random.pick(b"/:A\x00\xff");
    }),
    (Sort::SumBelow, &Kind::OF_ITEMS, below_key_0),
    (Sort::KeyAbove, &Kind::OF_ITEMS, above_the_largest),
    (Sort::SameKey, &Kind::OF_ITEMS, with_the_same_key),
    (Sort::CountWithText, &[Workers], with_a_text),
    (Sort::CheckpointWithText, &[Checkpoint], with_a_text),
    (Sort::InsertWithout, &[Insert], |_, part| set_last(part, 0)),
    (Sort::InsertAbove, &[Insert], with_a_chute_above),
    (Sort::UpdateWithout, &[Update], |_, part| set_last(part, 0)),
    (Sort::UpdateAbove, &[Update], with_a_chute_above),
    (Sort::DeleteWith, &[Delete], with_any_number),
    (Sort::ReadWith, &[Read], with_any_number),
    (Sort::CheckpointWith, &[Checkpoint], with_any_number),
    (Sort::Count0, &[Workers], |_, part| set_last(part, 0)),
    (Sort::CountAbove, &[Workers], |random, part| {
        set_last(part, random.pick(&[65, 66, 128, 255]));
    }),
    (Sort::CountPastAByte, &[Workers], |random, part| {
        let counts = [256, 257, 257, 258, 259, 260, 512, 0x4001, u16::MAX];
        set_last(part, random.pick(&counts));
    }),
];

/// Two characters of an identifier, and how many of the later are one of the earlier.
const CARRIES: [(usize, usize, u8); 11] = [
    (0, 1, 26),
    (1, 2, 10),
    (2, 3, 10),
    (3, 4, 10),
    (4, 5, 10),
    (5, 6, 10),
    (6, 7, 10),
    (7, 8, 10),
    (8, 9, 10),
    (9, 11, 26),
    (11, 12, 26),
];

/// A command as it is opened, and as it is handed back.
struct Entry {
    right: Vec<u8>,
    handed: Vec<u8>,
}

/// Plays the run of a number below the count.
pub fn play(number: u64, random: &mut Random, play: &mut Play) -> Played {
    let faults = FAULTS.len() as u64;
    let entries = entries(FAULTS[(number % faults) as usize], random);
    let commands = entries.iter().flat_map(|it| it.right.clone());
    let opening = Opening {
        size: random.pick(&SIZES),
        workers: random.pick(&WORKERS),
        room: 1 + random.below(4),
        commands: commands.collect(),
    };
    opening.open(play)?;
    if random.below(4) == 0 {
        let turns = random.below(80) as usize;
        let schedule = schedules::to_the_end(random, play.host(), turns);
        play.take(Step::Advance(schedule))?;
    }
    for (index, entry) in entries.iter().enumerate() {
        set_command(play, index + 1, &entry.handed)?;
    }
    reports(play)?;
    match number / faults % WAYS {
        0 => in_calls(2, |_| MOST, random, play),
        1 => in_calls(CALLS, |_| 1, random, play),
        2 => in_calls(CALLS, some, random, play),
        3 => dispatched(random, play),
        _ => dispatched_on_the_way(random, play),
    }
}

/// A list with the fault at every third place or so, and others between them; its commands are of few
/// items, that of key 0 in most cases among them.
fn entries(fault: Fault, random: &mut Random) -> Vec<Entry> {
    let mut keys = keys(random, ITEMS);
    if random.below(4) != 0 && !keys.contains(&0) {
        keys[0] = 0;
    }
    let count = LEAST + random.below(MORE);
    let entry = |index| {
        let fault = match (index % 3, random.below(5)) {
            (1, _) => Some(fault),
            (_, 0) => Some(random.pick(&FAULTS)),
            _ => None,
        };
        let kinds = fault.map_or(&Kind::ALL[..], |(_, kinds, _)| kinds);
        let kind = match index {
            0 => Insert,
            _ => random.pick(kinds),
        };
        let key = random.pick(&keys);
        entry(kind, key, fault.filter(|_| kinds.contains(&kind)), random)
    };
    (0..count).map(entry).collect()
}

fn entry(kind: Kind, key: u64, fault: Option<Fault>, random: &mut Random) -> Entry {
    let right = match kind {
        Workers => workers(1 + random.below(4) as u16),
        _ => with_key(random, kind, key),
    };
    let mut handed = right.clone();
    if let Some((_, _, damage)) = fault {
        damage(random, &mut handed);
    }
    Entry { right, handed }
}

/// So many calls, or as many as it takes to the end, of these turns at the most, with the reports
/// behind each.
fn in_calls(calls: usize, turns: Turns, random: &mut Random, play: &mut Play) -> Played {
    for _ in 0..calls {
        if play.host().run().is_some_and(|run| run.is_finished()) {
            break;
        }
        let most = turns(random);
        let schedule = schedules::to_the_end(random, play.host(), most);
        play.take(Step::Advance(schedule))?;
        reports(play)?;
        mend(random, play)?;
    }
    Ok(())
}

fn some(random: &mut Random) -> usize {
    1 + random.below(30) as usize
}

/// Twice, since the first one does not come to the end where it writes count 0.
fn dispatched(random: &mut Random, play: &mut Play) -> Played {
    for _ in 0..2 {
        dispatches::dispatch(random, play)?;
        mend(random, play)?;
    }
    Ok(())
}

/// Dispatches on a copy behind each call of some turns, and at the end.
fn dispatched_on_the_way(random: &mut Random, play: &mut Play) -> Played {
    for _ in 0..random.below(12) {
        in_calls(1, some, random, play)?;
        apart(play, |play| dispatches::dispatch(random, play))?;
    }
    dispatched(random, play)
}

/// Where the last call wrote a count that the state cannot have, the next one is refused, and the
/// caller puts a right count in.
fn mend(random: &mut Random, play: &mut Play) -> Played {
    if play.host().run().is_some() {
        return Ok(());
    }
    play.take(Step::Advance(vec![]))?;
    let largest = play.host().list(List::State)[LARGEST];
    let count = 1 + random.below(largest.into()) as u8;
    set_bytes(play, List::State, IN_FORCE, &[count])
}

/// A text whose sum is below that of key 0: by one of some character, by all of it, or by any.
fn below_key_0(random: &mut Random, part: &mut [u8]) {
    let positions = [0, 1, 2, 5, 9, 11, 12];
    set_text(part, &text(0));
    match random.below(4) {
        0 => set_text(part, &[0; identifier::LENGTH]),
        1 => set_text(part, &identifier::NONE),
        2 => part[TEXT + random.pick(&[0, 1])] = random.pick(b"0@\x00"),
        _ => part[TEXT + random.pick(&positions)] -= 1,
    }
}

/// A text whose key is above the largest: by 1, by as much as there is, or by any number.
fn above_the_largest(random: &mut Random, part: &mut [u8]) {
    match random.below(3) {
        0 => {
            set_text(part, &text(LARGEST_KEY));
            part[CHUTE - 1] += 1;
        }
        1 => set_text(part, &[u8::MAX; identifier::LENGTH]),
        _ => part[TEXT] = random.pick(b"[a\xff"),
    }
}

/// Another text of the same key: one more of a character and so much less of a later one, or the other
/// way round.
fn with_the_same_key(random: &mut Random, part: &mut [u8]) {
    let (earlier, later, times) = random.pick(&CARRIES);
    match random.below(2) {
        0 => {
            part[TEXT + earlier] -= 1;
            part[TEXT + later] += times;
        }
        _ => {
            part[TEXT + earlier] += 1;
            part[TEXT + later] -= times;
        }
    }
}

/// A text where thirteen characters 0 belong: one of an item, any bytes, or one wrong character.
fn with_a_text(random: &mut Random, part: &mut [u8]) {
    let any = random_key(random);
    match random.below(4) {
        0 => set_text(part, &text(0)),
        1 => set_text(part, &text(any)),
        2 => set_text(part, &random.bytes(identifier::LENGTH)),
        _ => part[TEXT + random.below(13) as usize] = random.pick(b"1AO\x00"),
    }
}

/// Some of them are answers too.
fn with_a_chute_above(random: &mut Random, part: &mut [u8]) {
    let chutes = [513, 514, 768, 1000, 1002, 1003, 1004, 0x8000, u16::MAX];
    set_last(part, random.pick(&chutes));
}

fn with_any_number(random: &mut Random, part: &mut [u8]) {
    set_last(part, random.pick(&[1, 7, 64, 256, 512, 513, u16::MAX]));
}

fn set_text(part: &mut [u8], text: &[u8]) {
    part[TEXT..CHUTE].copy_from_slice(text);
}

fn set_last(part: &mut [u8], number: u16) {
    part[CHUTE..].copy_from_slice(&number.to_be_bytes());
}

#[cfg(test)]
mod tests {
    use std::collections::BTreeSet;
    use std::sync::LazyLock;

    use super::*;
    use crate::command::{self, LENGTH};
    use crate::generate::runs::UNTESTED;
    use crate::generate::runs::dealings::testing::{Done, assert_made_from_the_seed, met, played};
    use crate::met::untested::{Phase, refused};

    static PLAYED: LazyLock<Vec<Done>> = LazyLock::new(|| played(UNTESTED, COUNT));

    /// Each sort is loaded, written and removed by dealings, and removed by dispatches.
    #[test]
    fn every_sort_of_refused_command_is_met() {
        let met = met(&PLAYED).untested;
        for sort in Sort::ALL {
            for phase in Phase::ALL {
                let count = met.count(*sort, *phase);
                assert!(count >= 100, "{sort:?} {phase:?}: {count}");
            }
        }
    }

    /// The right command of a fault and the damaged one; the key is not 0.
    fn damaged(fault: Fault, random: &mut Random) -> Entry {
        let kind = random.pick(fault.1);
        let key = 1 + random.below(LARGEST_KEY);
        entry(kind, key, Some(fault), random)
    }

    /// The right command is accepted, and the damaged one is refused and of the fault's sort.
    #[test]
    fn every_fault_is_of_its_sort() {
        let random = &mut Random::new(26);
        for (fault, sort) in FAULTS.iter().zip(Sort::ALL) {
            assert_eq!(fault.0, *sort);
            for _ in 0..2_000 {
                let Entry { right, handed } = damaged(*fault, random);
                assert!(command::read_list(&right).is_ok());
                assert_eq!(handed.len(), LENGTH);
                let sorts = &refused(&[&right[..], &handed].concat())[&2];
                assert!(sorts.contains(sort), "{sort:?} {handed:?}");
            }
        }
    }

    /// Wrong letters and digits stand at every position, and keys are shared by carrying at each.
    #[test]
    fn texts_are_damaged_at_every_position() {
        let random = &mut Random::new(26);
        let mut positions = |sort: Sort| {
            let fault = FAULTS[sort as usize];
            let entries = (0..2_000).map(|_| damaged(fault, random));
            let differing = entries.flat_map(|it| {
                let same = move |at: &usize| it.right[TEXT + at] != it.handed[TEXT + at];
                (0..identifier::LENGTH).filter(same)
            });
            differing.collect::<BTreeSet<usize>>()
        };
        let all = BTreeSet::from_iter(0..identifier::LENGTH);
        let letters = BTreeSet::from(LETTERS);
        let digits = BTreeSet::from_iter(2..CHECK_DIGIT);
        assert_eq!(positions(Sort::LetterBelow), letters);
        assert_eq!(positions(Sort::LetterAbove), letters);
        assert_eq!(positions(Sort::DigitBelow), digits);
        assert_eq!(positions(Sort::DigitAbove), digits);
        assert_eq!(positions(Sort::SameKey), &letters | &digits);
        assert_eq!(positions(Sort::CountWithText), all);
        assert_eq!(positions(Sort::CheckpointWithText), all);
    }

    #[test]
    fn a_seed_gives_the_same_runs_again_and_another_gives_others() {
        assert_made_from_the_seed(UNTESTED, COUNT);
    }
}
