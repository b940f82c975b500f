//! How often the compared inputs meet commands that opening refuses, in lists that were handed back in
//! the place of others: each sort of them loaded, written and removed.

use std::collections::BTreeMap;

use crate::command::{self, Kind, LARGEST_CHUTE, LARGEST_COUNT, LENGTH};
use crate::host::Host;
use crate::identifier::{self, CHECK_DIGIT, LARGEST_KEY, LETTERS, NONE, SUM_OF_KEY_0};
use crate::play::dispatches::number;
use crate::refusal::Refusal;
use crate::run::{Party, Run};
use crate::script::List;

/// Of a command that names an item, its identifier.
type Text = [u8; identifier::LENGTH];
type Part = [u8; LENGTH];

/// The first count that does not go into a byte of the state.
const PAST_A_BYTE: u16 = 256;

named! {
    /// What a refused command has.
    Sort:
    Kind0 "kind 0",
    KindAbove "a kind above 6",
    LetterBelow "a letter below A",
    LetterAbove "a letter above Z",
    DigitBelow "a digit below 0",
    DigitAbove "a digit above 9",
    WrongCheckDigit "a wrong check digit and no other fault in the text",
    NoCheckDigit "no digit for a check digit",
    SumBelow "a sum below that of key 0",
    KeyAbove "a key above the largest",
    SameKey "the key of another command by another text",
    CountWithText "a text in a worker change",
    CheckpointWithText "a text in a checkpoint",
    InsertWithout "chute 0 in an insert",
    InsertAbove "a chute above 512 in an insert",
    UpdateWithout "chute 0 in an update",
    UpdateAbove "a chute above 512 in an update",
    DeleteWith "a chute in a delete",
    ReadWith "a chute in a read",
    CheckpointWith "a number in a checkpoint",
    Count0 "count 0",
    CountAbove "a count of 65 to 255",
    CountPastAByte "a count above 255",
}

named! {
    /// What becomes of a command; the last of it in a dispatch, the others in dealings.
    Phase:
    Loaded "loaded",
    Written "written",
    Removed "removed",
    Dispatched "dispatched",
}

/// Counts of all that is named above.
#[derive(Clone, Debug, PartialEq, Eq)]
pub struct Untested {
    counts: [[u64; Phase::ALL.len()]; Sort::ALL.len()],
}

impl Default for Untested {
    fn default() -> Untested {
        Untested {
            counts: [[0; Phase::ALL.len()]; Sort::ALL.len()],
        }
    }
}

impl Untested {
    /// All met so often, for tests.
    #[cfg(test)]
    pub fn met(times: u64) -> Untested {
        Untested {
            counts: [[times; Phase::ALL.len()]; Sort::ALL.len()],
        }
    }

    pub fn add(&mut self, other: &Untested) {
        let counts = self.counts.as_flattened_mut().iter_mut();
        let more = other.counts.as_flattened();
        counts.zip(more).for_each(|(count, more)| *count += more);
    }

    /// A line for each sort, with how often it was met in each phase.
    pub fn lines(&self) -> impl Iterator<Item = String> {
        let counts = Sort::ALL.iter().zip(self.counts);
        counts.map(|(sort, counts)| {
            let phases = Phase::ALL.iter().zip(counts);
            let told: Vec<String> = phases
                .map(|(phase, count)| format!("{} {count}", phase.name()))
                .collect();
            format!("commands with {}: {}", sort.name(), told.join(" "))
        })
    }

    pub fn lacks_any(&self) -> bool {
        self.counts.as_flattened().contains(&0)
    }

    pub fn count(&self, sort: Sort, phase: Phase) -> u64 {
        self.counts[sort as usize][phase as usize]
    }

    /// Notes the turns of a dealing that is accepted, by the lists before it.
    pub fn note_dealing(&mut self, host: &Host, schedule: &[u8]) {
        self.note_turns(host, schedule, Some);
    }

    /// Notes the turns of a dispatch that is accepted, by the lists before and after it.
    pub fn note_dispatch(&mut self, before: &Host, after: &Host) {
        let turns = number(after.list(List::Out)).unwrap_or(0) as usize;
        let schedule = after.list(List::Schedule).get(..turns).unwrap_or(&[]);
        self.note_turns(before, schedule, |phase| match phase {
            Phase::Removed => Some(Phase::Dispatched),
            Phase::Loaded | Phase::Written | Phase::Dispatched => None,
        });
    }

    /// Notes what becomes of the refused commands; a list that nothing but calls changed has none.
    fn note_turns(&mut self, host: &Host, schedule: &[u8], counted: fn(Phase) -> Option<Phase>) {
        let Some(mut run) = host.run().filter(|_| !host.is_reached()) else {
            return;
        };
        let refused = refused(host.list(List::Commands));
        if refused.is_empty() {
            return;
        }
        for party in schedule {
            let Some((place, phase)) = turn(&mut run, *party) else {
                continue;
            };
            let sorts = refused.get(&place).map_or(&[][..], Vec::as_slice);
            if let Some(phase) = counted(phase) {
                sorts
                    .iter()
                    .for_each(|sort| self.counts[*sort as usize][phase as usize] += 1);
            }
        }
    }
}

/// Deals a turn; the place of the command that is loaded, written or removed by it, if one is.
fn turn(run: &mut Run, party: u8) -> Option<(u16, Phase)> {
    let place = |run: &Run, own: u8| run.records.place[usize::from(own)];
    let before = run.parties[usize::from(party)];
    let held = before.own().map(|own| place(run, own));
    run.turn(party);
    match (before, run.parties[usize::from(party)]) {
        (Party::Idle, Party::Loading { own, .. }) => Some((place(run, own), Phase::Loaded)),
        (Party::Holding { .. } | Party::LookedUp { .. }, Party::Written { .. }) => {
            held.map(|place| (place, Phase::Written))
        }
        (Party::Clearing { .. }, Party::Idle) => held.map(|place| (place, Phase::Removed)),
        _ => None,
    }
}

/// What the refused commands of a list have, by their places.
pub fn refused(list: &[u8]) -> BTreeMap<u16, Vec<Sort>> {
    let parts = list.as_chunks().0;
    let places = (1..).zip(parts);
    places
        .filter(|(_, part)| command::read(part).is_err())
        .map(|(place, part)| (place, sorts(part, parts)))
        .collect()
}

/// What a refused command of a list has.
fn sorts(part: &Part, list: &[Part]) -> Vec<Sort> {
    let [kind, text @ .., high, low] = part;
    let last = u16::from_be_bytes([*high, *low]);
    let text_sorts = match item(part) {
        Some(text) => {
            let same = list.iter().filter_map(item).any(|it| same_key(text, it));
            let mut sorts = of_text(text);
            sorts.extend(same.then_some(Sort::SameKey));
            sorts
        }
        None if *text == NONE => Vec::new(),
        None if *kind == Kind::Workers.number() => vec![Sort::CountWithText],
        None => vec![Sort::CheckpointWithText],
    };
    let kind_sort = match Kind::from_number(*kind) {
        Some(kind) => of_last(kind, last),
        None if *kind == 0 => Some(Sort::Kind0),
        None => Some(Sort::KindAbove),
    };
    kind_sort.into_iter().chain(text_sorts).collect()
}

/// The text of a command that counts as one of an item.
fn item(part: &Part) -> Option<&Text> {
    let [kind, text @ .., _, _] = part;
    let none = [Kind::Workers, Kind::Checkpoint].map(Kind::number);
    (!none.contains(kind)).then_some(text)
}

/// Whether two texts have one key that is not 0 and are not the same but for the check digit.
fn same_key(text: &Text, other: &Text) -> bool {
    let key = identifier::untested(text);
    let differs = |index: &usize| *index != CHECK_DIGIT && text[*index] != other[*index];
    key != 0 && key == identifier::untested(other) && (0..text.len()).any(|it| differs(&it))
}

/// What is wrong with a text, and with the key that it counts as.
fn of_text(text: &Text) -> Vec<Sort> {
    let any = |letter: bool, wrong: fn(u8) -> bool| {
        let mut positions = (0..text.len()).filter(|it| *it != CHECK_DIGIT);
        positions.any(|it| LETTERS.contains(&it) == letter && wrong(text[it]))
    };
    let read = identifier::read(text).map_err(|fault| fault.refusal);
    let met = [
        (Sort::LetterBelow, any(true, |code| code < b'A')),
        (Sort::LetterAbove, any(true, |code| code > b'Z')),
        (Sort::DigitBelow, any(false, |code| code < b'0')),
        (Sort::DigitAbove, any(false, |code| code > b'9')),
        (Sort::WrongCheckDigit, read == Err(Refusal::CheckDigit)),
        (Sort::NoCheckDigit, !text[CHECK_DIGIT].is_ascii_digit()),
        (Sort::SumBelow, identifier::sum(text) < SUM_OF_KEY_0),
        (Sort::KeyAbove, identifier::untested(text) > LARGEST_KEY),
    ];
    let met = met.into_iter().filter(|(_, holds)| *holds);
    met.map(|(sort, _)| sort).collect()
}

/// What is wrong with the chute or count of a command, if something is.
fn of_last(kind: Kind, last: u16) -> Option<Sort> {
    match kind {
        Kind::Insert if last == 0 => Some(Sort::InsertWithout),
        Kind::Insert => (last > LARGEST_CHUTE).then_some(Sort::InsertAbove),
        Kind::Update if last == 0 => Some(Sort::UpdateWithout),
        Kind::Update => (last > LARGEST_CHUTE).then_some(Sort::UpdateAbove),
        Kind::Delete => (last > 0).then_some(Sort::DeleteWith),
        Kind::Read => (last > 0).then_some(Sort::ReadWith),
        Kind::Checkpoint => (last > 0).then_some(Sort::CheckpointWith),
        Kind::Workers if last == 0 => Some(Sort::Count0),
        Kind::Workers if last >= PAST_A_BYTE => Some(Sort::CountPastAByte),
        Kind::Workers => (last > LARGEST_COUNT).then_some(Sort::CountAbove),
    }
}

#[cfg(test)]
mod tests {
    use super::*;
    use crate::command::encode;

    /// Nothing is met at first; one missing count of many is seen.
    #[test]
    fn what_is_never_met_is_told() {
        assert!(Untested::default().lacks_any());
        let met = Untested::met(2);
        assert!(!met.lacks_any());
        for (index, sort) in Sort::ALL.iter().enumerate() {
            assert_eq!(*sort as usize, index);
            for phase in Phase::ALL {
                let mut other = met.clone();
                other.counts[index][*phase as usize] = 0;
                assert!(other.lacks_any());
            }
        }
        let mut sum = met.clone();
        sum.add(&met);
        assert_eq!(sum.count(Sort::Count0, Phase::Written), 4);
        let lines: Vec<String> = sum.lines().collect();
        assert_eq!(lines.len(), Sort::ALL.len());
        let first = "commands with kind 0: loaded 4 written 4 removed 4 dispatched 4";
        assert_eq!(lines[0], first);
    }

    const RIGHT: &Text = b"AA000000102AA";

    /// Behind a read of that item, a command with what it has.
    fn assert_sorts(kind: u8, text: &Text, last: u16, sorts: &[Sort]) {
        let list = [encode(3, RIGHT, 0), encode(kind, text, last)].concat();
        let expected = BTreeMap::from([(2, sorts.to_vec())]);
        assert_eq!(refused(&list), expected, "{kind} {text:?} {last}");
    }

    #[test]
    fn kinds_and_numbers_are_told_apart() {
        assert_sorts(0, RIGHT, 1, &[Sort::Kind0]);
        assert_sorts(7, RIGHT, 0, &[Sort::KindAbove]);
        assert_sorts(1, RIGHT, 0, &[Sort::InsertWithout]);
        assert_sorts(1, RIGHT, 513, &[Sort::InsertAbove]);
        assert_sorts(4, RIGHT, 0, &[Sort::UpdateWithout]);
        assert_sorts(4, RIGHT, 513, &[Sort::UpdateAbove]);
        assert_sorts(2, RIGHT, 1, &[Sort::DeleteWith]);
        assert_sorts(3, RIGHT, 1, &[Sort::ReadWith]);
        assert_sorts(6, &NONE, 1, &[Sort::CheckpointWith]);
        assert_sorts(5, &NONE, 0, &[Sort::Count0]);
        assert_sorts(5, &NONE, 65, &[Sort::CountAbove]);
        assert_sorts(5, &NONE, 255, &[Sort::CountAbove]);
        assert_sorts(5, &NONE, 256, &[Sort::CountPastAByte]);
        assert!(refused(&encode(3, RIGHT, 0)).is_empty());
    }

    #[test]
    fn texts_are_told_apart() {
        let read = |text: &Text, sorts: &[Sort]| assert_sorts(3, text, 0, sorts);
        read(b"AA000000005A@", &[Sort::LetterBelow, Sort::SumBelow]);
        read(b"A[000000005AA", &[Sort::LetterAbove]);
        read(b"AB/00000005AA", &[Sort::DigitBelow]);
        read(b"AA/00000005AA", &[Sort::DigitBelow, Sort::SumBelow]);
        read(b"AA00000:005AA", &[Sort::DigitAbove]);
        read(b"AA0000000:5AA", &[Sort::DigitAbove, Sort::SameKey]);
        read(b"AA000000004AA", &[Sort::WrongCheckDigit]);
        read(b"AA00000000xAA", &[Sort::NoCheckDigit]);
        read(b"[A000000005AA", &[Sort::LetterAbove, Sort::KeyAbove]);
        assert_sorts(5, RIGHT, 1, &[Sort::CountWithText]);
        assert_sorts(6, RIGHT, 0, &[Sort::CheckpointWithText]);
    }
}
