//! How often the compared inputs meet what document 02's A.9 brings: rounds of every sort of list,
//! and calls refused for each reason, for a command at each place.

use std::collections::BTreeSet;

use crate::bytes::{MOST_COMMANDS, NUMBER};
use crate::calls::ROUND_COUNT;
use crate::command::{self, Command, Kind, LENGTH, dependent};
use crate::host::Host;
use crate::identifier;
use crate::met::refused_kind;
use crate::play::rounds::{JUDGED, given};
use crate::rounds::count_of;
use crate::script::Plan;

named! {
    /// A call for rounds.
    Sort:
    Empty "rounds of an empty list",
    Single "rounds of a single command",
    Together "several commands in one round",
    Apart "as many rounds as several commands",
    Between "fewer rounds than commands and more than one",
    PastAByte "more than 255 rounds",
    Most "rounds of 4096 commands",
    MostTogether "4096 commands in one round",
    MostApart "4096 rounds",
    EndToEnd "the last of 4096 commands behind the first alone",
    FarBehind "a worker change or checkpoint more than 2048 places behind the round before",
    AllBehind "4095 commands behind a worker change or checkpoint in one round",
    Back "rounds that go back along the list",
    ReadsTogether "two reads of one item in one round",
    Passing "reads or updates in a round before that of an earlier insert or delete",
    Change "rounds with a worker change in the middle",
    Checkpoint "rounds with a checkpoint in the middle",
    BesideKey0 "rounds with one of both and an item of key 0",
    Modulo4096 "rounds of items with keys equal modulo 4096",
    Modulo4093 "rounds of items with keys equal modulo 4093",
    NoMultiple "rounds refused 4",
    NoMultipleFirst "rounds refused 4 with lent lists of wrong lengths",
    NoMultipleOfMany "rounds refused 4 of more than 4096 commands",
    TooMany "rounds refused 5",
    TooManyFirst "rounds refused 5 with lent lists of wrong lengths",
    TooManyForTwoBytes "rounds refused 5 of more than 65535 commands",
    ByteShort "rounds refused 6 for a list one byte short",
    RoundShort "rounds refused 6 for a list one round short",
    NoList "rounds refused 6 for an empty list",
    ByteLong "rounds refused 6 for a list one byte too long",
    RoundLong "rounds refused 6 for a list one round too long",
    FarTooLong "rounds refused 6 for a list far too long",
    Number "rounds refused 6 for the number's list alone",
    Both "rounds refused 6 for both lists",
    LengthOfEmpty "rounds refused 6 of an empty list",
    LengthFirst "rounds refused 6 with a refused command",
    FirstOfTwo "rounds refused for the first of two commands",
}

named! {
    /// What a command is refused for.
    Reason:
    Kind "7",
    Letter "8",
    Zeros "8 of a worker change or checkpoint",
    CheckDigit "9",
    Chute "10",
    Digit "13",
    Count "14",
}

named! {
    /// Where a refused command stands.
    Place:
    Alone "alone",
    First "first",
    Middle "in the middle",
    Last "last",
    FirstOfMost "first of 4096",
    MiddleOfMost "in the middle of 4096",
    LastOfMost "last of 4096",
}

/// Counts of all that is named above, and of the characters of refused identifiers, of items and of
/// commands that name none.
#[derive(Clone, Debug, PartialEq, Eq)]
pub struct Rounds {
    counts: [u64; Sort::ALL.len()],
    refused: [[u64; Place::ALL.len()]; Reason::ALL.len()],
    characters: [[u64; identifier::LENGTH]; 2],
}

impl Default for Rounds {
    fn default() -> Rounds {
        Rounds::all(0)
    }
}

impl Rounds {
    /// All met so often, for tests.
    #[cfg(test)]
    pub fn met(times: u64) -> Rounds {
        Rounds::all(times)
    }

    fn all(times: u64) -> Rounds {
        Rounds {
            counts: [times; Sort::ALL.len()],
            refused: [[times; Place::ALL.len()]; Reason::ALL.len()],
            characters: [[times; identifier::LENGTH]; 2],
        }
    }

    fn every(&self) -> impl Iterator<Item = &u64> {
        let refused = self.refused.as_flattened().iter();
        let characters = self.characters.as_flattened().iter();
        self.counts.iter().chain(refused).chain(characters)
    }

    pub fn add(&mut self, other: &Rounds) {
        let refused = self.refused.as_flattened_mut().iter_mut();
        let characters = self.characters.as_flattened_mut().iter_mut();
        let counts = self.counts.iter_mut().chain(refused).chain(characters);
        counts
            .zip(other.every())
            .for_each(|(count, more)| *count += more);
    }

    /// A line for each sort, for each reason with how often it was met at each place, and for each
    /// character.
    pub fn lines(&self) -> impl Iterator<Item = String> {
        let counts = Sort::ALL.iter().zip(self.counts);
        let sorts = counts.map(|(sort, count)| format!("{}: {count}", sort.name()));
        let refused = Reason::ALL
            .iter()
            .zip(self.refused)
            .map(|(reason, counts)| {
                let places = Place::ALL.iter().zip(counts);
                let told: Vec<String> = places
                    .map(|(place, count)| format!("{} {count}", place.name()))
                    .collect();
                format!("rounds refused {}: {}", reason.name(), told.join(" "))
            });
        let [items, none] = self.characters;
        let characters = (1..).zip(items.into_iter().zip(none));
        let characters = characters.map(|(character, (item, none))| {
            format!("rounds refused at character {character}: of an item {item} of none {none}")
        });
        sorts.chain(refused).chain(characters)
    }

    pub fn lacks_any(&self) -> bool {
        self.every().any(|count| *count == 0)
    }

    pub fn count(&self, sort: Sort) -> u64 {
        self.counts[sort as usize]
    }

    pub fn refused(&self, reason: Reason, place: Place) -> u64 {
        self.refused[reason as usize][place as usize]
    }

    fn note_all(&mut self, sorts: &[(Sort, bool)]) {
        for (sort, holds) in sorts {
            self.counts[*sort as usize] += u64::from(*holds);
        }
    }

    /// Notes a call with its answer, by the lists after it.
    pub fn note(&mut self, plan: &Plan, after: &Host, answer: u64) {
        let count = plan.commands.len() / LENGTH;
        let fits = plan.length == count * NUMBER && plan.count == ROUND_COUNT;
        match answer {
            0 => self.note_given(plan, &given(after)),
            4 => self.note_all(&[
                (Sort::NoMultiple, true),
                (Sort::NoMultipleFirst, !fits),
                (Sort::NoMultipleOfMany, count > MOST_COMMANDS),
            ]),
            5 => self.note_all(&[
                (Sort::TooMany, true),
                (Sort::TooManyFirst, !fits),
                (Sort::TooManyForTwoBytes, count > u16::MAX.into()),
            ]),
            6 => self.note_length(plan, count * NUMBER),
            _ => self.note_refused(&plan.commands, answer),
        }
    }

    fn note_given(&mut self, plan: &Plan, rounds: &[u16]) {
        let commands = command::read_list(&plan.commands).unwrap_or_default();
        let count = commands.len();
        let most = count_of(rounds) as usize;
        let [several, longest] = [count > 1, count == MOST_COMMANDS];
        self.note_all(&[
            (Sort::Empty, count == 0),
            (Sort::Single, count == 1),
            (Sort::Together, several && most == 1),
            (Sort::Apart, several && most == count),
            (Sort::Between, several && most > 1 && most < count),
            (Sort::PastAByte, most > u8::MAX.into()),
            (Sort::Most, longest),
            (Sort::MostTogether, longest && most == 1),
            (Sort::MostApart, longest && most == count),
            (Sort::EndToEnd, longest && waits_for_first_alone(&commands)),
            (Sort::Back, !rounds.is_sorted()),
        ]);
        self.note_commands(&commands);
        self.note_parted(&commands, rounds);
        if count <= JUDGED {
            let any = |holds: fn([(&Command, u16); 2]) -> bool| pairs(&commands, rounds).any(holds);
            self.note_all(&[
                (Sort::ReadsTogether, any(reads_together)),
                (Sort::Passing, any(passes)),
            ]);
        }
    }

    /// Notes what the commands of an accepted call are.
    fn note_commands(&mut self, commands: &[Command]) {
        let key_0 = |it: &Command| it.kind.names_item() && it.key == 0;
        let none = commands.iter().any(|it| !it.kind.names_item());
        self.note_all(&[
            (Sort::Change, in_the_middle(commands, Kind::Workers)),
            (Sort::Checkpoint, in_the_middle(commands, Kind::Checkpoint)),
            (Sort::BesideKey0, none && commands.iter().any(key_0)),
            (Sort::Modulo4096, equal_modulo(commands, 4096)),
            (Sort::Modulo4093, equal_modulo(commands, 4093)),
        ]);
    }

    /// Notes what stands far behind a worker change or checkpoint of an accepted call, or before it.
    fn note_parted(&mut self, commands: &[Command], rounds: &[u16]) {
        let far = |at: usize| {
            let near = &rounds[at.saturating_sub(2048)..at];
            rounds[at] > 1 && !near.contains(&(rounds[at] - 1))
        };
        let none = |at: &usize| !commands[*at].kind.names_item();
        let longest = commands.len() == MOST_COMMANDS;
        let all = longest && none(&0) && rounds[1..].iter().all(|round| *round == 2);
        let mut parting = (0..commands.len()).filter(none);
        self.note_all(&[(Sort::FarBehind, parting.any(far)), (Sort::AllBehind, all)]);
    }

    /// Notes a call that is refused 6, by the lists that are at fault.
    fn note_length(&mut self, plan: &Plan, right: usize) {
        let (length, number) = (plan.length, plan.count != ROUND_COUNT);
        let alone = !number;
        self.note_all(&[
            (Sort::ByteShort, alone && length + 1 == right),
            (Sort::RoundShort, alone && length + NUMBER == right),
            (Sort::NoList, alone && length == 0),
            (Sort::ByteLong, alone && length == right + 1),
            (Sort::RoundLong, alone && length == right + NUMBER),
            (Sort::FarTooLong, alone && length >= right + (1 << 16)),
            (Sort::Number, number && length == right),
            (Sort::Both, number && length != right),
            (Sort::LengthOfEmpty, plan.commands.is_empty()),
            (
                Sort::LengthFirst,
                command::read_list(&plan.commands).is_err(),
            ),
        ]);
    }

    /// Notes a call that is refused for a command.
    fn note_refused(&mut self, commands: &[u8], answer: u64) {
        let place = (answer >> 8 & 0xff_ffff) as usize;
        let kind = refused_kind(commands, answer).and_then(Kind::from_number);
        let names_item = kind.is_none_or(Kind::names_item);
        let reason = match answer & 0xff {
            7 => Reason::Kind,
            8 if names_item => Reason::Letter,
            8 => Reason::Zeros,
            9 => Reason::CheckDigit,
            10 => Reason::Chute,
            13 => Reason::Digit,
            _ => Reason::Count,
        };
        let stands = stands(place, commands.len() / LENGTH);
        self.refused[reason as usize][stands as usize] += 1;
        if let Some(character) = (answer >> 32).checked_sub(1) {
            self.characters[usize::from(!names_item)][character as usize] += 1;
        }
        let rest = command::read_list(&commands[place * LENGTH..]);
        self.note_all(&[(Sort::FirstOfTwo, rest.is_err())]);
    }
}

/// Where a place is in a list of so many commands.
fn stands(place: usize, count: usize) -> Place {
    let longest = count == MOST_COMMANDS;
    match (place, longest) {
        _ if count == 1 => Place::Alone,
        (1, false) => Place::First,
        (1, true) => Place::FirstOfMost,
        (_, false) if place == count => Place::Last,
        (_, true) if place == count => Place::LastOfMost,
        (_, false) => Place::Middle,
        (_, true) => Place::MiddleOfMost,
    }
}

/// Whether a command of this kind has others before and behind it.
fn in_the_middle(commands: &[Command], kind: Kind) -> bool {
    let middle = commands.get(1..commands.len().saturating_sub(1));
    middle.is_some_and(|middle| middle.iter().any(|it| it.kind == kind))
}

/// Whether the last command depends on the first one and on no other.
fn waits_for_first_alone(commands: &[Command]) -> bool {
    let [first, between @ .., last] = commands else {
        return false;
    };
    dependent(first, last) && !between.iter().any(|it| dependent(it, last))
}

/// Whether two items have different keys that are equal modulo a number.
fn equal_modulo(commands: &[Command], modulus: u64) -> bool {
    let items = commands.iter().filter(|it| it.kind.names_item());
    let keys: BTreeSet<u64> = items.map(|it| it.key).collect();
    let rests: BTreeSet<u64> = keys.iter().map(|key| key % modulus).collect();
    rests.len() < keys.len()
}

/// Each two commands with their rounds, the earlier first.
fn pairs<'a>(
    commands: &'a [Command],
    rounds: &'a [u16],
) -> impl Iterator<Item = [(&'a Command, u16); 2]> {
    let placed = move |index: usize| (&commands[index], rounds[index]);
    let later = move |earlier: usize| earlier + 1..commands.len();
    let pairs = (0..commands.len()).flat_map(move |it| later(it).map(move |later| [it, later]));
    pairs.map(move |pair| pair.map(placed))
}

fn reads_together([(first, round), (second, other)]: [(&Command, u16); 2]) -> bool {
    let reads = [first, second].map(|it| it.kind == Kind::Read);
    reads == [true, true] && first.key == second.key && round == other
}

fn passes([(first, round), (second, other)]: [(&Command, u16); 2]) -> bool {
    let changes = matches!(first.kind, Kind::Insert | Kind::Delete);
    changes && matches!(second.kind, Kind::Read | Kind::Update) && other < round
}

#[cfg(test)]
mod tests {
    use super::*;
    use crate::command::encode;
    use crate::depot::Second;
    use crate::identifier::NONE;
    use crate::script::Step;

    /// Nothing is met at first; one missing count of many is seen.
    #[test]
    fn what_is_never_met_is_told() {
        assert!(Rounds::default().lacks_any());
        let met = Rounds::met(2);
        assert!(!met.lacks_any());
        for index in 0..met.every().count() {
            let mut other = met.clone();
            let sorts = Sort::ALL.len();
            let places = Place::ALL.len() * Reason::ALL.len();
            match index {
                _ if index < sorts => other.counts[index] = 0,
                _ if index < sorts + places => other.refused.as_flattened_mut()[index - sorts] = 0,
                _ => other.characters.as_flattened_mut()[index - sorts - places] = 0,
            }
            assert!(other.lacks_any());
        }
        let mut sum = met.clone();
        sum.add(&met);
        assert_eq!(sum, Rounds::met(4));
        let lines: Vec<String> = sum.lines().collect();
        let [sorts, reasons] = [Sort::ALL.len(), Reason::ALL.len()];
        assert_eq!(lines.len(), sorts + reasons + identifier::LENGTH);
        assert_eq!(lines[0], "rounds of an empty list: 4");
        assert!(lines[sorts].starts_with("rounds refused 7: alone 4 first 4 in the middle 4"));
        let last = "rounds refused at character 13: of an item 4 of none 4";
        assert_eq!(lines[lines.len() - 1], last);
    }

    /// What a call on a list meets, with lent lists longer by so much.
    fn met(commands: Vec<u8>, longer: isize, count: usize) -> (Vec<Sort>, Rounds) {
        let length = commands.len() / LENGTH * NUMBER;
        let plan = Plan {
            commands,
            length: length.saturating_add_signed(longer),
            seed: 1,
            count,
        };
        let mut host = Host::default();
        let answer = host.take(&Second, &Step::RoundsNeeded(plan.clone()));
        let mut rounds = Rounds::default();
        rounds.note(&plan, &host, answer);
        let sorts = Sort::ALL.iter().filter(|it| rounds.count(**it) > 0);
        (sorts.copied().collect(), rounds)
    }

    /// A command of the item of key 0, or of key 4,096 or 4,093.
    fn of(kind: u8, key: u64) -> Vec<u8> {
        let text = identifier::text(key).expect("a key");
        encode(kind, &text, u16::from([1, 4].contains(&kind)))
    }

    /// A right command that names no item.
    fn none(kind: u8) -> Vec<u8> {
        encode(kind, &NONE, u16::from(kind == 5))
    }

    fn assert_met(list: &[Vec<u8>], sorts: &[Sort]) {
        assert_eq!(met(list.concat(), 0, 8).0, sorts);
    }

    #[test]
    fn short_lists_are_told_apart() {
        assert_met(&[], &[Sort::Empty]);
        assert_met(&[of(1, 0)], &[Sort::Single]);
        let sorts = [Sort::Together, Sort::ReadsTogether];
        assert_met(&[of(3, 0), of(3, 0)], &sorts);
        assert_met(&[of(4, 0), of(3, 0)], &[Sort::Apart]);
        let sorts = [Sort::Between, Sort::Back, Sort::Passing, Sort::Modulo4096];
        assert_met(&[of(4, 0), of(1, 0), of(3, 4096)], &sorts);
        let sorts = [
            Sort::Apart,
            Sort::Change,
            Sort::BesideKey0,
            Sort::Modulo4093,
        ];
        assert_met(&[of(3, 0), none(5), of(3, 4093)], &sorts);
        let sorts = [Sort::Apart, Sort::Checkpoint];
        assert_met(&[of(3, 1), none(6), none(5)], &sorts);
    }

    #[test]
    fn long_lists_are_told_apart() {
        let list = [vec![of(3, 1)], vec![of(3, 2); 4095]].concat();
        let sorts = [Sort::Together, Sort::Most, Sort::MostTogether];
        assert_met(&list, &sorts);
        let sorts = [Sort::Apart, Sort::PastAByte, Sort::Most, Sort::MostApart];
        assert_met(&vec![of(4, 1); 4096], &sorts);
        let list = [vec![of(4, 1)], vec![of(3, 2); 4094], vec![of(4, 1)]].concat();
        let sorts = [Sort::Between, Sort::Most, Sort::EndToEnd];
        assert_met(&list, &sorts);
        let list = [vec![none(6)], vec![of(4, 2)], vec![of(3, 1); 4094]].concat();
        let sorts = [Sort::Between, Sort::Most, Sort::EndToEnd, Sort::AllBehind];
        assert_met(&list, &sorts);
        let list = [vec![of(4, 2); 2], vec![of(3, 1); 2048], vec![none(5)]].concat();
        let sorts = [Sort::Between, Sort::FarBehind, Sort::Back];
        assert_met(&list, &sorts);
    }

    #[test]
    fn wrong_lengths_are_told_apart() {
        let right = [of(3, 0), of(3, 1)].concat();
        let assert_met = |commands: &[u8], longer: isize, count: usize, sorts: &[Sort]| {
            assert_eq!(met(commands.to_vec(), longer, count).0, sorts);
        };
        assert_met(&right[1..], 0, 8, &[Sort::NoMultiple]);
        let sorts = [Sort::NoMultiple, Sort::NoMultipleFirst];
        assert_met(&right[1..], 0, 7, &sorts);
        assert_met(&right.repeat(2049), 0, 8, &[Sort::TooMany]);
        let sorts = [Sort::TooMany, Sort::TooManyFirst];
        assert_met(&right.repeat(2049), -1, 8, &sorts);
        assert_met(&right, -1, 8, &[Sort::ByteShort]);
        assert_met(&right, -2, 8, &[Sort::RoundShort]);
        assert_met(&right, -4, 8, &[Sort::NoList]);
        assert_met(&right, 1, 8, &[Sort::ByteLong]);
        assert_met(&right, 2, 8, &[Sort::RoundLong]);
        assert_met(&right, 65_536, 8, &[Sort::FarTooLong]);
        assert_met(&right, 0, 9, &[Sort::Number]);
        assert_met(&right, 1, 0, &[Sort::Both]);
        assert_met(&[], 0, 9, &[Sort::Number, Sort::LengthOfEmpty]);
        let refused = [of(7, 0), of(3, 1)].concat();
        assert_met(&refused, 1, 8, &[Sort::ByteLong, Sort::LengthFirst]);
    }

    #[test]
    fn refused_commands_are_told_apart() {
        let right = of(3, 0);
        let refused: [(Vec<u8>, Reason); 7] = [
            (of(0, 0), Reason::Kind),
            (encode(3, b"A0000000005AA", 0), Reason::Letter),
            (encode(6, b"0A00000000000", 0), Reason::Zeros),
            (encode(3, b"AA000000004AA", 0), Reason::CheckDigit),
            (encode(6, &NONE, 1), Reason::Chute),
            (encode(3, b"AA0x0000005AA", 0), Reason::Digit),
            (encode(5, &NONE, 0), Reason::Count),
        ];
        for (it, reason) in &refused {
            let many = |count: usize| right.repeat(count);
            let cases = [
                (it.clone(), Place::Alone),
                ([&it[..], &right].concat(), Place::First),
                ([&right[..], it, &right].concat(), Place::Middle),
                ([&right[..], it].concat(), Place::Last),
                ([&it[..], &many(4095)].concat(), Place::FirstOfMost),
                ([&right[..], it, &many(4094)].concat(), Place::MiddleOfMost),
                ([&many(4095)[..], it].concat(), Place::LastOfMost),
            ];
            for (list, place) in cases {
                let (sorts, met) = met(list, 0, 8);
                assert_eq!(sorts, []);
                assert_eq!(met.refused(*reason, place), 1);
                assert_eq!(met.refused.as_flattened().iter().sum::<u64>(), 1);
            }
        }
        let two = [&refused[1].0[..], &refused[2].0].concat();
        let (sorts, met) = met(two, 0, 8);
        assert_eq!(sorts, [Sort::FirstOfTwo]);
        assert_eq!(met.characters[0][1], 1);
        assert_eq!(met.characters.as_flattened().iter().sum::<u64>(), 1);
    }
}
