//! The rounds that a list needs: the proved call beside plain Rust on the same bytes.

pub mod input;
mod plain;

use std::hint::black_box;
use std::time::Duration;

use second::command::{self, Command};
use second::depot::Depot;

use crate::clock::timed;
use crate::lists::{accepted, same_bytes};
use crate::measure::{Bench, Times, median};

/// Calls are timed together until they take this long, one at least and `MOST_CALLS` at most.
const TOGETHER: Duration = Duration::from_millis(10);
const MOST_CALLS: u32 = 100;
/// What a lent list holds where nothing is written: there is no such round.
const UNWRITTEN: u8 = 255;

/// The lists that a call is lent.
#[derive(Clone, Debug, PartialEq, Eq)]
struct Lent {
    rounds: Vec<u8>,
    count: Vec<u8>,
}

impl Lent {
    fn new(commands: usize) -> Lent {
        Lent {
            rounds: vec![UNWRITTEN; commands * plain::ROUND],
            count: vec![UNWRITTEN; plain::COUNT],
        }
    }
}

/// One of the ways to find rounds, its lists and its times.
struct Way<'a> {
    call: &'a dyn Fn(&mut Lent) -> u64,
    lent: Lent,
    /// How many calls are timed together.
    calls: u32,
    times: Vec<Duration>,
}

impl<'a> Way<'a> {
    /// The first call is not counted: it shows how many are to be timed together.
    fn new(commands: usize, call: &'a dyn Fn(&mut Lent) -> u64) -> Result<Way<'a>, String> {
        let mut way = Way {
            call,
            lent: Lent::new(commands),
            calls: 1,
            times: Vec::new(),
        };
        way.run()?;
        let first = way.times.pop().unwrap_or_default().as_nanos().max(1);
        let calls = TOGETHER.as_nanos() / first;
        way.calls = calls.clamp(1, MOST_CALLS.into()) as u32;
        Ok(way)
    }

    /// Times some calls on lists that are unwritten at first.
    fn run(&mut self) -> Result<(), String> {
        self.lent.rounds.fill(UNWRITTEN);
        self.lent.count.fill(UNWRITTEN);
        let call = || black_box((self.call)(&mut self.lent));
        let (time, answer) = timed(|| std::iter::repeat_with(call).take(self.calls as usize).max());
        self.times.push(time / self.calls);
        accepted("rounds_needed", answer.unwrap_or(0))
    }
}

/// Median times of a list.
pub struct RoundTimes {
    /// How many rounds it needs.
    pub rounds: u64,
    /// The calls on the same bytes.
    pub calls: Times,
    /// Plain, of commands that are read outside the clock: by what is kept, and by all pairs.
    pub kept: Duration,
    pub pairs: Duration,
}

impl Bench {
    /// The ways by turns; after each run their lists are compared. Under a name of its own for
    /// callgrind, as the plain ways are.
    #[inline(never)]
    pub fn rounds(&self, list: &[u8]) -> Result<RoundTimes, String> {
        let commands: &[Command] = &command::read_list(list).expect("the list is accepted");
        let calls: [&dyn Fn(&mut Lent) -> u64; 4] = [
            &|lent| {
                self.proved
                    .rounds_needed(black_box(list), &mut lent.rounds, &mut lent.count)
            },
            &|lent| plain::rounds_needed(black_box(list), &mut lent.rounds, &mut lent.count),
            &|lent| plain::by_kept(black_box(commands), &mut lent.rounds, &mut lent.count),
            &|lent| plain::by_pairs(black_box(commands), &mut lent.rounds, &mut lent.count),
        ];
        let mut ways = Vec::new();
        for call in calls {
            ways.push(Way::new(commands.len(), call)?);
        }
        for _ in 0..self.runs {
            ways.iter_mut().try_for_each(Way::run)?;
            for plain in &ways[1..] {
                same(&ways[0].lent, &plain.lent)?;
            }
        }
        let rounds = number(&ways[0].lent);
        let mut medians = ways.into_iter().map(|way| median(way.times));
        let mut next = || medians.next().expect("there are four ways");
        Ok(RoundTimes {
            rounds,
            calls: Times {
                proved: next(),
                plain: next(),
            },
            kept: next(),
            pairs: next(),
        })
    }
}

/// How many rounds a call has found.
fn number(lent: &Lent) -> u64 {
    let (count, _) = lent.count.as_chunks();
    count.first().map_or(0, |count| u64::from_be_bytes(*count))
}

/// An error that names the list in which two ways differ, and where.
fn same(proved: &Lent, plain: &Lent) -> Result<(), String> {
    same_bytes(&[
        ("rounds", &proved.rounds, &plain.rounds),
        ("count", &proved.count, &plain.count),
    ])
}

#[cfg(test)]
mod tests {
    use std::path::PathBuf;

    use super::*;
    use crate::archive::Archive;
    use second::command::Kind;
    use second::identifier::NONE;
    use second::random::Random;

    use crate::input::encode;

    /// A command of any kind, with a chute or a count where it carries one.
    fn command(kind: Kind, key: u64) -> Vec<u8> {
        match kind {
            Kind::Workers => command::encode(kind.number(), &NONE, 3),
            Kind::Checkpoint => command::encode(kind.number(), &NONE, 0),
            Kind::Insert | Kind::Update => encode(kind, key, 7),
            Kind::Delete | Kind::Read => encode(kind, key, 0),
        }
    }

    fn archive() -> Archive {
        Archive {
            program: PathBuf::new(), // the program is not run here
        }
    }

    /// The proved rounds of a list, which the plain ways find too.
    fn rounds_of(list: &[u8]) -> Lent {
        let commands = command::read_list(list).expect("the list is accepted");
        let first = Lent::new(commands.len());
        let [mut lent, mut calls, mut kept, mut pairs] = [&first; 4].map(Lent::clone);
        let answers = [
            archive().rounds_needed(list, &mut lent.rounds, &mut lent.count),
            plain::rounds_needed(list, &mut calls.rounds, &mut calls.count),
            plain::by_kept(&commands, &mut kept.rounds, &mut kept.count),
            plain::by_pairs(&commands, &mut pairs.rounds, &mut pairs.count),
        ];
        assert_eq!(answers, [0; 4]);
        for plain in [calls, kept, pairs] {
            assert_eq!(same(&lent, &plain), Ok(()));
        }
        lent
    }

    /// Found by hand: inserts and deletes stand one behind the other, reads of one item together, an
    /// update apart from them, and kinds 5 and 6 apart from all.
    #[test]
    fn the_rounds_of_a_short_list() {
        let list = [
            (Kind::Insert, 1, 1),
            (Kind::Delete, 2, 2),
            (Kind::Read, 3, 1),
            (Kind::Read, 3, 1),
            (Kind::Update, 3, 2),
            (Kind::Read, 1, 2),
            (Kind::Update, 2, 3),
            (Kind::Workers, 0, 4),
            (Kind::Read, 3, 5),
            (Kind::Checkpoint, 0, 6),
            (Kind::Insert, 0, 7),
        ];
        for length in 0..=list.len() {
            let part = &list[..length];
            let bytes: Vec<u8> = part.iter().flat_map(|it| command(it.0, it.1)).collect();
            let lent = rounds_of(&bytes);
            let expected: Vec<u8> = part.iter().flat_map(|it| [0, it.2]).collect();
            assert_eq!(lent.rounds, expected);
            assert_eq!(
                number(&lent),
                part.iter().map(|it| it.2.into()).max().unwrap_or(0)
            );
        }
    }

    /// Random lists, few items and many, with kinds 5 and 6 often and never.
    #[test]
    fn all_ways_find_the_same_rounds() {
        let random = &mut Random::new(9);
        for index in 0..400 {
            let items = [1, 3, 20, 500][index % 4];
            let kinds = if index % 3 == 0 {
                &Kind::ALL[..]
            } else {
                &Kind::OF_ITEMS
            };
            let list: Vec<u8> = (0..random.below(300))
                .flat_map(|_| command(random.pick(kinds), random.below(items)))
                .collect();
            rounds_of(&list);
        }
    }

    /// Lists of each refusal, and lent lists of wrong lengths: both sides answer the same, and write
    /// nothing.
    #[test]
    fn both_sides_refuse_the_same() {
        let right = [command(Kind::Insert, 5), command(Kind::Workers, 0)].concat();
        let mut lists = vec![right.clone(), vec![], right.repeat(2049), vec![7; 65_553]];
        for (at, byte) in [
            (0, 7),
            (1, b'a'),
            (3, b'x'),
            (11, b'9'),
            (15, 0),
            (17, b'A'),
            (31, 0),
        ] {
            let mut wrong = right.clone();
            wrong[at] = byte;
            lists.push(wrong);
        }
        let mut answers = Vec::new();
        for list in lists {
            for (rounds, count) in [(4, 8), (0, 8), (3, 8), (5, 8), (4, 7), (4, 9)] {
                let [mut one, mut two] = [(); 2].map(|()| Lent {
                    rounds: vec![UNWRITTEN; rounds],
                    count: vec![UNWRITTEN; count],
                });
                let answer = archive().rounds_needed(&list, &mut one.rounds, &mut one.count);
                let plain = plain::rounds_needed(&list, &mut two.rounds, &mut two.count);
                assert_eq!((answer, &one), (plain, &two));
                let unwritten = |it: &u8| *it == UNWRITTEN;
                assert_eq!(answer != 0, one.count.iter().all(unwritten));
                assert!(answer == 0 || one.rounds.iter().all(unwritten));
                answers.push(answer & 0xff);
            }
        }
        let expected = [0, 4, 5, 6, 7, 8, 9, 10, 13, 14];
        assert!(expected.iter().all(|number| answers.contains(number)));
    }

    #[test]
    fn a_difference_in_each_list_is_found() {
        let lent = rounds_of(&command(Kind::Read, 1).repeat(3));
        assert_eq!(same(&lent, &lent.clone()), Ok(()));
        let changes: [fn(&mut Lent); 4] = [
            |it| it.rounds[5] = 0,
            |it| it.rounds[0] = 1,
            |it| it.count[7] = 2,
            |it| it.count[0] = 1,
        ];
        for change in changes {
            let mut other = lent.clone();
            change(&mut other);
            assert!(same(&lent, &other).is_err());
            assert!(same(&other, &lent).is_err());
        }
    }

    /// A way that is refused, or that answers and writes nothing, is no time.
    #[test]
    fn a_refusal_is_an_error() {
        assert!(Way::new(1, &|_| 6).is_err());
        let mut way = Way::new(1, &|_| 0).expect("it is accepted");
        assert_eq!((way.run(), way.times.len()), (Ok(()), 1));
        assert!(same(&way.lent, &rounds_of(&command(Kind::Read, 1))).is_err());
    }
}
