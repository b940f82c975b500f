//! Rounds by document 02's A.9 alone: all assignments of rounds to every short list are tried, and
//! faulty ways to find rounds are told.

use std::collections::BTreeMap;

use second::command::{Command, Kind};
use second::play::rounds::broken;
use second::random::Random;
use second::rounds::{count_of, rounds_of};

/// Key 0 is a real item.
const KEYS: [u64; 2] = [0, 5];
/// Commands of the longest lists.
const LONGEST: usize = 5;

/// Whether two commands are dependent, by their kinds from 1 on: always (+), those of one item (=) or
/// never (-). Document 01, and A.2, A.3 and A.5.
const TABLE: [&[u8; 6]; 6] = [
    b"++==++", b"++==++", b"==-=++", b"====++", b"++++++", b"++++++",
];

/// For each command the earlier ones that it depends on, a bit each.
type Relation = Vec<u8>;

fn depends(first: &Command, second: &Command) -> bool {
    let [row, column] = [first, second].map(|it| usize::from(it.kind.number() - 1));
    match TABLE[row][column] {
        b'+' => true,
        b'=' => first.key == second.key,
        _ => false,
    }
}

fn relation(commands: &[Command]) -> Relation {
    let bits = |later: usize| {
        let earlier = (0..later).filter(|it| depends(&commands[*it], &commands[later]));
        earlier.map(|it| 1 << it).sum()
    };
    (0..commands.len()).map(bits).collect()
}

/// "a round number from 1", and: "Dependent commands stand in different rounds, the earlier delivered
/// in the earlier round."
fn keeps_rule(relation: &Relation, rounds: &[u16]) -> bool {
    let later = |it: usize| (0..it).filter(move |earlier| relation[it] & 1 << earlier != 0);
    let holds = |it: usize| rounds[it] >= 1 && later(it).all(|first| rounds[first] < rounds[it]);
    (0..rounds.len()).all(holds)
}

/// All assignments of rounds in a range to so many commands.
fn assignments(count: usize, first: u16, last: u16) -> impl Iterator<Item = Vec<u16>> {
    let choices = usize::from(last + 1 - first);
    (0..choices.pow(count as u32)).map(move |mut number| {
        let round = |_| {
            let round = first + (number % choices) as u16;
            number /= choices;
            round
        };
        (0..count).map(round).collect()
    })
}

/// How many different rounds there are.
fn used(rounds: &[u16]) -> usize {
    let mut rounds = rounds.to_vec();
    rounds.sort();
    rounds.dedup();
    rounds.len()
}

/// Of all assignments with rounds up to the number of commands that keep the rule, the earliest round
/// of each command and the fewest rounds. A later round than that many leaves one unused, without
/// which each command stands no later.
fn least(relation: &Relation) -> (Vec<u16>, usize) {
    let count = relation.len();
    let mut earliest = vec![u16::MAX; count];
    let mut fewest = usize::MAX;
    let keeping = assignments(count, 1, count as u16).filter(|it| keeps_rule(relation, it));
    for rounds in keeping {
        fewest = fewest.min(used(&rounds));
        for (least, round) in earliest.iter_mut().zip(rounds) {
            *least = round.min(*least);
        }
    }
    (earliest, fewest)
}

/// A command of each kind on each item, and of those that name none.
fn alphabet() -> Vec<Command> {
    let item = |kind: Kind, key: u64| Command {
        kind,
        key,
        chute: u16::from(kind.carries_chute()),
    };
    let items = KEYS
        .iter()
        .flat_map(|key| Kind::OF_ITEMS.map(|it| item(it, *key)));
    items
        .chain([Command::workers(1), Command::CHECKPOINT])
        .collect()
}

/// All lists of up to so many commands.
fn lists(longest: usize) -> Vec<Vec<Command>> {
    let alphabet = alphabet();
    let mut lists = vec![Vec::new()];
    let mut begun = 0;
    for _ in 0..longest {
        let shorter = lists[begun..].to_vec();
        begun = lists.len();
        for list in &shorter {
            lists.extend(alphabet.iter().map(|it| [&list[..], &[*it]].concat()));
        }
    }
    lists
}

/// "No assignment keeping this rule uses fewer rounds, and none puts any command in an earlier one."
#[test]
fn every_short_list_has_the_earliest_and_fewest_rounds() {
    let mut met = BTreeMap::new();
    let lists = lists(LONGEST);
    for list in &lists {
        let relation = relation(list);
        let (earliest, fewest) = met
            .entry(relation.clone())
            .or_insert_with(|| least(&relation));
        let rounds = rounds_of(list);
        assert!(keeps_rule(&relation, &rounds), "{list:?} {rounds:?}");
        assert_eq!(rounds, *earliest, "{list:?}");
        if !list.is_empty() {
            assert_eq!(count_of(&rounds), *fewest as u64, "{list:?}");
            assert_eq!(used(&rounds), *fewest, "{list:?}");
        }
    }
    assert_eq!(lists.len(), 111_111);
    assert!(met.len() > 300, "{}", met.len());
    assert_eq!((rounds_of(&[]), count_of(&[])), (vec![], 0));
}

/// One list for each relation of up to four commands, with all assignments, from round 0 on and past
/// the last: the judge of the comparison passes the right one with its number of rounds, and no other.
#[test]
fn the_judge_passes_the_right_rounds_alone() {
    let met: BTreeMap<Relation, Vec<Command>> = lists(4)
        .into_iter()
        .map(|list| (relation(&list), list))
        .collect();
    for (relation, list) in &met {
        let (earliest, fewest) = least(relation);
        let fewest = if list.is_empty() { 0 } else { fewest as u64 };
        for rounds in assignments(list.len(), 0, list.len() as u16 + 1) {
            for count in 0..=list.len() as u64 + 2 {
                let passed = broken(list, &rounds, count).is_none();
                let right = rounds == earliest && count == fewest;
                assert_eq!(passed, right, "{list:?} {rounds:?} {count}");
            }
        }
    }
    assert!(met.len() > 60, "{}", met.len());
}

/// Rounds by another rule of dependence.
fn by(commands: &[Command], depends: impl Fn(&Command, &Command) -> bool) -> Vec<u16> {
    let mut rounds: Vec<u16> = Vec::new();
    for (later, command) in commands.iter().enumerate() {
        let earlier = (0..later).filter(|it| depends(&commands[*it], command));
        rounds.push(1 + earlier.map(|it| rounds[it]).max().unwrap_or(0));
    }
    rounds
}

/// Rounds by the right rule for all pairs but those of two kinds, in either order.
fn without(commands: &[Command], kinds: [Kind; 2], but: fn(u64, u64) -> bool) -> Vec<u16> {
    by(commands, |first, second| {
        let pair = [first.kind, second.kind];
        let named = pair == kinds || pair == [kinds[1], kinds[0]];
        depends(first, second) && !(named && but(first.key, second.key))
    })
}

/// The latest rounds that keep the rule and use no more: by the distance from the end.
fn latest(commands: &[Command]) -> Vec<u16> {
    let reversed: Vec<Command> = commands.iter().rev().copied().collect();
    let rounds = by(&reversed, depends);
    let most = count_of(&rounds) as u16;
    rounds.iter().rev().map(|round| most + 1 - round).collect()
}

/// Each command behind the nearest that it depends on, though another may stand later.
fn behind_the_nearest(commands: &[Command]) -> Vec<u16> {
    let mut rounds: Vec<u16> = Vec::new();
    for (later, command) in commands.iter().enumerate() {
        let nearest = (0..later).rfind(|it| depends(&commands[*it], command));
        rounds.push(1 + nearest.map_or(0, |it| rounds[it]));
    }
    rounds
}

/// A faulty way to find rounds.
type Way = fn(&[Command]) -> Vec<u16>;

/// Of which items: the same, different ones, or any.
const ONE: fn(u64, u64) -> bool = |first, second| first == second;
const OTHERS: fn(u64, u64) -> bool = |first, second| first != second;
const ANY: fn(u64, u64) -> bool = |_, _| true;

const WAYS: [(&str, Way); 21] = [
    ("from 0", |list| added(&rounds_of(list), -1)),
    ("from 2", |list| added(&rounds_of(list), 1)),
    ("the later first", |list| {
        let rounds = rounds_of(list);
        let most = count_of(&rounds) as u16;
        rounds.iter().map(|round| most + 1 - round).collect()
    }),
    ("the last command one round too late", |list| {
        let mut rounds = rounds_of(list);
        rounds.iter_mut().rev().take(1).for_each(|it| *it += 1);
        rounds
    }),
    ("all in one round", |list| vec![1; list.len()]),
    ("one behind the last command of any kind", |list| {
        (1..=list.len() as u16).collect()
    }),
    ("by the distance from the end", latest),
    ("behind the nearest", behind_the_nearest),
    ("by how many it depends on", |list| {
        let relation = relation(list);
        relation
            .iter()
            .map(|it| 1 + it.count_ones() as u16)
            .collect()
    }),
    ("a read and an update of one item together", |list| {
        without(list, [Kind::Read, Kind::Update], ONE)
    }),
    ("two updates of one item together", |list| {
        without(list, [Kind::Update; 2], ONE)
    }),
    ("an insert and a read of its item together", |list| {
        without(list, [Kind::Insert, Kind::Read], ONE)
    }),
    ("inserts of different items together", |list| {
        without(list, [Kind::Insert; 2], OTHERS)
    }),
    (
        "an insert and a delete of different items together",
        |list| without(list, [Kind::Insert, Kind::Delete], OTHERS),
    ),
    ("reads of one item apart", |list| {
        by(list, |first, second| {
            depends(first, second) || first.key == second.key
        })
    }),
    ("inserts apart from all", |list| {
        by(list, |first, second| {
            depends(first, second) || [first.kind, second.kind].contains(&Kind::Insert)
        })
    }),
    ("a worker change together with reads", |list| {
        without(list, [Kind::Workers, Kind::Read], ANY)
    }),
    ("a worker change apart from key 0 alone", |list| {
        without(list, [Kind::Workers, Kind::Update], OTHERS)
    }),
    ("a checkpoint together with a worker change", |list| {
        without(list, [Kind::Workers, Kind::Checkpoint], ANY)
    }),
    ("two checkpoints together", |list| {
        without(list, [Kind::Checkpoint; 2], ANY)
    }),
    ("a checkpoint together with updates", |list| {
        without(list, [Kind::Checkpoint, Kind::Update], ANY)
    }),
];

fn added(rounds: &[u16], by: i16) -> Vec<u16> {
    let added = rounds.iter().map(|round| round.saturating_add_signed(by));
    added.collect()
}

/// Each faulty way is told by the judge on some list of up to four commands, and wherever it gives
/// other rounds than the right ones.
#[test]
fn every_faulty_way_is_told() {
    let lists = lists(4);
    let told = |way: Way| {
        let wrong = lists.iter().filter(|list| {
            let rounds = way(list);
            let told = broken(list, &rounds, count_of(&rounds)).is_some();
            assert_eq!(told, rounds != rounds_of(list), "{list:?} {rounds:?}");
            told
        });
        wrong.count()
    };
    assert_eq!(told(rounds_of), 0);
    for (name, way) in WAYS {
        assert!(told(way) > 0, "{name}");
    }
}

/// A number of rounds that is not that of the rounds is told, on every list.
#[test]
fn a_wrong_number_of_rounds_is_told() {
    for list in lists(3) {
        let rounds = rounds_of(&list);
        let count = count_of(&rounds);
        for wrong in [count + 1, count.wrapping_sub(1), count + 256, u64::MAX] {
            assert!(broken(&list, &rounds, wrong).is_some());
        }
        assert_eq!(broken(&list, &rounds, count), None);
    }
}

/// One pass in which each command goes behind those that it depends on gives the same rounds, which
/// the judge passes.
#[test]
fn longer_lists_have_the_rounds_of_one_pass() {
    let random = &mut Random::new(9);
    let alphabet = alphabet();
    for _ in 0..3000 {
        let from = random.below(alphabet.len() as u64) as usize;
        let length = random.below(150) as usize;
        let pick = |_| random.pick(&alphabet[from..]);
        let list: Vec<Command> = (0..length).map(pick).collect();
        let rounds = rounds_of(&list);
        assert_eq!(rounds, by(&list, depends), "{list:?}");
        assert_eq!(broken(&list, &rounds, count_of(&rounds)), None);
    }
}

/// What the judge says, in words.
#[test]
fn the_judge_s_words() {
    let [insert, delete, read, ..] = alphabet()[..] else {
        panic!("an alphabet of all kinds");
    };
    let list = [insert, read, delete];
    let cases: [(&[u16], u64, &str); 5] = [
        (&[1, 2], 2, "2 rounds for 2 commands up to round 2"),
        (&[1, 2, 3], 4, "4 rounds for 3 commands up to round 3"),
        (&[0, 1, 2], 2, "command 1 stands in round 0"),
        (
            &[1, 2, 2],
            2,
            "command 3 stands in round 2 and depends on command 2 in round 2",
        ),
        (
            &[1, 2, 4],
            4,
            "command 3 stands in round 4 and could stand earlier",
        ),
    ];
    for (rounds, count, words) in cases {
        assert_eq!(broken(&list, rounds, count), Some(words.to_string()));
    }
}
