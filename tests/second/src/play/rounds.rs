//! What is held against the rounds of a list, however they are found: document 02, A.9, alone.

use super::Difference;
use crate::bytes::{KEY, NUMBER, STATE};
use crate::calls::{Given, LentLists, ROUND_COUNT};
use crate::command::{self, Command, dependent};
use crate::depot::Depot;
use crate::host::Host;
use crate::image::RECORD;
use crate::play::dispatches::number;
use crate::refusal::answer_words;
use crate::script::{List, Plan};

/// Lists of up to so many commands are judged pair by pair.
pub const JUDGED: usize = 200;

/// How a call for rounds with this answer differs from what it must do, by the lists after it.
pub fn differs(judged: &dyn Depot, after: &Host, plan: &Plan, answer: u64) -> Option<Difference> {
    answer_differs(judged, plan, answer).or_else(|| match answer {
        0 => given_differs(after, plan),
        _ => refused_differs(after, plan),
    })
}

/// How rounds and their number differ from what they must be, if they do. The rule is kept, and where
/// each command stands in round 1 or behind one in the round before, on which it depends, none can
/// stand in an earlier one, whatever the others do.
pub fn broken(commands: &[Command], rounds: &[u16], count: u64) -> Option<Difference> {
    let most = rounds.iter().copied().max().unwrap_or(0);
    if rounds.len() != commands.len() || u64::from(most) != count {
        let given = rounds.len();
        return Some(format!(
            "{count} rounds for {given} commands up to round {most}"
        ));
    }
    (0..commands.len()).find_map(|later| rule_differs(commands, rounds, later))
}

/// How the round of one command differs from what it must be by the commands before it.
fn rule_differs(commands: &[Command], rounds: &[u16], later: usize) -> Option<Difference> {
    let [place, round] = [later + 1, rounds[later].into()];
    let before = || (0..later).filter(|it| dependent(&commands[*it], &commands[later]));
    if round == 0 {
        return Some(format!("command {place} stands in round 0"));
    }
    if let Some(earlier) = before().find(|it| usize::from(rounds[*it]) >= round) {
        let [first, other] = [earlier + 1, rounds[earlier].into()];
        return Some(format!(
            "command {place} stands in round {round} and depends on command {first} in round {other}"
        ));
    }
    let stands = round == 1 || before().any(|it| usize::from(rounds[it]) + 1 == round);
    (!stands).then(|| format!("command {place} stands in round {round} and could stand earlier"))
}

/// "A call given commands but neither settings nor a run tests from 4 on as opening does": it answers
/// as an opening of the same commands in right settings, with the rounds' list for its answers. Where
/// the number's list has a wrong length, the opening's image has.
fn answer_differs(judged: &dyn Depot, plan: &Plan, answer: u64) -> Option<Difference> {
    let fits = plan.count == ROUND_COUNT;
    let image = if fits { 2 * RECORD } else { 0 };
    let mut lists = [STATE, KEY, NUMBER, plan.length, image].map(|length| vec![0; length]);
    let [state, keys, chutes, answers, image] = lists.each_mut().map(Vec::as_mut_slice);
    let mut lent = LentLists {
        state,
        keys,
        chutes,
        answers,
        image,
    };
    let given = Given {
        commands: &plan.commands,
        source: None,
        settings: [1; 3],
    };
    let opened = judged.open(&mut lent, given);
    let words = format!(
        "the rounds are {}, an opening is {}",
        answer_words(answer),
        answer_words(opened)
    );
    (opened != answer).then_some(words)
}

/// How the rounds of an accepted list that is not too long differ from what they must be.
fn given_differs(after: &Host, plan: &Plan) -> Option<Difference> {
    let Ok(commands) = command::read_list(&plan.commands) else {
        return Some("the rounds of a refused command are given".to_string());
    };
    if commands.len() > JUDGED {
        return None;
    }
    let Some(count) = number(after.list(List::Out)) else {
        return Some("no number of rounds".to_string());
    };
    broken(&commands, &given(after), count)
}

/// The rounds that a caller was given.
pub fn given(after: &Host) -> Vec<u16> {
    let parts = after.list(List::Rounds).as_chunks::<NUMBER>().0;
    parts.iter().map(|it| u16::from_be_bytes(*it)).collect()
}

/// A refusal writes nothing.
fn refused_differs(after: &Host, plan: &Plan) -> Option<Difference> {
    let [rounds, count] = plan.contents();
    let lists = [
        (List::Planned, &plan.commands),
        (List::Rounds, &rounds),
        (List::Out, &count),
    ];
    let mut lists = lists.into_iter();
    let written = lists.find(|(list, before)| after.list(*list) != before.as_slice())?;
    let name = written.0.name();
    Some(format!("the refused call for rounds writes into {name}"))
}
