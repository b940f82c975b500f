//! What is held against a dispatch, whatever turns it chooses: document 02, A.6, alone.

use super::Difference;
use crate::calls::TURN_COUNT;
use crate::depot::Second;
use crate::dispatch::turns_needed;
use crate::host::{Host, filling};
use crate::refusal::{Refusal, answer_words};
use crate::run::{Party, Run};
use crate::script::{Dispatch, List, Step};

/// How a dispatch with this answer differs from what it must do, by the lists before and after it.
pub fn differs(before: &Host, after: &Host, lent: Dispatch, answer: u64) -> Option<Difference> {
    let answered = answer_differs(before, lent, answer);
    if answered.is_some() || answer != 0 {
        return answered.or_else(|| refused_differs(before, after, lent));
    }
    let Some(run) = before.run() else {
        return Some("the dispatch is accepted of lists that are no run".to_string());
    };
    let (turns, used) = match reported(after, lent) {
        Ok(turns) => (turns, turns.len() as u64),
        Err(words) => return Some(words),
    };
    let enough = match before.is_reached() {
        true => bound(&run),
        false => turns_needed(&run),
    };
    if used > enough {
        return Some(format!("the dispatch uses {used} turns of {enough}"));
    }
    let unfinished = || after.run().and_then(|run| unfinished(&run));
    by_hand_differs(before, after, turns).or_else(|| before.is_reached().then(unfinished).flatten())
}

/// How what a run is said to need differs from the bound, where dealings reach it.
pub fn needed_differs(host: &Host) -> Option<Difference> {
    let right = bound(&host.run().filter(|_| host.is_reached())?);
    let found = number(host.list(List::Out))?;
    let words = format!("{found} turns are said to be enough, of {right}");
    (found != right).then_some(words)
}

/// A run that dealings reach, with its lists, is refused 6 where what is lent is too short or the
/// number's list has another length, and nothing else is refused.
fn answer_differs(before: &Host, lent: Dispatch, answer: u64) -> Option<Difference> {
    let run = before.run().filter(|_| before.is_reached())?;
    let enough = bound(&run);
    let fits = lent.count == TURN_COUNT && lent.length as u64 >= enough;
    let right = if fits { 0 } else { Refusal::Length.number() };
    let told = answer_words(answer);
    let Dispatch { length, count, .. } = lent;
    let words = format!("{told} with {length} bytes for {enough} turns and {count} for the number");
    (answer != right).then_some(words)
}

/// A refusal writes nothing.
fn refused_differs(before: &Host, after: &Host, lent: Dispatch) -> Option<Difference> {
    let written = List::ALL.into_iter().find(|list| {
        let same = match list {
            List::Schedule => lent.contents() == after.list(*list),
            List::Out => filling(lent.count) == after.list(*list),
            _ => before.list(*list) == after.list(*list),
        };
        !same
    });
    written.map(|list| format!("the refused dispatch writes into {}", list.name()))
}

/// The turns that are reported, if the list has so many and is left as it was behind them.
fn reported(after: &Host, lent: Dispatch) -> Result<&[u8], Difference> {
    let reported = number(after.list(List::Out)).ok_or("no number of turns")?;
    let turns = usize::try_from(reported).ok();
    let parts = turns.and_then(|turns| after.list(List::Schedule).split_at_checked(turns));
    let (turns, rest) = parts.ok_or(format!(
        "the dispatch reports {reported} turns in a list of {}",
        lent.length
    ))?;
    let contents = lent.contents();
    match (turns.len()..lent.length).find(|index| rest[index - turns.len()] != contents[*index]) {
        None => Ok(turns),
        Some(index) => Err(format!(
            "byte {} behind the {reported} turns of the dispatch is written",
            index - turns.len()
        )),
    }
}

/// "performing that dealing by hand gives the same state": the second program makes the written
/// turns on a copy of the lists as they were.
fn by_hand_differs(before: &Host, after: &Host, turns: &[u8]) -> Option<Difference> {
    let mut copy = before.clone();
    match copy.take(&Second, &Step::Advance(turns.to_vec())) {
        0 => {
            let mut lists = List::HANDED.into_iter();
            let other = lists.find(|list| copy.list(*list) != after.list(*list))?;
            let name = other.name();
            Some(format!("the written turns, by hand, leave another {name}"))
        }
        refused => Some(format!("the written turns: {}", answer_words(refused))),
    }
}

/// (n + w) × (3 × s + 6), "with n commands that are not yet loaded or whose records are not yet
/// returned, w the largest worker count and s the graph size".
fn bound(run: &Run) -> u64 {
    let commands = (1..=run.commands.len()).filter(|place| !is_removed(run, *place));
    let [workers, size] = [run.largest, run.settings.size].map(u64::from);
    (commands.count() as u64 + workers) * (3 * size + 6)
}

/// Which command is not removed, or else which party is not idle, if one is.
fn unfinished(run: &Run) -> Option<Difference> {
    let place = (1..=run.commands.len()).find(|place| !is_removed(run, *place));
    let party = run.parties.iter().position(|party| *party != Party::Idle);
    place
        .map(|place| format!("behind the dispatch command {place} is not removed"))
        .or(party.map(|party| format!("behind the dispatch party {party} is not idle")))
}

/// Whether the command of a place is loaded and its record returned.
fn is_removed(run: &Run, place: usize) -> bool {
    let records = &run.records.place[1..=usize::from(run.settings.size)];
    place <= run.loaded.into() && !records.iter().any(|it| usize::from(*it) == place)
}

/// The number of turns or rounds that a list holds, if it has the length.
pub fn number(list: &[u8]) -> Option<u64> {
    let bytes: [u8; TURN_COUNT] = list.try_into().ok()?;
    Some(u64::from_be_bytes(bytes))
}

#[cfg(test)]
mod tests {
    use super::*;
    use crate::bytes::{KEY, LOCKED, NUMBER, STATE};
    use crate::depot::Depot;
    use crate::image::RECORD;
    use crate::play::Play;
    use crate::script::Open;

    /// A play of one worker change, which is opened in a graph of one record: 18 turns are enough.
    fn opened(depot: &dyn Depot) -> Play<'_> {
        let mut play = Play::new(depot);
        let commands = crate::command::encode(5, &crate::identifier::NONE, 1);
        let steps = [
            Step::Lend([STATE, KEY, NUMBER, NUMBER, 2 * RECORD]),
            Step::Open(Open {
                settings: [1, 1, 1],
                commands,
                source: None,
            }),
        ];
        assert_eq!(play.take_all(steps), Ok(0));
        play
    }

    const DISPATCH: Step = Step::Dispatch(Dispatch {
        length: 18,
        seed: 1,
        count: TURN_COUNT,
    });

    fn used(play: &Play) -> Option<u64> {
        number(play.host().list(List::Out))
    }

    /// A run that was changed need not come to its end; a copy of it that was kept before must.
    #[test]
    fn only_runs_that_dealings_reach_must_come_to_their_end() {
        let lock = Step::Change {
            list: List::State,
            offset: LOCKED,
            bits: 1,
        };
        let mut play = opened(&Second);
        assert!(play.host().is_reached());
        assert_eq!(play.take_all([Step::Keep, lock, DISPATCH]), Ok(0));
        assert!(!play.host().is_reached());
        assert_eq!(used(&play), Some(18), "the head stays locked");
        assert_eq!(play.take_all([Step::Restore, DISPATCH]), Ok(0));
        assert!(play.host().is_reached());
        assert_eq!(used(&play), Some(9));
        let words = unfinished(&opened(&Second).host().run().expect("a run"));
        let words = words.expect("nothing is done");
        assert_eq!(words, "behind the dispatch command 1 is not removed");
        assert_eq!(unfinished(&play.host().run().expect("a run")), None);
    }
}
