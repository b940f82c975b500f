//! Dispatches: from openings with and without an image, from any moment of dealings of every sort, at
//! the end, behind refused calls, of runs that were changed, with lists of every length, and refused
//! for each reason and for several at once.

use super::changes::{set_bytes, set_number, set_party, step_on};
use super::dealings::Played;
use super::openings::{Opening, commands};
use super::{apart, checkpoints, interlude, schedules, shifts};
use crate::bytes::{
    CHAIN, FREE, IN_FORCE, LARGEST, LOADED, LOCKED, MOST_COMMANDS, NEXT, PLACE, SETS, SIZE,
};
use crate::calls::TURN_COUNT;
use crate::command::Kind;
use crate::dispatch::turns_needed;
use crate::generate::commands::with_key;
use crate::generate::images::Draft;
use crate::host::Host;
use crate::play::Play;
use crate::play::dispatches::number;
use crate::random::Random;
use crate::run::{Party, RECORDS, Run};
use crate::script::{Dispatch, List, Step};
use crate::text::input;

/// How many runs there are: those of many commands, and each form of a list so often in each way.
pub const COUNT: u64 = MANY + FORMS * WAYS * 2;
pub const FORMS: u64 = 64;
pub const WAYS: u64 = 5;
/// Those with as many commands as there can be.
pub const MANY: u64 = 4;

/// Moments of one run from which is dispatched, at the most.
const MOMENTS: usize = 40;
/// Turns of the run that they are of.
const MOST: usize = 2_000;
/// How long a list is lent where there is no run, and so no bound.
const ANY: usize = 36;

/// Plays the run of a number below the count.
pub fn play(number: u64, random: &mut Random, play: &mut Play) -> Played {
    let Some(number) = number.checked_sub(MANY) else {
        return many(number, random, play);
    };
    open(number % FORMS, random, play)?;
    match number / FORMS % WAYS {
        0 => at_the_ends(random, play),
        1 => from_the_middle(random, play),
        2 => from_every_moment(random, play),
        3 => refused(random, play),
        _ => changed(random, play),
    }
}

/// Opens a list of a form, every other one from an image.
fn open(form: u64, random: &mut Random, play: &mut Play) -> Played {
    let opening = match form / 2 % 8 {
        0 | 1 => Opening::any(random),
        2 | 3 => Opening::small(random),
        4 => Opening::wide(random),
        5 => shifts::opening(form * 2, random),
        _ => checkpoints::opening(form * 2, random),
    };
    if form.is_multiple_of(2) {
        return opening.open(play);
    }
    let entries = random.below(opening.room.min(6) + 1) as usize;
    let source = Draft::any(random, opening.room as u16, entries).bytes();
    opening.open_from(source, play)
}

/// From the opening, and again from the end. The program is given the same turns.
fn at_the_ends(random: &mut Random, play: &mut Play) -> Played {
    dispatch(random, play)?;
    play.take(Step::Serial)?;
    let input = program_input(play.host());
    play.take(Step::Program(input))?;
    interlude(random, play)?;
    dispatch(random, play)
}

/// The input of the program with the settings, the commands and the turns of a dispatch from the
/// opening; its store is empty at first, whatever the run was opened from.
fn program_input(host: &Host) -> Vec<u8> {
    let turns = number(host.list(List::Out)).unwrap_or(0) as usize;
    let settings = host.run().map(|run| run.settings);
    let settings = settings.expect("a dispatch leaves a run");
    let schedule = &host.list(List::Schedule)[..turns];
    input::encode(settings, host.list(List::Commands), schedule)
}

/// From somewhere behind a dealing of any sort, and behind calls that leave the run as it is.
fn from_the_middle(random: &mut Random, play: &mut Play) -> Played {
    middle(random, play)?;
    interlude(random, play)?;
    interlude(random, play)?;
    dispatch(random, play)?;
    play.take(Step::Serial)?;
    Ok(())
}

/// On a copy behind each call of a dealing; a short one has a call for each turn.
fn from_every_moment(random: &mut Random, play: &mut Play) -> Played {
    let schedule = match random.below(3) {
        0 => schedules::to_the_end(random, play.host(), MOST),
        1 => schedules::near_the_count(random, play.host(), MOST),
        _ => schedules::with_pauses(random, play.host(), MOST),
    };
    for piece in schedule.chunks(schedule.len() / MOMENTS + 1) {
        play.take(Step::Advance(piece.to_vec()))?;
        apart(play, |play| dispatch(random, play))?;
    }
    dispatch(random, play)
}

/// Deals turns of any sort up to some point.
fn middle(random: &mut Random, play: &mut Play) -> Played {
    let mut schedule = schedules::any(random, play.host());
    schedule.truncate(random.below(schedule.len() as u64 + 1) as usize);
    play.take(Step::Advance(schedule))?;
    Ok(())
}

/// Lists of as many commands as there can be: inserts in a graph of one record, whose turns come
/// nearest to the bound, and any in the largest graph, from the opening, from a full chain and from
/// the middle.
fn many(number: u64, random: &mut Random, play: &mut Play) -> Played {
    let least = number == 0;
    let opening = Opening {
        size: if least { 1 } else { 150 },
        workers: if least { 1 } else { 64 },
        room: if least { 1 } else { 4096 },
        commands: match least {
            true => with_key(random, Kind::Insert, 5).repeat(MOST_COMMANDS),
            false => commands(random, MOST_COMMANDS),
        },
    };
    opening.open(play)?;
    match number {
        2 => {
            play.take(Step::Advance(vec![0; 12_000]))?;
        }
        3 => {
            let schedule = schedules::with_pauses(random, play.host(), 60_000);
            play.take(Step::Advance(schedule))?;
        }
        _ => {}
    }
    dispatch(random, play)
}

/// Each list in a wrong length, a run that is out of range, both at once, and what is lent to the
/// dispatch too short, in the middle of a run; then the dispatch.
fn refused(random: &mut Random, play: &mut Play) -> Played {
    middle(random, play)?;
    let right = bound(play);
    for length in [0, right / 2, right - 1] {
        take(random, play, length, TURN_COUNT)?;
    }
    for count in [0, 1, 7, 9, 16] {
        take(random, play, right, count)?;
        play.take(Step::StepsNeeded(count))?;
    }
    for list in List::HANDED {
        apart(play, |play| {
            resize(list, random, play)?;
            take(random, play, right, TURN_COUNT)?;
            needed(play)
        })?;
    }
    for _ in 0..4 {
        apart(play, |play| out_of_range(right, random, play))?;
    }
    dispatch(random, play)
}

/// A list in another length.
fn resize(list: List, random: &mut Random, play: &mut Play) -> Played {
    let length = play.host().list(list).len();
    let by = random.pick(&[-16, -8, -2, -1, 1, 2, 8, 16, -(length as isize)]);
    let other = length.saturating_add_signed(by);
    play.take(Step::Resize(list, if other == length { 1 } else { other }))?;
    Ok(())
}

/// A run that is out of range, with lists long enough, too short and empty, and with wrong lengths
/// besides.
fn out_of_range(right: usize, random: &mut Random, play: &mut Play) -> Played {
    let size = play.host().list(List::State)[SIZE];
    let (offset, value) = random.pick(&[
        (CHAIN, 0),
        (CHAIN, 2),
        (LARGEST, 0),
        (LARGEST, 65),
        (IN_FORCE, 65),
        (FREE, size + 1),
        (NEXT, size + 1),
        (LOCKED, 2),
        (PLACE, 255),
    ]);
    set_bytes(play, List::State, offset, &[value])?;
    for length in [right, right - 1, 0] {
        take(random, play, length, TURN_COUNT)?;
        take(random, play, length, 7)?;
    }
    needed(play)?;
    let list = random.pick(&List::HANDED[1..]);
    resize(list, random, play)?;
    needed(play)?;
    take(random, play, right, TURN_COUNT)
}

/// In the middle of a run, on copies that were changed as no dealing leaves them.
fn changed(random: &mut Random, play: &mut Play) -> Played {
    middle(random, play)?;
    let Some(run) = play.host().run() else {
        return Ok(());
    };
    for change in 0..CHANGES {
        apart(play, |play| {
            change_run(change, &run, random, play)?;
            dispatch(random, play)?;
            step_on(random, play)
        })?;
    }
    dispatch(random, play)
}

/// How many changes there are.
const CHANGES: u64 = 11;

/// A change of records or of parties, by its number.
fn change_run(change: u64, run: &Run, random: &mut Random, play: &mut Play) -> Played {
    let record = random.below(u64::from(run.settings.size) + 1) as u8;
    let count = run.commands.len() as u64;
    let place = random.below(count + 1) as u16;
    let any = usize::from(record);
    let state =
        |play: &mut Play, offset: usize, value: u8| set_bytes(play, List::State, offset, &[value]);
    match change {
        0 => state(play, LOCKED, 1 - u8::from(run.records.locked[0])),
        1 => state(play, LOCKED + any, 1 - u8::from(run.records.locked[any])),
        2 => state(play, NEXT + any, record),
        3 => state(play, NEXT, record),
        4 => set_number(play, PLACE, place),
        5 => set_number(play, PLACE + 2 * any, place),
        6 => {
            let past = usize::from(run.settings.size) + 1;
            set_number(play, PLACE + 2 * past.min(RECORDS - 1), place)
        }
        7 => set_number(play, LOADED, random.below(count + 1) as u16),
        8 => state(play, SETS + 24 * any + 7, random.below(2) as u8),
        9 => {
            let past = run.largest + 1;
            let worker = random.pick(&[1, run.largest, past]).min(64);
            set_party(play, worker, party(record, random))
        }
        _ => {
            let at = random.below(u64::from(run.settings.size) + 1) as u8;
            set_party(play, 0, Party::Loading { at, own: record })
        }
    }
}

/// A worker in any state with a record.
fn party(own: u8, random: &mut Random) -> Party {
    let at = own.saturating_sub(random.below(3) as u8);
    random.pick(&[
        Party::Searching { at },
        Party::Holding { own },
        Party::LookedUp { own, found: 7 },
        Party::Written { own },
        Party::Walking { at, own },
        Party::Clearing { at, own },
    ])
}

/// Asks for the bound.
fn needed(play: &mut Play) -> Played {
    play.take(Step::StepsNeeded(TURN_COUNT))?;
    Ok(())
}

/// Asks for the bound, and dispatches with a list that is as long, or longer.
pub fn dispatch(random: &mut Random, play: &mut Play) -> Played {
    needed(play)?;
    let length = bound(play) + random.pick(&[0, 0, 1, 2, 17]);
    take(random, play, length, TURN_COUNT)
}

/// How many turns are enough.
fn bound(play: &Play) -> usize {
    let run = play.host().run();
    run.map_or(ANY, |run| turns_needed(&run) as usize)
}

/// Dispatches with lists of these lengths.
fn take(random: &mut Random, play: &mut Play, length: usize, count: usize) -> Played {
    play.take(Step::Dispatch(Dispatch {
        length,
        seed: random.number(),
        count,
    }))?;
    Ok(())
}

#[cfg(test)]
mod tests {
    use super::super::DISPATCHES;
    use super::super::dealings::testing::{assert_made_from_the_seed, met, played};
    use super::*;
    use crate::met::dispatches::Sort;

    /// Every sort of dispatch is met, most of them often; 4,096 commands a few times only.
    #[test]
    fn every_sort_of_dispatch_is_met() {
        let met = met(&played(DISPATCHES, COUNT)).dispatches;
        for sort in Sort::ALL {
            let least = match sort {
                Sort::Most | Sort::Largest => 3,
                Sort::SearchingAbove | Sort::SeveralStates => 5,
                _ => 50,
            };
            assert!(met.count(*sort) >= least, "{sort:?}: {}", met.count(*sort));
        }
        assert!(met.count(Sort::Most) < 30);
        // A graph of one record leaves a command nine turns, and an insert takes as many.
        let nearest = "0.9998, 36864 of 36873, from the opening, graph size 1";
        assert!(met.nearest().contains(nearest), "{}", met.nearest());
    }

    #[test]
    fn runs_are_made_from_the_seed() {
        assert_made_from_the_seed(DISPATCHES + MANY, COUNT - MANY);
    }
}
