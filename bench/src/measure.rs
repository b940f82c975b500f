//! Times of one piece of work on both sides, by turns, and their medians.

use std::hint::black_box;
use std::time::Duration;

use second::depot::Second;
use second::run::Run;

use crate::archive::Archive;
use crate::clock::timed;
use crate::input::Input;
use crate::lists::{Lists, accepted, same};

/// Turns dealt in one call.
pub const CALL_STEPS: usize = 100_000;
/// Calls that are timed together where one is short.
const BATCH: u32 = 100;
/// A schedule is repeated, from a fresh opening each time, until it has this many turns.
const LEAST_TURNS: usize = 1_000_000;

/// Median times of a piece of work.
#[derive(Clone, Copy)]
pub struct Times {
    pub proved: Duration,
    pub plain: Duration,
}

impl Times {
    pub fn ratio(self) -> f64 {
        ratio(self.proved, self.plain)
    }

    /// By how much each side takes longer than in others, for each of so many.
    pub fn less(self, other: Times, count: usize) -> Times {
        let part = |one: Duration, two: Duration| one.saturating_sub(two) / count as u32;
        Times {
            proved: part(self.proved, other.proved),
            plain: part(self.plain, other.plain),
        }
    }
}

/// Times of a whole schedule.
pub struct StepTimes {
    /// Calls on byte lists on both sides.
    pub calls: Times,
    /// The proved calls, and the plain turns alone on a run that is kept as arrays.
    pub turns: Times,
    /// Opening and calls, beside plain Rust that reads each command once and keeps its arrays.
    pub whole: Times,
}

pub struct Bench {
    pub proved: Archive,
    pub runs: usize,
    /// Turns after which a list that is not done is left as it stands.
    pub most_turns: usize,
}

impl Bench {
    /// The whole schedule in parts, each given to one side after the other.
    pub fn steps(&self, input: &Input) -> Result<StepTimes, String> {
        let once = |times: &mut _| self.steps_once(input, times);
        let [open, plain_open, proved, plain, turns] = self.medians(input.schedule.len(), once)?;
        let times = |proved, plain| Times { proved, plain };
        Ok(StepTimes {
            calls: times(proved, plain),
            turns: times(proved, turns),
            whole: times(open + proved, plain_open + turns),
        })
    }

    /// Medians of times that are taken by turns, of work that adds them and makes so many turns.
    pub fn medians<const N: usize>(
        &self,
        turns: usize,
        mut once: impl FnMut(&mut [Duration; N]) -> Result<(), String>,
    ) -> Result<[Duration; N], String> {
        let repeats = LEAST_TURNS.div_ceil(turns);
        let mut times = [const { Vec::new() }; N];
        for _ in 0..self.runs {
            let mut sums = [Duration::ZERO; N];
            for _ in 0..repeats {
                once(&mut sums)?;
            }
            for (times, sum) in times.iter_mut().zip(sums) {
                times.push(sum / repeats as u32);
            }
        }
        Ok(times.map(median))
    }

    /// Adds the times of the proved opening, the plain one, the proved calls, the plain calls and the
    /// plain turns, and compares what they leave.
    fn steps_once(&self, input: &Input, times: &mut [Duration; 5]) -> Result<(), String> {
        let mut plain = Lists::opened(&Second, input)?;
        let mut proved = plain.clone();
        let (time, answer) = timed(|| proved.open(&self.proved, input));
        accepted("open, proved", answer)?;
        times[0] += time;
        let (time, mut run) = timed(|| open_plainly(black_box(input)));
        times[1] += time;
        for part in input.schedule.chunks(CALL_STEPS) {
            let (time, answer) = timed(|| proved.advance(&self.proved, input, part));
            accepted("advance, proved", answer)?;
            times[2] += time;
            let (time, answer) = timed(|| plain.advance(&Second, input, part));
            accepted("advance, plain", answer)?;
            times[3] += time;
            let (time, ()) = timed(|| plain_turns(&mut run, black_box(part)));
            times[4] += time;
        }
        same(&proved, &plain)?;
        plain.same_as(&run)
    }

    /// One opening; the first finds lists in which no byte is 0.
    pub fn open(&self, input: &Input) -> Result<Times, String> {
        let mut lists = Lists::opened(&Second, input)?;
        lists.fill(1);
        self.call(input, &lists, Lists::open, Lists::open)
    }

    /// One call with an empty schedule, after half of the input's turns.
    pub fn empty(&self, input: &Input) -> Result<Times, String> {
        let mut lists = Lists::opened(&Second, input)?;
        let half = &input.schedule[..input.schedule.len() / 2];
        accepted("advance", lists.advance(&Second, input, half))?;
        self.call(
            input,
            &lists,
            |lists, depot, input| lists.advance(depot, input, &[]),
            |lists, depot, input| lists.advance(depot, input, &[]),
        )
    }

    /// A call that is short, on copies of the same lists.
    pub fn call(
        &self,
        input: &Input,
        lists: &Lists,
        prove: impl Fn(&mut Lists, &Archive, &Input) -> u64,
        plainly: impl Fn(&mut Lists, &Second, &Input) -> u64,
    ) -> Result<Times, String> {
        let (mut proved, mut plain) = (lists.clone(), lists.clone());
        let (mut proved_times, mut plain_times) = (Vec::new(), Vec::new());
        for _ in 0..self.runs {
            proved_times.push(batch(|| prove(&mut proved, &self.proved, input))?);
            plain_times.push(batch(|| plainly(&mut plain, &Second, input))?);
            same(&proved, &plain)?;
        }
        Ok(Times {
            proved: median(proved_times),
            plain: median(plain_times),
        })
    }
}

/// Reads each command once, and lays the arrays out; under a name of its own for callgrind.
#[inline(never)]
fn open_plainly(input: &Input) -> Run {
    input.opened()
}

/// The plain turns alone, under a name of their own for callgrind.
#[inline(never)]
fn plain_turns(run: &mut Run, schedule: &[u8]) {
    run.advance(schedule);
}

/// The time of one of many calls.
fn batch(mut call: impl FnMut() -> u64) -> Result<Duration, String> {
    let (time, answers) = timed(|| (0..BATCH).map(|_| black_box(call())).max());
    accepted("call", answers.unwrap_or(0))?;
    Ok(time / BATCH)
}

/// How many times as long one takes as another.
pub fn ratio(one: Duration, other: Duration) -> f64 {
    one.as_secs_f64() / other.as_secs_f64()
}

pub fn median(mut times: Vec<Duration>) -> Duration {
    times.sort();
    times[times.len() / 2]
}

#[cfg(test)]
mod tests {
    use super::*;

    #[test]
    fn the_median_is_the_middle_one() {
        let times = [9, 1, 5, 2, 8].map(Duration::from_secs).to_vec();
        assert_eq!(median(times), Duration::from_secs(5));
    }
}
