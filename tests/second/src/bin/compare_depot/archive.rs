//! The proved code: its calls through C, where a list of bytes is a pointer and a length, and its
//! program, a process for each input.

use std::io::Write;
use std::path::PathBuf;
use std::process::{Command, Stdio};
use std::thread;

use second::bytes::Lists;
use second::calls::{Given, LentLists};
use second::depot::Depot;

unsafe extern "C" {
    fn depot_open(
        state: *mut u8,
        state_length: usize,
        keys: *mut u8,
        keys_length: usize,
        chutes: *mut u8,
        chutes_length: usize,
        answers: *mut u8,
        answers_length: usize,
        image: *mut u8,
        image_length: usize,
        commands: *const u8,
        commands_length: usize,
        size: u64,
        workers: u64,
        capacity: u64,
    ) -> u64;
    fn depot_open_from(
        state: *mut u8,
        state_length: usize,
        keys: *mut u8,
        keys_length: usize,
        chutes: *mut u8,
        chutes_length: usize,
        answers: *mut u8,
        answers_length: usize,
        image: *mut u8,
        image_length: usize,
        commands: *const u8,
        commands_length: usize,
        source: *const u8,
        source_length: usize,
        size: u64,
        workers: u64,
        capacity: u64,
    ) -> u64;
    fn depot_advance(
        state: *mut u8,
        state_length: usize,
        keys: *mut u8,
        keys_length: usize,
        chutes: *mut u8,
        chutes_length: usize,
        answers: *mut u8,
        answers_length: usize,
        image: *mut u8,
        image_length: usize,
        commands: *const u8,
        commands_length: usize,
        schedule: *const u8,
        schedule_length: usize,
    ) -> u64;
    fn depot_dispatch(
        state: *mut u8,
        state_length: usize,
        keys: *mut u8,
        keys_length: usize,
        chutes: *mut u8,
        chutes_length: usize,
        answers: *mut u8,
        answers_length: usize,
        image: *mut u8,
        image_length: usize,
        commands: *const u8,
        commands_length: usize,
        schedule: *mut u8,
        schedule_length: usize,
        count: *mut u8,
        count_length: usize,
    ) -> u64;
    fn depot_steps_needed(
        state: *const u8,
        state_length: usize,
        keys: *const u8,
        keys_length: usize,
        chutes: *const u8,
        chutes_length: usize,
        answers: *const u8,
        answers_length: usize,
        commands: *const u8,
        commands_length: usize,
        count: *mut u8,
        count_length: usize,
    ) -> u64;
    fn depot_pending_counts(
        state: *const u8,
        state_length: usize,
        keys: *const u8,
        keys_length: usize,
        chutes: *const u8,
        chutes_length: usize,
        answers: *const u8,
        answers_length: usize,
        commands: *const u8,
        commands_length: usize,
        counts: *mut u8,
        counts_length: usize,
    ) -> u64;
    fn depot_worker_status(
        state: *const u8,
        state_length: usize,
        keys: *const u8,
        keys_length: usize,
        chutes: *const u8,
        chutes_length: usize,
        answers: *const u8,
        answers_length: usize,
        commands: *const u8,
        commands_length: usize,
        status: *mut u8,
        status_length: usize,
    ) -> u64;
    fn depot_read_identifier(
        text: *const u8,
        text_length: usize,
        key: *mut u8,
        key_length: usize,
    ) -> u64;
    fn depot_write_identifier(key: u64, text: *mut u8, text_length: usize) -> u64;
    fn depot_rounds_needed(
        commands: *const u8,
        commands_length: usize,
        rounds: *mut u8,
        rounds_length: usize,
        count: *mut u8,
        count_length: usize,
    ) -> u64;
}

/// The linked archive, and where the program is.
pub struct Archive {
    pub program: PathBuf,
}

/// A call on the lists of a run that are lent to it, its commands, and what else it takes.
macro_rules! on_run {
    ($call:ident, $lent:ident, $commands:ident, $($more:expr),+) => {
        $call(
            $lent.state.as_mut_ptr(),
            $lent.state.len(),
            $lent.keys.as_mut_ptr(),
            $lent.keys.len(),
            $lent.chutes.as_mut_ptr(),
            $lent.chutes.len(),
            $lent.answers.as_mut_ptr(),
            $lent.answers.len(),
            $lent.image.as_mut_ptr(),
            $lent.image.len(),
            $commands.as_ptr(),
            $commands.len(),
            $($more),+
        )
    };
}

// SAFETY, of every call here: each pointer and length are those of one live slice, which the
// function does not keep; it reads, or writes where it is lent to be written, no byte outside it,
// and no two of the slices overlap.
impl Depot for Archive {
    fn open(&self, lent: &mut LentLists, given: Given) -> u64 {
        let (commands, [size, workers, room]) = (given.commands, given.settings);
        let Some(source) = given.source else {
            return unsafe { on_run!(depot_open, lent, commands, size, workers, room) };
        };
        let (first, length) = (source.as_ptr(), source.len());
        unsafe {
            on_run!(
                depot_open_from,
                lent,
                commands,
                first,
                length,
                size,
                workers,
                room
            )
        }
    }

    fn advance(&self, lent: &mut LentLists, commands: &[u8], schedule: &[u8]) -> u64 {
        let (first, length) = (schedule.as_ptr(), schedule.len());
        unsafe { on_run!(depot_advance, lent, commands, first, length) }
    }

    fn dispatch(
        &self,
        lent: &mut LentLists,
        commands: &[u8],
        schedule: &mut [u8],
        count: &mut [u8],
    ) -> u64 {
        let (first, length) = (schedule.as_mut_ptr(), schedule.len());
        let (count, bytes) = (count.as_mut_ptr(), count.len());
        unsafe { on_run!(depot_dispatch, lent, commands, first, length, count, bytes) }
    }

    fn steps_needed(&self, lists: Lists, count: &mut [u8]) -> u64 {
        report(depot_steps_needed, lists, count)
    }

    fn pending_counts(&self, lists: Lists, counts: &mut [u8]) -> u64 {
        report(depot_pending_counts, lists, counts)
    }

    fn worker_status(&self, lists: Lists, status: &mut [u8]) -> u64 {
        report(depot_worker_status, lists, status)
    }

    fn read_identifier(&self, text: &[u8], key: &mut [u8]) -> u64 {
        unsafe { depot_read_identifier(text.as_ptr(), text.len(), key.as_mut_ptr(), key.len()) }
    }

    fn write_identifier(&self, key: u64, text: &mut [u8]) -> u64 {
        unsafe { depot_write_identifier(key, text.as_mut_ptr(), text.len()) }
    }

    fn rounds_needed(&self, commands: &[u8], rounds: &mut [u8], count: &mut [u8]) -> u64 {
        unsafe {
            depot_rounds_needed(
                commands.as_ptr(),
                commands.len(),
                rounds.as_mut_ptr(),
                rounds.len(),
                count.as_mut_ptr(),
                count.len(),
            )
        }
    }

    fn program(&self, input: &[u8]) -> Vec<u8> {
        let mut child = Command::new(&self.program)
            .stdin(Stdio::piped())
            .stdout(Stdio::piped())
            .spawn()
            .unwrap_or_else(|error| panic!("{}: {error}", self.program.display()));
        let mut pipe = child.stdin.take().expect("the input is a pipe");
        let output = thread::scope(|scope| {
            // A program that has read enough may close its input, so a failed write is no fault.
            scope.spawn(move || pipe.write_all(input).ok());
            child.wait_with_output()
        });
        let output = output.unwrap_or_else(|error| panic!("{}: {error}", self.program.display()));
        match output.status.code() {
            Some(_) => output.stdout,
            None => format!("ended by a signal: {}", output.status).into_bytes(),
        }
    }
}

/// The form that the reports have.
type Report = unsafe extern "C" fn(
    *const u8,
    usize,
    *const u8,
    usize,
    *const u8,
    usize,
    *const u8,
    usize,
    *const u8,
    usize,
    *mut u8,
    usize,
) -> u64;

fn report(report: Report, lists: Lists, out: &mut [u8]) -> u64 {
    unsafe {
        report(
            lists.state.as_ptr(),
            lists.state.len(),
            lists.keys.as_ptr(),
            lists.keys.len(),
            lists.chutes.as_ptr(),
            lists.chutes.len(),
            lists.answers.as_ptr(),
            lists.answers.len(),
            lists.commands.as_ptr(),
            lists.commands.len(),
            out.as_mut_ptr(),
            out.len(),
        )
    }
}
