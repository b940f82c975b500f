//! The calls of the proved code that are compared, on numbers and byte lists as C makes them.

#[cfg(test)]
pub mod altered;

use crate::bytes::Lists;
use crate::calls::{self, Given, LentLists};
use crate::program;

/// The compared calls; the proved code and the second program each give them. Each answers its
/// refusal number plus 256 times the place plus 2^32 times the character, 0 for accepted.
pub trait Depot {
    /// Opens, with the store of an image where one is given, which is only read.
    fn open(&self, lent: &mut LentLists, given: Given) -> u64;

    fn advance(&self, lent: &mut LentLists, commands: &[u8], schedule: &[u8]) -> u64;

    /// Advances by turns of its own choice; it is lent lists for these turns and for their number.
    fn dispatch(
        &self,
        lent: &mut LentLists,
        commands: &[u8],
        schedule: &mut [u8],
        count: &mut [u8],
    ) -> u64;

    fn steps_needed(&self, lists: Lists, count: &mut [u8]) -> u64;

    fn pending_counts(&self, lists: Lists, counts: &mut [u8]) -> u64;

    fn worker_status(&self, lists: Lists, status: &mut [u8]) -> u64;

    fn read_identifier(&self, text: &[u8], key: &mut [u8]) -> u64;

    fn write_identifier(&self, key: u64, text: &mut [u8]) -> u64;

    /// Gives each command of a list its round; it is lent lists for these and for their number.
    fn rounds_needed(&self, commands: &[u8], rounds: &mut [u8], count: &mut [u8]) -> u64;

    /// What the program prints for this input.
    fn program(&self, input: &[u8]) -> Vec<u8>;
}

/// The second program's own calls.
pub struct Second;

impl Depot for Second {
    fn open(&self, lent: &mut LentLists, given: Given) -> u64 {
        calls::open(lent, given)
    }

    fn advance(&self, lent: &mut LentLists, commands: &[u8], schedule: &[u8]) -> u64 {
        calls::advance(lent, commands, schedule)
    }

    fn dispatch(
        &self,
        lent: &mut LentLists,
        commands: &[u8],
        schedule: &mut [u8],
        count: &mut [u8],
    ) -> u64 {
        calls::dispatch(lent, commands, schedule, count)
    }

    fn steps_needed(&self, lists: Lists, count: &mut [u8]) -> u64 {
        calls::steps_needed(lists, count)
    }

    fn pending_counts(&self, lists: Lists, counts: &mut [u8]) -> u64 {
        calls::pending_counts(lists, counts)
    }

    fn worker_status(&self, lists: Lists, status: &mut [u8]) -> u64 {
        calls::worker_status(lists, status)
    }

    fn read_identifier(&self, text: &[u8], key: &mut [u8]) -> u64 {
        calls::read_identifier(text, key)
    }

    fn write_identifier(&self, key: u64, text: &mut [u8]) -> u64 {
        calls::write_identifier(key, text)
    }

    fn rounds_needed(&self, commands: &[u8], rounds: &mut [u8], count: &mut [u8]) -> u64 {
        calls::rounds_needed(commands, rounds, count)
    }

    fn program(&self, input: &[u8]) -> Vec<u8> {
        program::output(input).into_bytes()
    }
}
