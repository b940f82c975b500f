//! Depots of the tests: the second program, with some calls made another way.

use super::{Depot, Second};
use crate::bytes::Lists;
use crate::calls::{Given, LentLists};

/// What is made another way; every other call is the second program's.
pub trait Altered {
    fn open(&self, lent: &mut LentLists, given: Given) -> u64 {
        Second.open(lent, given)
    }

    fn advance(&self, lent: &mut LentLists, commands: &[u8], schedule: &[u8]) -> u64 {
        Second.advance(lent, commands, schedule)
    }

    fn dispatch(
        &self,
        lent: &mut LentLists,
        commands: &[u8],
        schedule: &mut [u8],
        count: &mut [u8],
    ) -> u64 {
        Second.dispatch(lent, commands, schedule, count)
    }

    fn steps_needed(&self, lists: Lists, count: &mut [u8]) -> u64 {
        Second.steps_needed(lists, count)
    }

    fn rounds_needed(&self, commands: &[u8], rounds: &mut [u8], count: &mut [u8]) -> u64 {
        Second.rounds_needed(commands, rounds, count)
    }
}

impl<T: Altered> Depot for T {
    fn open(&self, lent: &mut LentLists, given: Given) -> u64 {
        Altered::open(self, lent, given)
    }

    fn advance(&self, lent: &mut LentLists, commands: &[u8], schedule: &[u8]) -> u64 {
        Altered::advance(self, lent, commands, schedule)
    }

    fn dispatch(
        &self,
        lent: &mut LentLists,
        commands: &[u8],
        schedule: &mut [u8],
        count: &mut [u8],
    ) -> u64 {
        Altered::dispatch(self, lent, commands, schedule, count)
    }

    fn steps_needed(&self, lists: Lists, count: &mut [u8]) -> u64 {
        Altered::steps_needed(self, lists, count)
    }

    fn pending_counts(&self, lists: Lists, counts: &mut [u8]) -> u64 {
        Second.pending_counts(lists, counts)
    }

    fn worker_status(&self, lists: Lists, status: &mut [u8]) -> u64 {
        Second.worker_status(lists, status)
    }

    fn read_identifier(&self, text: &[u8], key: &mut [u8]) -> u64 {
        Second.read_identifier(text, key)
    }

    fn write_identifier(&self, key: u64, text: &mut [u8]) -> u64 {
        Second.write_identifier(key, text)
    }

    fn rounds_needed(&self, commands: &[u8], rounds: &mut [u8], count: &mut [u8]) -> u64 {
        Altered::rounds_needed(self, commands, rounds, count)
    }

    fn program(&self, input: &[u8]) -> Vec<u8> {
        Second.program(input)
    }
}
