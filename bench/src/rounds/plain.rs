//! Rounds in plain Rust, as one would write them by hand: each command is read once, and its round is
//! one more than the largest that it depends on, by what is kept of the commands before it. And the
//! same by all pairs of commands, to see what that brings.

use second::bytes::MOST_COMMANDS;
use second::command::{self, Command, Kind, dependent};
use second::refusal::{Fault, Refusal};

/// Bytes of a round.
pub const ROUND: usize = 2;
/// Bytes of a number of rounds.
pub const COUNT: usize = 8;

/// The table has two slots for each command of the longest list.
const SLOT_BITS: u32 = 13;
const SLOTS: usize = 1 << SLOT_BITS;
/// 2^64 divided by the golden ratio: the high bits of a key's multiple are its slot.
const FACTOR: u64 = 0x9e37_79b9_7f4a_7c15;

/// The items so far: a table on arrays, in which a key that finds its slot taken goes to the next. It
/// is quicker than the standard library's map with the same hash.
struct Items {
    /// Each key and 1, or 0 for none.
    keys: [u64; SLOTS],
    /// The largest rounds of an item's commands: of all in the high half, and of those that are no
    /// reads in the low one. A word is stored whole, as one in halves would be waited for when it is
    /// loaded again.
    rounds: [u32; SLOTS],
}

impl Items {
    fn new() -> Items {
        Items {
            keys: [0; SLOTS],
            rounds: [0; SLOTS],
        }
    }

    /// The slot of a key. There are fewer items than slots.
    fn slot(&mut self, key: u64) -> usize {
        let mut slot = (key.wrapping_mul(FACTOR) >> (u64::BITS - SLOT_BITS)) as usize;
        while self.keys[slot] != key + 1 {
            if self.keys[slot] == 0 {
                self.keys[slot] = key + 1;
                break;
            }
            slot = (slot + 1) % SLOTS;
        }
        slot
    }
}

/// What is kept of the commands so far: the largest round of all, of those of no item, and of inserts
/// and deletes; and the items.
struct Rounds {
    top: u32,
    fence: u32,
    writers: u32,
    items: Items,
}

impl Rounds {
    fn new() -> Rounds {
        Rounds {
            top: 0,
            fence: 0,
            writers: 0,
            items: Items::new(),
        }
    }

    /// The round of the next command. Kinds cannot be foretold, so it chooses and does not jump, but
    /// for the rare ones of no item.
    #[inline(always)]
    fn enter(&mut self, command: &Command) -> u16 {
        if matches!(command.kind, Kind::Workers | Kind::Checkpoint) {
            self.top += 1;
            self.fence = self.top;
            return self.top as u16;
        }
        let is_read = command.kind == Kind::Read;
        let is_writer = matches!(command.kind, Kind::Insert | Kind::Delete);
        let slot = self.items.slot(command.key);
        let item = &mut self.items.rounds[slot];
        let (all, changes) = (*item >> 16, *item & 0xffff);
        let own = if is_read { changes } else { all };
        let writers = if is_writer { self.writers } else { 0 };
        let round = 1 + self.fence.max(writers).max(own);
        *item = all.max(round) << 16 | if is_read { changes } else { round };
        self.writers = if is_writer { round } else { self.writers };
        self.top = self.top.max(round);
        round as u16
    }
}

/// The call as the archive makes it: the same answers, the same bytes.
#[inline(never)]
pub fn rounds_needed(list: &[u8], rounds: &mut [u8], count: &mut [u8]) -> u64 {
    found(list, rounds, count).map_or_else(Fault::answer, |()| 0)
}

/// The rounds stand apart until the last command is read, as a refusal leaves every list.
fn found(list: &[u8], rounds: &mut [u8], count: &mut [u8]) -> Result<(), Fault> {
    check_lengths(list, rounds, count)?;
    let (parts, _) = list.as_chunks();
    let mut kept = Rounds::new();
    let mut own = [[0; ROUND]; MOST_COMMANDS];
    for (index, (part, round)) in parts.iter().zip(&mut own).enumerate() {
        let command = command::read(part).map_err(|fault| Fault {
            place: index + 1,
            ..fault
        })?;
        *round = kept.enter(&command).to_be_bytes();
    }
    rounds.copy_from_slice(own[..parts.len()].as_flattened());
    count.copy_from_slice(&u64::from(kept.top).to_be_bytes());
    Ok(())
}

/// Refusals 4, 5 and 6.
fn check_lengths(list: &[u8], rounds: &[u8], count: &[u8]) -> Result<(), Refusal> {
    let commands = list.len() / command::LENGTH;
    if !list.len().is_multiple_of(command::LENGTH) {
        Err(Refusal::ListLength)
    } else if commands > MOST_COMMANDS {
        Err(Refusal::TooManyCommands)
    } else if rounds.len() != commands * ROUND || count.len() != COUNT {
        Err(Refusal::Length)
    } else {
        Ok(())
    }
}

/// The rounds alone, of commands that were read before, in lists of the right lengths. The answer is 0.
#[inline(never)]
pub fn by_kept(commands: &[Command], rounds: &mut [u8], count: &mut [u8]) -> u64 {
    let mut kept = Rounds::new();
    let (entries, _) = rounds.as_chunks_mut();
    for (command, entry) in commands.iter().zip(entries) {
        *entry = kept.enter(command).to_be_bytes();
    }
    count.copy_from_slice(&u64::from(kept.top).to_be_bytes());
    0
}

/// The same by all pairs.
#[inline(never)]
pub fn by_pairs(commands: &[Command], rounds: &mut [u8], count: &mut [u8]) -> u64 {
    let mut found: Vec<u16> = Vec::with_capacity(commands.len());
    for command in commands {
        let before = commands.iter().zip(&found);
        let depends = before.filter(|(other, _)| dependent(other, command));
        let largest = depends.map(|(_, round)| *round).max();
        found.push(1 + largest.unwrap_or(0));
    }
    let (entries, _) = rounds.as_chunks_mut();
    for (round, entry) in found.iter().zip(entries) {
        *entry = round.to_be_bytes();
    }
    let top = found.iter().copied().max().unwrap_or(0);
    count.copy_from_slice(&u64::from(top).to_be_bytes());
    0
}

#[cfg(test)]
mod tests {
    use super::*;

    /// As many items as a list can have, in slots of their own, and found there again; key 0 is one.
    #[test]
    fn a_key_has_one_slot() {
        for apart in [1, 676, 4093 * 4096, 1 << SLOT_BITS] {
            let mut items = Items::new();
            let keys = || (0..MOST_COMMANDS as u64).map(|index| index * apart);
            let slots: Vec<usize> = keys().map(|key| items.slot(key)).collect();
            let mut sorted = slots.clone();
            sorted.sort();
            sorted.dedup();
            assert_eq!(sorted.len(), MOST_COMMANDS);
            assert!(keys().map(|key| items.slot(key)).eq(slots));
        }
    }
}
