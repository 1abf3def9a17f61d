//! A lent list with guards around it, and tables and list together.

use crate::fuzz::lent::Lent;
use crate::layout::{self, LENGTH};
use crate::model::Machine;

const GUARD: usize = 8;
/// No identifier of a semaphore is like this: its slot would be 23130.
const GUARD_ENTRY: u32 = 0xA5A5_5A5A;

/// Places of tables and list together: the tables at each byte of a word, the list at each word of two.
pub const PLACES: usize = 8;

/// Entries to lend, at either word of two, between guards that no call may touch.
pub struct LentList {
    memory: Vec<u32>,
    first: usize,
}

impl LentList {
    pub fn new(entries: &[u32], shift: usize) -> Self {
        let (first, guard) = (GUARD + shift, GUARD_ENTRY);
        LentList { memory: [&vec![guard; first], entries, &[guard; GUARD]].concat(), first }
    }

    pub fn entries(&self) -> &[u32] {
        &self.memory[self.first..self.memory.len() - GUARD]
    }

    pub fn entries_mut(&mut self) -> &mut [u32] {
        let end = self.memory.len() - GUARD;
        &mut self.memory[self.first..end]
    }

    /// Whether nothing around the lent entries was written.
    pub fn guards_hold(&self) -> bool {
        let end = self.memory.len() - GUARD;
        let mut around = self.memory[..self.first].iter().chain(&self.memory[end..]);
        around.all(|&entry| entry == GUARD_ENTRY)
    }
}

/// Tables and list as they are lent for a call.
pub struct Lending {
    pub tables: Lent,
    pub list: LentList,
}

impl Lending {
    /// Copies to lend at one of the `PLACES`.
    pub fn new(bytes: &[u8], list: &[u32], place: usize) -> Self {
        Lending { tables: Lent::new(bytes, place % 4), list: LentList::new(list, place / 4) }
    }

    /// A machine not yet started, with an empty list.
    pub fn blank(place: usize) -> Self {
        Lending::new(&[0; LENGTH], &[0; super::ENTRIES], place)
    }

    /// The machine of the tables, if they agree.
    pub fn machine(&self) -> Option<Machine> {
        layout::read(self.tables.bytes())
    }
}

#[cfg(test)]
mod tests {
    use super::*;

    /// Whether the guards hold once this word of the memory around and in three entries is written.
    fn hold_after(shift: usize, at: usize) -> bool {
        let mut list = LentList::new(&[GUARD_ENTRY; 3], shift);
        assert!(list.guards_hold() && list.entries() == [GUARD_ENTRY; 3]);
        list.memory[at] = 0;
        list.guards_hold()
    }

    #[test]
    fn a_word_written_beside_the_list_is_seen() {
        for shift in [0, 1] {
            let (first, end) = (GUARD + shift, GUARD + shift + 3);
            assert!((first..end).all(|at| hold_after(shift, at)));
            assert!((0..first).chain(end..end + GUARD).all(|at| !hold_after(shift, at)));
        }
    }
}
