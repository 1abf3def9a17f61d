//! What a comparison has to have seen of the slots that idents look at.

use crate::fuzz::coverage::Coverage;
use crate::layout::{slot_at, word, LENGTH, NAME};
use crate::model::{Machine, Slot};
use crate::status::MOST_SLOTS;

/// Idents whose count of slots was compared, by where their search ends.
const SEARCHES: [&str; 11] = [
    "ident matched in slot 1",
    "ident matched behind slot 1",
    "ident matched in the last of two or more slots",
    "ident matched behind a free slot",
    "ident matched before another slot of the name",
    "ident matched nothing in two or more slots",
    "ident of name 0",
    "ident of name 0 with a free slot",
    "ident before start",
    "ident with 25 of a name that stands in a slot",
    "ident with 25 for the length",
];

/// All that has to have happened.
pub fn wanted() -> impl Iterator<Item = &'static str> {
    SEARCHES.into_iter()
}

impl Coverage {
    /// Counts an ident whose count was compared: its name, the bytes, and their machine if they agree.
    pub fn looked(&mut self, machine: Option<&Machine>, bytes: &[u8], name: u32) {
        match machine {
            None => self.looked_at_none(bytes, name),
            Some(machine) if machine.slots.is_empty() => self.happened("ident before start", name != 0),
            Some(machine) if name == 0 => {
                let free = machine.slots.iter().any(|slot| slot.live.is_none());
                self.happened("ident of name 0", true);
                self.happened("ident of name 0 with a free slot", free);
            }
            Some(machine) => self.looked_for(&machine.slots, name),
        }
    }

    /// Counts an ident with 25, where a search would have found something to count.
    fn looked_at_none(&mut self, bytes: &[u8], name: u32) {
        let whole = bytes.len() == LENGTH;
        let stands = |index: usize| word(bytes, slot_at(index) + NAME) == name;
        let named = whole && name != 0 && (0..MOST_SLOTS).any(stands);
        self.happened("ident with 25 of a name that stands in a slot", named);
        self.happened("ident with 25 for the length", !whole);
    }

    fn looked_for(&mut self, slots: &[Slot], name: u32) {
        let named = |slot: &Slot| slot.live.as_ref().is_some_and(|live| live.name == name);
        let several = slots.len() >= 2;
        let Some(index) = slots.iter().position(named) else {
            self.happened("ident matched nothing in two or more slots", several);
            return;
        };
        let (before, behind) = (&slots[..index], &slots[index + 1..]);
        self.happened("ident matched in slot 1", before.is_empty());
        self.happened("ident matched behind slot 1", !before.is_empty());
        let last = several && behind.is_empty();
        self.happened("ident matched in the last of two or more slots", last);
        let free = before.iter().any(|slot| slot.live.is_none());
        self.happened("ident matched behind a free slot", free);
        self.happened("ident matched before another slot of the name", behind.iter().any(named));
    }
}
