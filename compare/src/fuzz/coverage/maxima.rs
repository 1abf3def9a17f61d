//! What a comparison has to have seen of the maxima of semaphores.

use crate::call::{Answer, Call};
use crate::fuzz::coverage::Coverage;
use crate::layout::{slot_at, word, MAXIMUM};
use crate::model::{split_attributes, Class, Machine, Semaphore, Slot};
use crate::status::*;

/// Creates by what they are refused for, and releases at a maximum or short of it.
const CALLS: [&str; 14] = [
    "create at a maximum that is neither 1 nor 4294967295",
    "create with a count at such a maximum",
    "create refused with 10 for a count above its maximum alone, counting",
    "create refused with 10 for a count above its maximum alone, binary",
    "create refused with 10 for a count above its maximum alone, simple binary",
    "create refused with 10 for maximum 0 alone, counting",
    "create refused with 10 for another maximum than 1 alone, binary",
    "create refused with 10 for another maximum than 1 alone, simple binary",
    "create refused with 3 before 10",
    "create refused with 11 before 10",
    "create refused with 10 before 5",
    "release refused at a maximum that is neither 1 nor 4294967295",
    "release refused at maximum 1 of a counting semaphore",
    "release brought the count to a maximum that is neither 1 nor 4294967295",
];

/// What can be wrong with a slot's maximum where nothing else is, and that alone.
const FAULTS: [&str; 5] = [
    "25 for a maximum alone: 0 on a live slot",
    "25 for a maximum alone: not 0 on a free slot",
    "25 for a maximum alone: below the count",
    "25 for a maximum alone: above 1 on a binary semaphore",
    "25 for a maximum alone: above 1 on a simple binary semaphore",
];

/// All that has to have happened.
pub fn wanted() -> impl Iterator<Item = &'static str> {
    CALLS.into_iter().chain(FAULTS)
}

fn is_between(maximum: u32) -> bool {
    (2..u32::MAX).contains(&maximum)
}

impl Coverage {
    /// Counts a create by its maximum and, if it was refused, by what alone it was refused for.
    pub fn saw_maximum(&mut self, before: &Machine, call: &Call, answer: Answer) {
        let Call::Create { name, count, attributes, maximum, .. } = *call else { return };
        let done = answer.status == SUCCESSFUL && is_between(maximum);
        self.happened(CALLS[0], done);
        self.happened(CALLS[1], done && count == maximum);
        let class = split_attributes(attributes).map(|(class, ..)| class);
        let refused = class.is_some_and(|class| !class.allows(maximum)) || count > maximum;
        self.happened(CALLS[8], refused && answer.status == INVALID_NAME && name == 0);
        self.happened(CALLS[9], refused && answer.status == NOT_DEFINED);
        let Some(class) = class.filter(|_| answer.status == INVALID_NUMBER) else { return };
        let usable = |slot: &Slot| slot.live.is_none() && slot.generation < LAST_GENERATION;
        self.happened(CALLS[10], !before.slots.iter().any(usable));
        let above = match class {
            Class::Counting => CALLS[2],
            Class::Binary => CALLS[3],
            Class::SimpleBinary => CALLS[4],
        };
        self.happened(above, class.allows(maximum));
        let no_maximum = match class {
            Class::Counting => CALLS[5],
            Class::Binary => CALLS[6],
            Class::SimpleBinary => CALLS[7],
        };
        self.happened(no_maximum, !class.allows(maximum) && count <= maximum.min(1));
    }

    /// Counts a release, given the semaphore as it was before.
    pub fn released_at_maximum(&mut self, live: &Semaphore, answer: Answer) {
        let (between, counting) = (is_between(live.maximum), live.class == Class::Counting);
        let refused = answer.status == UNSATISFIED;
        self.happened(CALLS[11], refused && between);
        self.happened(CALLS[12], refused && counting && live.maximum == 1);
        let last = answer.status == SUCCESSFUL && live.queue.is_empty();
        self.happened(CALLS[13], last && between && live.count == live.maximum - 1);
    }

    /// Counts damage to the maxima of tables that agree otherwise, if it is to one slot alone; their machine has them mended.
    pub fn damaged_maxima(&mut self, mended: &Machine, bytes: &[u8]) {
        let fault = |(index, slot)| fault(slot, word(bytes, slot_at(index) + MAXIMUM));
        let faults: Vec<usize> = mended.slots.iter().enumerate().filter_map(fault).collect();
        if let [only] = faults[..] {
            self.happened(FAULTS[only], true);
        }
    }
}

/// The place in `FAULTS` of what is wrong with a slot of this maximum.
fn fault(slot: &Slot, maximum: u32) -> Option<usize> {
    let Some(live) = &slot.live else { return (maximum != 0).then_some(1) };
    match live.class {
        _ if maximum == 0 => Some(0),
        Class::Counting => (maximum < live.count).then_some(2),
        Class::Binary => (maximum > 1).then_some(3),
        Class::SimpleBinary => (maximum > 1).then_some(4),
    }
}
