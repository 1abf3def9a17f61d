//! Random damage to the maximum of a slot, some of which leaves the tables in agreement.

use crate::fuzz::rng::Rng;
use crate::layout::*;
use crate::model::Machine;

/// Writes a maximum into a slot, live or free, and says which.
pub fn damage_maximum(rng: &mut Rng, machine: &Machine, bytes: &mut [u8]) -> String {
    if machine.slots.is_empty() {
        return "nothing".into();
    }
    let index = rng.below(machine.slots.len());
    let count = machine.slots[index].live.as_ref().map_or(0, |live| live.count);
    let (below, above) = (count.wrapping_sub(1), count.wrapping_add(1));
    let maximum = rng.pick(&[0, 1, 2, 12, below, below, count, above, u32::MAX - 1, u32::MAX]);
    set_word(bytes, slot_at(index) + MAXIMUM, maximum);
    format!("maximum of slot {} set to {maximum}, its count being {count}", index + 1)
}
