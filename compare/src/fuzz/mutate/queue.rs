//! Random damage to the order of a queue and to attributes, much of which leaves the tables in agreement.

use crate::fuzz::mutate::{draw_live, is_task_number};
use crate::fuzz::rng::Rng;
use crate::layout::*;
use crate::model::Machine;

/// Two places of a queue exchanged, which agrees, or one written over the other, which does not.
pub fn damage_queue(rng: &mut Rng, machine: &Machine, bytes: &mut [u8]) -> String {
    let Some(index) = draw_queue(rng, machine) else { return "nothing".into() };
    let at = slot_at(index);
    let length = word(bytes, at + QUEUED);
    // Other damage may have come before.
    if !is_task_number(length) {
        return "nothing".into();
    }
    let [one, other] = [(); 2].map(|()| at + QUEUE + rng.below(length as usize));
    let (first, second) = (word(bytes, one), word(bytes, other));
    set_word(bytes, one, second);
    let exchanged = rng.chance(85);
    if exchanged {
        set_word(bytes, other, first);
    }
    format!("{second} put into {} for {first}, exchanged: {exchanged}", word_name(one))
}

/// A queue of two or more, if there is one.
fn draw_queue(rng: &mut Rng, machine: &Machine) -> Option<usize> {
    let several =
        |index: &usize| machine.slots[*index].live.as_ref().is_some_and(|live| live.queue.len() > 1);
    let queues: Vec<usize> = (0..machine.slots.len()).filter(several).collect();
    (!queues.is_empty()).then(|| rng.pick(&queues))
}

/// Sums of attributes around that for inheritance, with waiters and owner as they are.
pub fn set_attributes(rng: &mut Rng, machine: &Machine, bytes: &mut [u8]) -> String {
    let Some(index) = draw_live(rng, machine) else { return "nothing".into() };
    let attributes = rng.pick(&[84, 84, 20, 16, 64, 68, 80, 80, 96, 100, 116, 212, 340]);
    set_word(bytes, slot_at(index) + ATTRIBUTES, attributes);
    format!("attributes of slot {} set to {attributes}", index + 1)
}
