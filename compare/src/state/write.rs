//! Writes a started machine's state file.

use crate::model::{Machine, Semaphore, Slot, State, Task};
use crate::state::{slot_numbers, BODIES, CONTENTS, EDITION, SLOT_NUMBERS, TASK_NUMBERS};
use crate::status::WAITING;

/// The machine's state file.
pub fn write(machine: &Machine) -> Vec<u8> {
    put_together(EDITION, &bodies(machine))
}

/// The machine's file of this edition; edition 1 says nothing of the maxima.
pub fn write_in(edition: u32, machine: &Machine) -> Vec<u8> {
    put_together(edition, &bodies_in(edition, machine))
}

/// The file of bodies that follow each other without gaps.
pub fn put_together(edition: u32, bodies: &[Vec<u32>; BODIES]) -> Vec<u8> {
    let mut numbers = vec![edition, BODIES as u32];
    let mut offset = CONTENTS;
    for (kind, body) in (1..).zip(bodies) {
        let length = body.len() * 4;
        numbers.extend([kind, offset as u32, length as u32]);
        offset += length;
    }
    numbers.extend(bodies.iter().flatten());
    numbers.iter().map(|number| number.to_be_bytes()).collect::<Vec<_>>().into_flattened()
}

/// The numbers of the four bodies.
pub fn bodies(machine: &Machine) -> [Vec<u32>; BODIES] {
    [
        machine.tasks.iter().flat_map(task).collect(),
        machine.slots.iter().flat_map(slot).collect(),
        machine.slots.iter().flat_map(queue).collect(),
        machine.ready.clone(),
    ]
}

/// The same as a file of this edition has them.
pub fn bodies_in(edition: u32, machine: &Machine) -> [Vec<u32>; BODIES] {
    let [tasks, slots, queues, ready] = bodies(machine);
    let kept = slot_numbers(edition);
    let slots = slots.chunks_exact(SLOT_NUMBERS).flat_map(|slot| &slot[..kept]).copied();
    [tasks, slots.collect(), queues, ready]
}

fn task(task: &Task) -> [u32; TASK_NUMBERS] {
    match task.state {
        State::Ready { answer } => [task.priority, answer, 0, 0],
        State::Waiting { id, ticks } => [task.priority, WAITING, id, ticks],
    }
}

fn slot(slot: &Slot) -> [u32; SLOT_NUMBERS] {
    match &slot.live {
        None => [slot.generation, 0, 0, 0, 0, 0, 0, 0],
        Some(live) => {
            let Semaphore { name, count, owner, nest, maximum, .. } = *live;
            [slot.generation, 1, name, live.attributes(), count, owner, nest, maximum]
        }
    }
}

/// A queue's length, then its tasks.
fn queue(slot: &Slot) -> Vec<u32> {
    let queue = slot.live.as_ref().map_or(&[][..], |live| &live.queue);
    [&[queue.len() as u32], queue].concat()
}
