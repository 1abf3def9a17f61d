//! Reads a state file, of which nothing is taken on trust.

use std::fmt;

use crate::model::{split_attributes, Machine, Semaphore, Slot, State, Task};
use crate::state::write::{put_together, write};
use crate::state::*;
use crate::status::*;

/// What is first found to be wrong with a file; the order of the tests is this project's own.
#[derive(Clone, Copy, Debug, PartialEq, Eq, PartialOrd, Ord)]
pub enum Fault {
    Contents,
    Edition,
    Bodies,
    Kind,
    Offset,
    Length,
    Words,
    Behind,
    Tasks,
    Slots,
    Queues,
    Live,
    Attributes,
    Agreement,
    Rewritten,
}

impl Fault {
    pub const ALL: [Fault; 15] = [
        Fault::Contents,
        Fault::Edition,
        Fault::Bodies,
        Fault::Kind,
        Fault::Offset,
        Fault::Length,
        Fault::Words,
        Fault::Behind,
        Fault::Tasks,
        Fault::Slots,
        Fault::Queues,
        Fault::Live,
        Fault::Attributes,
        Fault::Agreement,
        Fault::Rewritten,
    ];
}

impl fmt::Display for Fault {
    fn fmt(&self, out: &mut fmt::Formatter) -> fmt::Result {
        out.write_str(match self {
            Fault::Contents => "no whole table of contents",
            Fault::Edition => "another edition",
            Fault::Bodies => "another number of bodies",
            Fault::Kind => "another kind of body",
            Fault::Offset => "an offset that is not where the last body ends",
            Fault::Length => "a body that goes past the end",
            Fault::Words => "a body that is no whole numbers",
            Fault::Behind => "bytes behind the last body",
            Fault::Tasks => "no length of 1 to 32 tasks",
            Fault::Slots => "no length of 1 to 64 slots",
            Fault::Queues => "queues that do not fill their body",
            Fault::Live => "a slot neither free nor live",
            Fault::Attributes => "attributes that create does not allow",
            Fault::Agreement => "tables that do not agree",
            Fault::Rewritten => "not what would be written from the tables",
        })
    }
}

/// The machine whose file this is, byte for byte; one of edition 1 is read as the edition 2 file made of it.
pub fn read(file: &[u8]) -> Result<Machine, Fault> {
    match bodies(file)? {
        (EDITION, bodies) => machine_of(&bodies, file),
        (_, bodies) => {
            let bodies = renewed(bodies)?;
            machine_of(&bodies, &put_together(EDITION, &bodies))
        }
    }
}

/// Whether a file of edition 2 would be read if its maxima were the greatest of their class.
pub fn only_maxima_are_wrong(file: &[u8]) -> bool {
    let mended = bodies(file).and_then(|(_, [tasks, slots, queues, ready])| {
        let kept = slots.chunks(SLOT_NUMBERS).flat_map(|slot| &slot[..slot.len().min(OLD_SLOT_NUMBERS)]);
        renewed([tasks, kept.copied().collect(), queues, ready])
    });
    read(file).is_err() && mended.is_ok_and(|bodies| read(&put_together(EDITION, &bodies)).is_ok())
}

/// The bodies of an edition 1 file with the maxima that their slots are given.
fn renewed(bodies: [Vec<u32>; BODIES]) -> Result<[Vec<u32>; BODIES], Fault> {
    let [tasks, slots, queues, ready] = bodies;
    let renewed = records::<OLD_SLOT_NUMBERS>(&slots, MOST_SLOTS, Fault::Slots)?.flat_map(|slot| {
        let &[generation, live, name, attributes, count, owner, nest] = slot;
        let maximum = if live == 0 { 0 } else { greatest_maximum(attributes) };
        [generation, live, name, attributes, count, owner, nest, maximum]
    });
    let slots = renewed.collect();
    Ok([tasks, slots, queues, ready])
}

/// The machine of these bodies, whose edition 2 file has to be this one.
fn machine_of(bodies: &[Vec<u32>; BODIES], file: &[u8]) -> Result<Machine, Fault> {
    let [tasks, slots, queues, ready] = bodies;
    let tasks: Vec<Task> = records(tasks, MOST_TASKS, Fault::Tasks)?.map(task).collect();
    let slots = records::<SLOT_NUMBERS>(slots, MOST_SLOTS, Fault::Slots)?;
    let mut queues = split_queues(queues, slots.len())?.into_iter();
    let slots = slots.map(|numbers| slot(numbers, queues.next().unwrap_or_default()));
    let machine = Machine { tasks, slots: slots.collect::<Result<_, _>>()?, ready: ready.clone() };
    if !machine.agrees() {
        return Err(Fault::Agreement);
    }
    // What the machine has no place for is a ready task's wait and a free slot's fields and queue.
    if write(&machine) != file {
        return Err(Fault::Rewritten);
    }
    Ok(machine)
}

fn numbers(bytes: &[u8]) -> Vec<u32> {
    bytes.as_chunks::<4>().0.iter().map(|&four| u32::from_be_bytes(four)).collect()
}

/// The edition and the numbers of the bodies, which the table of contents has to place one behind the other.
fn bodies(file: &[u8]) -> Result<(u32, [Vec<u32>; BODIES]), Fault> {
    let (contents, mut rest) = file.split_at_checked(CONTENTS).ok_or(Fault::Contents)?;
    let contents = numbers(contents);
    let edition = contents[0];
    if ![EDITION, OLD_EDITION].contains(&edition) {
        return Err(Fault::Edition);
    }
    if contents[1] != BODIES as u32 {
        return Err(Fault::Bodies);
    }
    let mut bodies = [const { Vec::new() }; BODIES];
    for (index, entry) in contents[2..].chunks_exact(3).enumerate() {
        if entry[0] != index as u32 + 1 {
            return Err(Fault::Kind);
        }
        if entry[1] as usize != file.len() - rest.len() {
            return Err(Fault::Offset);
        }
        let (body, behind) = rest.split_at_checked(entry[2] as usize).ok_or(Fault::Length)?;
        if body.len() % 4 != 0 {
            return Err(Fault::Words);
        }
        (bodies[index], rest) = (numbers(body), behind);
    }
    if rest.is_empty() {
        Ok((edition, bodies))
    } else {
        Err(Fault::Behind)
    }
}

/// A body's records, of which there are 1 to `most`.
fn records<const LENGTH: usize>(
    body: &[u32],
    most: usize,
    fault: Fault,
) -> Result<impl ExactSizeIterator<Item = &[u32; LENGTH]>, Fault> {
    let (records, rest) = body.as_chunks::<LENGTH>();
    if rest.is_empty() && (1..=most).contains(&records.len()) {
        Ok(records.iter())
    } else {
        Err(fault)
    }
}

fn task(&[priority, answer, id, ticks]: &[u32; TASK_NUMBERS]) -> Task {
    let state = if answer == WAITING { State::Waiting { id, ticks } } else { State::Ready { answer } };
    Task { priority, state }
}

/// As many queues as slots, which have to fill the body.
fn split_queues(body: &[u32], slots: usize) -> Result<Vec<Vec<u32>>, Fault> {
    let mut rest = body;
    let mut queues = Vec::with_capacity(slots);
    for _ in 0..slots {
        let (&length, after) = rest.split_first().ok_or(Fault::Queues)?;
        let (queue, behind) = after.split_at_checked(length as usize).ok_or(Fault::Queues)?;
        queues.push(queue.to_vec());
        rest = behind;
    }
    if rest.is_empty() {
        Ok(queues)
    } else {
        Err(Fault::Queues)
    }
}

fn slot(numbers: &[u32; SLOT_NUMBERS], queue: Vec<u32>) -> Result<Slot, Fault> {
    let &[generation, live, name, attributes, count, owner, nest, maximum] = numbers;
    let live = match live {
        0 => None,
        1 => {
            let (class, order, protocol) = split_attributes(attributes).ok_or(Fault::Attributes)?;
            Some(Semaphore { name, class, order, protocol, count, owner, nest, maximum, queue })
        }
        _ => return Err(Fault::Live),
    };
    Ok(Slot { generation, live })
}
