//! Random damage to agreeing tables, some of which leaves them in agreement.

mod maximum;
mod queue;
mod ready;

use crate::fuzz::generate::TICKS_LEFT;
use crate::fuzz::mutate::maximum::damage_maximum;
use crate::fuzz::mutate::queue::{damage_queue, set_attributes};
use crate::fuzz::mutate::ready::{damage_sequence, join_sequence, leave_sequence};
use crate::fuzz::rng::Rng;
use crate::layout::*;
use crate::model::{identifier, Machine};
use crate::status::*;

/// Does one random damage and says which.
pub fn mutate(rng: &mut Rng, machine: &Machine, bytes: &mut [u8]) -> String {
    match rng.below(20) {
        0 => flip_bit(rng, bytes),
        1 | 2 => set_some_word(rng, machine, bytes),
        3 => swap_words(rng, machine, bytes),
        4 => copy_word(rng, machine, bytes),
        5 => alter_counts(rng, bytes),
        6 => drop_waiter(rng, machine, bytes),
        7 => free_slot(rng, machine, bytes),
        8 | 9 => add_waiter(rng, machine, bytes),
        10 | 11 => damage_maximum(rng, machine, bytes),
        12 => set_ticks(rng, machine, bytes),
        13 | 14 => damage_queue(rng, machine, bytes),
        15 => set_attributes(rng, machine, bytes),
        _ => damage_sequence(rng, machine, bytes),
    }
}

/// The index of a word, mostly of one in use.
fn draw_word(rng: &mut Rng, machine: &Machine) -> usize {
    if machine.tasks.is_empty() || rng.chance(10) {
        return rng.below(WORDS);
    }
    if rng.chance(15) {
        return READY + rng.below(machine.ready.len() + 2).min(MOST_TASKS);
    }
    if rng.chance(35) {
        return task_at(rng.between(1, machine.tasks.len() as u32)) + rng.below(TASK_WORDS);
    }
    let reach = if rng.chance(80) { QUEUE + 4 } else { SLOT_WORDS };
    slot_at(rng.below(machine.slots.len())) + rng.below(reach)
}

/// A slot with a live semaphore, if there is one.
fn draw_live(rng: &mut Rng, machine: &Machine) -> Option<usize> {
    let is_live = |index: &usize| machine.slots[*index].live.is_some();
    let live: Vec<usize> = (0..machine.slots.len()).filter(is_live).collect();
    (!live.is_empty()).then(|| rng.pick(&live))
}

/// A number from 1 to 32, as tasks and queue lengths have.
fn is_task_number(number: u32) -> bool {
    (1..=MOST_TASKS as u32).contains(&number)
}

fn flip_bit(rng: &mut Rng, bytes: &mut [u8]) -> String {
    let (at, bit) = (rng.below(bytes.len()), rng.below(8));
    bytes[at] ^= 1 << bit;
    format!("bit {bit} of byte {at} flipped, in {}", word_name(at / 4))
}

fn set_some_word(rng: &mut Rng, machine: &Machine, bytes: &mut [u8]) -> String {
    let at = draw_word(rng, machine);
    let any = rng.word();
    let small = rng.between(0, 70);
    let value = rng.pick(&[0, 1, small, small, WAITING, 65536, 65537, u32::MAX, any]);
    set_word(bytes, at, value);
    format!("{} set to {value}", word_name(at))
}

/// Writes ticks left into a task, which a waiting one may have and a ready one may not.
fn set_ticks(rng: &mut Rng, machine: &Machine, bytes: &mut [u8]) -> String {
    if machine.tasks.is_empty() {
        return "nothing".into();
    }
    let task = rng.between(1, machine.tasks.len() as u32);
    let ticks = rng.pick(&TICKS_LEFT);
    set_word(bytes, task_at(task) + TICKS, ticks);
    format!("ticks left of task {task} set to {ticks}")
}

fn swap_words(rng: &mut Rng, machine: &Machine, bytes: &mut [u8]) -> String {
    let first = draw_word(rng, machine);
    // Neighbours, as in a queue, or the same field of a neighbour.
    let second = (first + rng.pick(&[1, 1, 2, TASK_WORDS, SLOT_WORDS])).min(WORDS - 1);
    let (one, other) = (word(bytes, first), word(bytes, second));
    set_word(bytes, first, other);
    set_word(bytes, second, one);
    format!("{} and {} swapped", word_name(first), word_name(second))
}

fn copy_word(rng: &mut Rng, machine: &Machine, bytes: &mut [u8]) -> String {
    let from = draw_word(rng, machine);
    let to = (from + rng.pick(&[1, TASK_WORDS, 2 * TASK_WORDS, SLOT_WORDS, 2 * SLOT_WORDS])) % WORDS;
    let value = word(bytes, from);
    set_word(bytes, to, value);
    format!("{} copied to {}", word_name(from), word_name(to))
}

fn alter_counts(rng: &mut Rng, bytes: &mut [u8]) -> String {
    let at = rng.pick(&[TASKS, SLOTS]);
    let was = word(bytes, at);
    let value = rng.pick(&[was.wrapping_add(1), was.wrapping_sub(1)]);
    set_word(bytes, at, value);
    if at == TASKS && value == was.wrapping_add(1) && is_task_number(value) && rng.chance(70) {
        set_word(bytes, task_at(value) + PRIORITY_OF, MOST_URGENT);
        if rng.chance(70) {
            join_sequence(bytes, value);
        }
    }
    format!("{} set to {value}", word_name(at))
}

/// Takes the last waiter out of a queue, with or without making the task ready and putting it into the sequence.
fn drop_waiter(rng: &mut Rng, machine: &Machine, bytes: &mut [u8]) -> String {
    let Some(index) = draw_live(rng, machine) else { return "nothing".into() };
    let at = slot_at(index);
    let length = word(bytes, at + QUEUED);
    if !is_task_number(length) {
        return "nothing".into();
    }
    let last = at + QUEUE + length as usize - 1;
    let task = word(bytes, last);
    set_word(bytes, at + QUEUED, length - 1);
    set_word(bytes, last, 0);
    let readied = rng.chance(60) && is_task_number(task);
    if readied {
        (ANSWER..TASK_WORDS).for_each(|field| set_word(bytes, task_at(task) + field, 0));
    }
    let joins = rng.chance(if readied { 80 } else { 10 });
    if joins {
        join_sequence(bytes, task);
    }
    let slot = index + 1;
    format!(
        "task {task} out of the queue of slot {slot}, made ready: {readied}, in the sequence: {joins}"
    )
}

fn free_slot(rng: &mut Rng, machine: &Machine, bytes: &mut [u8]) -> String {
    let Some(index) = draw_live(rng, machine) else { return "nothing".into() };
    let at = slot_at(index);
    let reach = rng.pick(&[NAME, QUEUE, SLOT_WORDS]);
    (LIVE..reach).for_each(|field| set_word(bytes, at + field, 0));
    format!("words 1 to {} of slot {} zeroed", reach - 1, index + 1)
}

/// Puts a task at the rear of a queue, with or without making it wait there and taking it out of the sequence.
fn add_waiter(rng: &mut Rng, machine: &Machine, bytes: &mut [u8]) -> String {
    let Some(index) = draw_live(rng, machine) else { return "nothing".into() };
    let at = slot_at(index);
    let length = word(bytes, at + QUEUED);
    if length >= MOST_TASKS as u32 {
        return "nothing".into();
    }
    let task = rng.between(1, machine.tasks.len() as u32);
    set_word(bytes, at + QUEUED, length + 1);
    set_word(bytes, at + QUEUE + length as usize, task);
    let waits = rng.chance(80);
    if waits {
        set_word(bytes, task_at(task) + ANSWER, WAITING);
        let id = identifier(word(bytes, at + GENERATION) & 0xFFFF, index);
        set_word(bytes, task_at(task) + WAITS_ON, id);
        set_word(bytes, task_at(task) + TICKS, rng.pick(&TICKS_LEFT));
    }
    let leaves = rng.chance(if waits { 80 } else { 10 });
    if leaves {
        leave_sequence(bytes, task);
    }
    let slot = index + 1;
    format!("task {task} put in the queue of slot {slot}, made to wait: {waits}, out of the sequence: {leaves}")
}
