//! Random damage to the sequence of ready tasks, some of which leaves the tables in agreement.

use crate::fuzz::mutate::is_task_number;
use crate::fuzz::rng::Rng;
use crate::layout::*;
use crate::model::Machine;
use crate::status::*;

/// Does one random damage to the sequence and says which.
pub fn damage_sequence(rng: &mut Rng, machine: &Machine, bytes: &mut [u8]) -> String {
    let Some(mut sequence) = read_sequence(bytes) else { return alter_length(rng, bytes) };
    let said = match rng.below(9) {
        0 => return alter_length(rng, bytes),
        1 => return write_behind(rng, bytes),
        2 => reorder(rng, &mut sequence),
        3 => leave_out(rng, &mut sequence),
        4 => overwrite(rng, machine, &mut sequence),
        5 => {
            let again = sequence.get(rng.below(sequence.len().max(1))).copied();
            put_in(rng, &mut sequence, again.unwrap_or(1))
        }
        6 => {
            let waiting = draw_waiting(rng, machine);
            put_in(rng, &mut sequence, waiting.unwrap_or(1))
        }
        7 => put_in(rng, &mut sequence, 0),
        _ => {
            let foreign = draw_foreign(rng, machine);
            put_in(rng, &mut sequence, foreign)
        }
    };
    set_sequence(bytes, &sequence);
    said
}

/// Puts a task at the end of the sequence, as one whose wait has ended.
pub fn join_sequence(bytes: &mut [u8], task: u32) {
    if let Some(mut sequence) = read_sequence(bytes).filter(|sequence| sequence.len() < MOST_TASKS) {
        sequence.push(task);
        set_sequence(bytes, &sequence);
    }
}

/// Takes a task out of the sequence, as one that begins to wait.
pub fn leave_sequence(bytes: &mut [u8], task: u32) {
    if let Some(mut sequence) = read_sequence(bytes) {
        sequence.retain(|&number| number != task);
        set_sequence(bytes, &sequence);
    }
}

/// The sequence, if its length is one; other damage may have come before.
fn read_sequence(bytes: &[u8]) -> Option<Vec<u32>> {
    let length = word(bytes, READY);
    (length == 0 || is_task_number(length))
        .then(|| (0..length as usize).map(|place| word(bytes, SEQUENCE + place)).collect())
}

fn alter_length(rng: &mut Rng, bytes: &mut [u8]) -> String {
    let was = word(bytes, READY);
    let length = rng.pick(&[was.wrapping_add(1), was.wrapping_sub(1), 0, 32, 33, 64, 1 << 24, u32::MAX]);
    set_word(bytes, READY, length);
    format!("ready sequence length set to {length}")
}

fn write_behind(rng: &mut Rng, bytes: &mut [u8]) -> String {
    let length = word(bytes, READY) as usize;
    let at = (SEQUENCE + length + rng.pick(&[0, 0, 1, 5])).min(WORDS - 1);
    let small = rng.between(1, MOST_TASKS as u32);
    let number = rng.pick(&[small, small, 1 << 24, u32::MAX]);
    set_word(bytes, at, number);
    format!("{} set to {number}, the length being {length}", word_name(at))
}

fn reorder(rng: &mut Rng, sequence: &mut [u32]) -> String {
    if !sequence.is_empty() {
        let (one, other) = (rng.below(sequence.len()), rng.below(sequence.len()));
        sequence.swap(one, other);
    }
    format!("ready sequence reordered to {sequence:?}")
}

fn leave_out(rng: &mut Rng, sequence: &mut Vec<u32>) -> String {
    if !sequence.is_empty() {
        sequence.remove(rng.below(sequence.len()));
    }
    format!("ready sequence shortened to {sequence:?}")
}

fn overwrite(rng: &mut Rng, machine: &Machine, sequence: &mut [u32]) -> String {
    if !sequence.is_empty() {
        let any = rng.between(0, machine.tasks.len() as u32 + 1);
        sequence[rng.below(sequence.len())] = any;
    }
    format!("ready sequence altered to {sequence:?}")
}

/// Anywhere in the sequence; one that is full stays so and loses its last.
fn put_in(rng: &mut Rng, sequence: &mut Vec<u32>, number: u32) -> String {
    sequence.insert(rng.below(sequence.len() + 1), number);
    sequence.truncate(MOST_TASKS);
    format!("{number} put into the ready sequence: {sequence:?}")
}

fn draw_waiting(rng: &mut Rng, machine: &Machine) -> Option<u32> {
    let tasks = 1..=machine.tasks.len() as u32;
    let waiting: Vec<u32> = tasks.filter(|&task| machine.is_waiting(task)).collect();
    (!waiting.is_empty()).then(|| rng.pick(&waiting))
}

/// A number above N, at times one whose bit would be that of a task.
fn draw_foreign(rng: &mut Rng, machine: &Machine) -> u32 {
    let tasks = machine.tasks.len() as u32;
    rng.pick(&[tasks + 1, tasks + 1, tasks + 32, 33, 64, 1 << 24, u32::MAX])
}
