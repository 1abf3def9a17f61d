//! The eight calls in place on the lent bytes, without the test for 25.

pub mod agreement;
mod inheritance;
pub mod itron;
pub mod state;

use crate::call::Answer;
use crate::inplace::inheritance::{anybody_lends, first_served, in_turn, working, Working};
use crate::layout::*;
use crate::status::*;

/// The lent bytes as words, high byte first.
pub type Words = [[u8; 4]; WORDS];

/// The lent bytes as words, if they have the layout's length.
pub fn words(bytes: &[u8]) -> Option<&Words> {
    let (words, rest) = bytes.as_chunks::<4>();
    if rest.is_empty() {
        words.try_into().ok()
    } else {
        None
    }
}

/// The same, to be written.
pub fn words_mut(bytes: &mut [u8]) -> Option<&mut Words> {
    let (words, rest) = bytes.as_chunks_mut::<4>();
    if rest.is_empty() {
        words.try_into().ok()
    } else {
        None
    }
}

fn get(words: &Words, at: usize) -> u32 {
    u32::from_be_bytes(words[at])
}

fn set(words: &mut Words, at: usize, number: u32) {
    words[at] = number.to_be_bytes();
}

/// The most urgent ready task by working priorities, among equals the first in the sequence, or 0.
pub fn next_task(words: &Words) -> u32 {
    let (best, chosen) = most_urgent(words, &Working::Own);
    // A boost changes nothing here unless somebody lends a number as small as that.
    if chosen == 0 || !anybody_lends(words, best) {
        return chosen;
    }
    most_urgent(words, &working(words)).1
}

/// The least number of the ready tasks, and the first of them that works with it.
fn most_urgent(words: &Words, working: &Working) -> (u32, u32) {
    let (mut best, mut chosen) = (u32::MAX, 0);
    for place in 0..get(words, READY) as usize {
        let number = get(words, SEQUENCE + place);
        let priority = working.of(words, number);
        if priority < best {
            (best, chosen) = (priority, number);
        }
    }
    (best, chosen)
}

fn answer(words: &Words, status: u32, value: u32) -> Answer {
    Answer::new(status, value, next_task(words))
}

fn refuse_caller(words: &Words, caller: u32, interrupt_may: bool) -> Option<u32> {
    if caller == 0 {
        return if interrupt_may { None } else { Some(CALLED_FROM_ISR) };
    }
    if caller > get(words, TASKS) {
        return Some(INVALID_ID);
    }
    (get(words, task_at(caller) + ANSWER) == WAITING).then_some(INCORRECT_STATE)
}

/// The first word of the slot whose live semaphore has this identifier.
fn find(words: &Words, id: u32) -> Option<usize> {
    let number = id & 0xFFFF;
    if number == 0 || number > get(words, SLOTS) {
        return None;
    }
    let at = slot_at(number as usize - 1);
    (get(words, at + LIVE) == 1 && get(words, at + GENERATION) == id >> 16).then_some(at)
}

/// A caller that passes and the slot it names, or the refusal.
fn enter(words: &Words, caller: u32, id: u32, interrupt_may: bool) -> Result<usize, u32> {
    match refuse_caller(words, caller, interrupt_may) {
        Some(refusal) => Err(refusal),
        None => find(words, id).ok_or(INVALID_ID),
    }
}

/// Makes a task ready, at the end of the sequence.
fn wake(words: &mut Words, number: u32, ending: u32) {
    let at = task_at(number);
    set(words, at + ANSWER, ending);
    set(words, at + WAITS_ON, 0);
    set(words, at + TICKS, 0);
    let ready = get(words, READY);
    set(words, SEQUENCE + ready as usize, number);
    set(words, READY, ready + 1);
}

/// Takes a task out of the sequence and closes the gap.
fn leave_sequence(words: &mut Words, number: u32) {
    let length = get(words, READY) as usize;
    let stands = |&place: &usize| get(words, SEQUENCE + place) == number;
    if let Some(place) = (0..length).find(stands) {
        words.copy_within(SEQUENCE + place + 1..SEQUENCE + length, SEQUENCE + place);
        set(words, SEQUENCE + length - 1, 0);
        set(words, READY, length as u32 - 1);
    }
}

fn wake_queue(words: &mut Words, at: usize, ending: u32) {
    let (waiters, length) = in_turn(words, at);
    for &number in &waiters[..length] {
        wake(words, number, ending);
    }
    words[at + QUEUED..=at + QUEUED + length].fill([0; 4]);
}

/// Takes the task at `place` out of the queue and closes the gap.
fn leave_queue(words: &mut Words, at: usize, place: usize) {
    let length = get(words, at + QUEUED) as usize;
    let queue = at + QUEUE;
    words.copy_within(queue + place + 1..queue + length, queue + place);
    set(words, queue + length - 1, 0);
    set(words, at + QUEUED, length as u32 - 1);
}

fn join_queue(words: &mut Words, at: usize, caller: u32) {
    let length = get(words, at + QUEUED);
    set(words, at + QUEUE + length as usize, caller);
    set(words, at + QUEUED, length + 1);
}

pub fn start(words: &mut Words, slots: u32, priorities: &[u32]) -> Answer {
    if get(words, TASKS) != 0 {
        return answer(words, INCORRECT_STATE, 0);
    }
    let count = priorities.len();
    if count == 0 || count > MOST_TASKS || slots == 0 || slots > MOST_SLOTS as u32 {
        return answer(words, INVALID_NUMBER, 0);
    }
    if priorities.iter().any(|&priority| priority == 0 || priority > LEAST_URGENT) {
        return answer(words, INVALID_PRIORITY, 0);
    }
    set(words, TASKS, count as u32);
    set(words, SLOTS, slots);
    for (number, &priority) in (1..).zip(priorities) {
        set(words, task_at(number) + PRIORITY_OF, priority);
        set(words, SEQUENCE + number as usize - 1, number);
    }
    set(words, READY, count as u32);
    answer(words, SUCCESSFUL, 0)
}

fn refuse_new(name: u32, count: u32, attributes: u32, maximum: u32) -> Option<u32> {
    if name == 0 {
        return Some(INVALID_NAME);
    }
    if !matches!(attributes, 0 | 4 | 16 | 20 | 32 | 36 | 84) {
        return Some(NOT_DEFINED);
    }
    let no_maximum = maximum == 0 || (attributes > PRIORITY && maximum != 1);
    (no_maximum || count > maximum).then_some(INVALID_NUMBER)
}

pub fn create(
    words: &mut Words,
    caller: u32,
    name: u32,
    count: u32,
    attributes: u32,
    maximum: u32,
) -> Answer {
    let refused =
        refuse_caller(words, caller, false).or_else(|| refuse_new(name, count, attributes, maximum));
    if let Some(refusal) = refused {
        return answer(words, refusal, 0);
    }
    let usable = |&index: &usize| {
        get(words, slot_at(index) + LIVE) == 0
            && get(words, slot_at(index) + GENERATION) < LAST_GENERATION
    };
    let Some(index) = (0..get(words, SLOTS) as usize).find(usable) else {
        return answer(words, TOO_MANY, 0);
    };
    let at = slot_at(index);
    let generation = get(words, at + GENERATION) + 1;
    set(words, at + GENERATION, generation);
    set(words, at + LIVE, 1);
    set(words, at + NAME, name);
    set(words, at + ATTRIBUTES, attributes);
    set(words, at + COUNT, count);
    set(words, at + MAXIMUM, maximum);
    if attributes & BINARY != 0 && count == 0 {
        set(words, at + OWNER, caller);
        set(words, at + NEST, 1);
    }
    answer(words, SUCCESSFUL, generation << 16 | (index as u32 + 1))
}

pub fn ident(words: &Words, name: u32) -> Answer {
    ident_looked(words, name).0
}

/// The same, with a count that goes up with each slot whose name is read.
pub fn ident_looked(words: &Words, name: u32) -> (Answer, u32) {
    let mut looked = 0;
    // A free slot's name is 0, so with another name only live slots match.
    let slots = if name == 0 { 0 } else { get(words, SLOTS) as usize };
    for index in 0..slots {
        let at = slot_at(index);
        looked += 1;
        if get(words, at + NAME) == name {
            let id = get(words, at + GENERATION) << 16 | (index as u32 + 1);
            return (answer(words, SUCCESSFUL, id), looked);
        }
    }
    (answer(words, INVALID_NAME, 0), looked)
}

pub fn delete(words: &mut Words, caller: u32, id: u32) -> Answer {
    let at = match enter(words, caller, id, false) {
        Ok(at) => at,
        Err(refusal) => return answer(words, refusal, 0),
    };
    if get(words, at + OWNER) != 0 {
        return answer(words, RESOURCE_IN_USE, 0);
    }
    wake_queue(words, at, OBJECT_WAS_DELETED);
    words[at + LIVE..at + QUEUED].fill([0; 4]);
    answer(words, SUCCESSFUL, 0)
}

pub fn obtain(words: &mut Words, caller: u32, id: u32, options: u32, timeout: u32) -> Answer {
    let at = match enter(words, caller, id, false) {
        Ok(at) => at,
        Err(refusal) => return answer(words, refusal, 0),
    };
    let count = get(words, at + COUNT);
    if count > 0 {
        set(words, at + COUNT, count - 1);
        if get(words, at + ATTRIBUTES) & BINARY != 0 {
            set(words, at + OWNER, caller);
            set(words, at + NEST, 1);
        }
        return answer(words, SUCCESSFUL, 0);
    }
    // Only a binary semaphore has an owner.
    if get(words, at + OWNER) == caller {
        let nest = get(words, at + NEST);
        if nest == u32::MAX {
            return answer(words, UNSATISFIED, 0);
        }
        set(words, at + NEST, nest + 1);
        return answer(words, SUCCESSFUL, 0);
    }
    if options & NO_WAIT != 0 {
        return answer(words, UNSATISFIED, 0);
    }
    join_queue(words, at, caller);
    leave_sequence(words, caller);
    set(words, task_at(caller) + ANSWER, WAITING);
    set(words, task_at(caller) + WAITS_ON, id);
    // Bare numbers, so that a wrong constant is not shared with the model.
    let ticks = match timeout {
        0 => 500,
        4_294_967_295 => 0,
        _ => timeout,
    };
    set(words, task_at(caller) + TICKS, ticks);
    answer(words, WAITING, 0)
}

pub fn release(words: &mut Words, caller: u32, id: u32) -> Answer {
    let at = match enter(words, caller, id, true) {
        Ok(at) => at,
        Err(refusal) => return answer(words, refusal, 0),
    };
    let binary = get(words, at + ATTRIBUTES) & BINARY != 0;
    if binary && (caller == 0 || get(words, at + OWNER) != caller) {
        return answer(words, NOT_OWNER_OF_RESOURCE, 0);
    }
    let nest = get(words, at + NEST);
    if nest > 1 {
        set(words, at + NEST, nest - 1);
        return answer(words, SUCCESSFUL, 0);
    }
    if get(words, at + QUEUED) > 0 {
        let place = first_served(words, at);
        let first = get(words, at + QUEUE + place);
        leave_queue(words, at, place);
        wake(words, first, SUCCESSFUL);
        if binary {
            set(words, at + OWNER, first);
        }
        return answer(words, SUCCESSFUL, 0);
    }
    let count = get(words, at + COUNT);
    if count == get(words, at + MAXIMUM) {
        return answer(words, UNSATISFIED, 0);
    }
    set(words, at + COUNT, count + 1);
    set(words, at + OWNER, 0);
    set(words, at + NEST, 0);
    answer(words, SUCCESSFUL, 0)
}

pub fn flush(words: &mut Words, caller: u32, id: u32) -> Answer {
    match enter(words, caller, id, true) {
        Ok(at) => {
            wake_queue(words, at, UNSATISFIED);
            answer(words, SUCCESSFUL, 0)
        }
        Err(refusal) => answer(words, refusal, 0),
    }
}

pub fn tick(words: &mut Words) -> Answer {
    for number in 1..=get(words, TASKS) {
        let at = task_at(number);
        match get(words, at + TICKS) {
            0 => {}
            1 => time_out(words, number),
            ticks => set(words, at + TICKS, ticks - 1),
        }
    }
    answer(words, SUCCESSFUL, 0)
}

fn time_out(words: &mut Words, number: u32) {
    let waited_on = (get(words, task_at(number) + WAITS_ON) & 0xFFFF) as usize;
    let at = slot_at(waited_on - 1);
    let stands = |&place: &usize| get(words, at + QUEUE + place) == number;
    if let Some(place) = (0..get(words, at + QUEUED) as usize).find(stands) {
        leave_queue(words, at, place);
    }
    wake(words, number, TIMEOUT);
}

pub fn task_answer(words: &Words, number: u32) -> Answer {
    if number == 0 || number > get(words, TASKS) {
        return answer(words, INVALID_ID, 0);
    }
    answer(words, SUCCESSFUL, get(words, task_at(number) + ANSWER))
}
