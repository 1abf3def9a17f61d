//! The test for 25 in place on the lent bytes, and the calls behind it.

use crate::call::{Answer, Call, Manager};
use crate::inplace::{self, words, words_mut, Words};
use crate::layout::*;
use crate::status::*;

/// Whether the lent bytes are tables that agree.
pub fn agrees(bytes: &[u8]) -> bool {
    words(bytes).is_some_and(words_agree)
}

fn words_agree(words: &Words) -> bool {
    let (tasks, slots) = (get(words, TASKS), get(words, SLOTS));
    if tasks == 0 {
        return is_zero(&words[SLOTS..]);
    }
    if tasks > MOST_TASKS as u32 || slots == 0 || slots > MOST_SLOTS as u32 {
        return false;
    }
    let Some(waiting) = waiting_tasks(words, tasks) else { return false };
    let (task_words, slot_words) = (&words[FIRST_TASK..FIRST_SLOT], &words[FIRST_SLOT..READY]);
    let mut queued = 0;
    for (index, slot) in slot_words.chunks_exact(SLOT_WORDS).take(slots as usize).enumerate() {
        match queued_tasks(task_words, tasks, index, slot) {
            Some(here) if here & queued == 0 => queued |= here,
            _ => return false,
        }
    }
    queued == waiting
        && sequence_tasks(words, tasks) == Some(waiting ^ (u32::MAX >> (MOST_TASKS as u32 - tasks)))
        && is_zero(&task_words[tasks as usize * TASK_WORDS..])
        && is_zero(&slot_words[slots as usize * SLOT_WORDS..])
}

fn get(words: &[[u8; 4]], at: usize) -> u32 {
    u32::from_be_bytes(words[at])
}

// All bytes into one, without a branch for each.
fn is_zero(words: &[[u8; 4]]) -> bool {
    words.as_flattened().iter().fold(0, |seen, byte| seen | byte) == 0
}

/// The waiting tasks as bits, or nothing if a task is outside its limits.
fn waiting_tasks(words: &Words, tasks: u32) -> Option<u32> {
    let mut waiting = 0;
    let task_words = words[FIRST_TASK..FIRST_SLOT].chunks_exact(TASK_WORDS);
    for (number, task) in task_words.take(tasks as usize).enumerate() {
        if !(MOST_URGENT..=LEAST_URGENT).contains(&get(task, PRIORITY_OF)) {
            return None;
        }
        match get(task, ANSWER) {
            WAITING => waiting |= 1 << number,
            SUCCESSFUL | TIMEOUT | OBJECT_WAS_DELETED | UNSATISFIED if is_zero(&task[WAITS_ON..]) => {}
            _ => return None,
        }
    }
    Some(waiting)
}

/// The tasks of the ready sequence as bits, each of which stands there once.
fn sequence_tasks(words: &Words, tasks: u32) -> Option<u32> {
    let length = get(words, READY) as usize;
    let sequence = &words[SEQUENCE..];
    if length > MOST_TASKS || !is_zero(&sequence[length..]) {
        return None;
    }
    let mut ready = 0u32;
    for entry in &sequence[..length] {
        let number = u32::from_be_bytes(*entry);
        if number == 0 || number > tasks || ready & (1 << (number - 1)) != 0 {
            return None;
        }
        ready |= 1 << (number - 1);
    }
    Some(ready)
}

/// The tasks queued at a slot as bits, or nothing if the slot breaks a rule.
fn queued_tasks(task_words: &[[u8; 4]], tasks: u32, index: usize, slot: &[[u8; 4]]) -> Option<u32> {
    let (generation, live) = (get(slot, GENERATION), get(slot, LIVE));
    if generation > LAST_GENERATION || live > 1 {
        return None;
    }
    if live == 0 {
        return is_zero(&slot[NAME..]).then_some(0);
    }
    let length = get(slot, QUEUED) as usize;
    if generation == 0
        || get(slot, NAME) == 0
        || length > MOST_TASKS
        || !is_zero(&slot[QUEUE + length..])
    {
        return None;
    }
    let id = generation << 16 | (index as u32 + 1);
    let attributes = get(slot, ATTRIBUTES);
    let queued = waiters_on(task_words, tasks, id, &slot[QUEUE..QUEUE + length])?;
    let state = [get(slot, COUNT), get(slot, OWNER), get(slot, NEST), get(slot, MAXIMUM)];
    holds_together(tasks, attributes, state, queued).then_some(queued)
}

/// The tasks of one queue as bits, each of which waits on `id` and stands there once.
fn waiters_on(task_words: &[[u8; 4]], tasks: u32, id: u32, queue: &[[u8; 4]]) -> Option<u32> {
    let mut queued = 0u32;
    for entry in queue {
        let number = u32::from_be_bytes(*entry);
        if number == 0 || number > tasks {
            return None;
        }
        let task = &task_words[(number as usize - 1) * TASK_WORDS..][..TASK_WORDS];
        let bit = 1 << (number - 1);
        if queued & bit != 0 || get(task, ANSWER) != WAITING || get(task, WAITS_ON) != id {
            return None;
        }
        queued |= bit;
    }
    Some(queued)
}

fn holds_together(tasks: u32, attributes: u32, state: [u32; 4], queued: u32) -> bool {
    let [count, owner, nest, maximum] = state;
    let unowned = owner == 0 && nest == 0;
    let queue_allows = queued == 0 || count == 0;
    queue_allows
        && match attributes {
            0 | 4 => unowned && maximum >= 1 && count <= maximum,
            32 | 36 => unowned && maximum == 1 && count <= 1,
            16 | 20 | 84 if count == 1 => unowned && maximum == 1,
            16 | 20 | 84 => {
                let owner_is_task = owner >= 1 && owner <= tasks;
                let held = count == 0 && owner_is_task && nest >= 1;
                held && queued & (1 << (owner - 1)) == 0 && maximum == 1
            }
            _ => false,
        }
}

/// One call without the test, on words that agree.
pub fn serve(words: &mut Words, call: &Call) -> Answer {
    match *call {
        Call::Start { slots, ref priorities } => inplace::start(words, slots, priorities),
        Call::Create { caller, name, count, attributes, maximum } => {
            inplace::create(words, caller, name, count, attributes, maximum)
        }
        Call::Ident { name } => inplace::ident(words, name),
        Call::Delete { caller, id } => inplace::delete(words, caller, id),
        Call::Obtain { caller, id, options, timeout } => {
            inplace::obtain(words, caller, id, options, timeout)
        }
        Call::Release { caller, id } => inplace::release(words, caller, id),
        Call::Flush { caller, id } => inplace::flush(words, caller, id),
        Call::Tick => inplace::tick(words),
        Call::Task { task } => inplace::task_answer(words, task),
    }
}

/// The in-place variant behind its test for 25.
pub struct Tested;

impl Manager for Tested {
    fn call(&mut self, tables: &mut [u8], call: &Call) -> Answer {
        match words_mut(tables) {
            Some(words) if words_agree(words) => serve(words, call),
            _ => Answer::DISAGREE,
        }
    }

    fn ident_looked(&mut self, tables: &mut [u8], name: u32) -> (Answer, u32) {
        match words(tables) {
            Some(words) if words_agree(words) => inplace::ident_looked(words, name),
            _ => (Answer::DISAGREE, 0),
        }
    }
}

/// The in-place variant alone; the lent bytes have to agree.
pub struct Untested;

impl Manager for Untested {
    fn call(&mut self, tables: &mut [u8], call: &Call) -> Answer {
        let words = words_mut(tables).expect("the lent bytes have the layout's length");
        serve(words, call)
    }

    fn ident_looked(&mut self, tables: &mut [u8], name: u32) -> (Answer, u32) {
        let words = words(tables).expect("the lent bytes have the layout's length");
        inplace::ident_looked(words, name)
    }
}
