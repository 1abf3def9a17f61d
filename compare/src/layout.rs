//! The byte layout: words of four bytes, high byte first.

use crate::call::{Answer, Call, Manager};
use crate::model::{split_attributes, Machine, Semaphore, Slot, State, Task};
use crate::status::*;

/// Words of the tables: N, S, 32 tasks of four, 64 slots of forty-one, the ready sequence's length and its 32 places.
pub const WORDS: usize = SEQUENCE + MOST_TASKS;
/// Bytes that the caller lends.
pub const LENGTH: usize = WORDS * 4;

/// The words that hold N and S.
pub const TASKS: usize = 0;
pub const SLOTS: usize = 1;

pub const FIRST_TASK: usize = 2;
pub const TASK_WORDS: usize = 4;
pub const FIRST_SLOT: usize = FIRST_TASK + MOST_TASKS * TASK_WORDS;
pub const SLOT_WORDS: usize = QUEUE + MOST_TASKS;
/// How many tasks are ready, and the first of the places of their sequence.
pub const READY: usize = FIRST_SLOT + MOST_SLOTS * SLOT_WORDS;
pub const SEQUENCE: usize = READY + 1;

// Words of a task.
pub const PRIORITY_OF: usize = 0;
pub const ANSWER: usize = 1;
pub const WAITS_ON: usize = 2;
pub const TICKS: usize = 3;

// Words of a slot; the queue is the rest of them.
pub const GENERATION: usize = 0;
pub const LIVE: usize = 1;
pub const NAME: usize = 2;
pub const ATTRIBUTES: usize = 3;
pub const COUNT: usize = 4;
pub const OWNER: usize = 5;
pub const NEST: usize = 6;
pub const MAXIMUM: usize = 7;
pub const QUEUED: usize = 8;
pub const QUEUE: usize = 9;

const TASK_FIELDS: [&str; TASK_WORDS] = ["priority", "answer", "identifier waited on", "ticks left"];
const SLOT_FIELDS: [&str; QUEUE] =
    ["generation", "live", "name", "attributes", "count", "owner", "nest", "maximum", "queue length"];

/// The word at `index` of bytes that reach that far.
pub fn word(bytes: &[u8], index: usize) -> u32 {
    let four = &bytes[index * 4..index * 4 + 4];
    four.iter().fold(0, |number, &byte| number << 8 | u32::from(byte))
}

pub fn set_word(bytes: &mut [u8], index: usize, number: u32) {
    bytes[index * 4..index * 4 + 4].copy_from_slice(&number.to_be_bytes());
}

/// The index of the first of the words of task `number`, from 1.
pub fn task_at(number: u32) -> usize {
    FIRST_TASK + (number as usize - 1) * TASK_WORDS
}

/// The index of the first of the words of the slot at `index`, from 0.
pub fn slot_at(index: usize) -> usize {
    FIRST_SLOT + index * SLOT_WORDS
}

/// What the word at `index` means; tasks and slots are numbered from 1.
pub fn word_name(index: usize) -> String {
    match index {
        TASKS => "N".into(),
        SLOTS => "S".into(),
        _ if index < FIRST_SLOT => {
            let place = index - FIRST_TASK;
            format!("task {} {}", place / TASK_WORDS + 1, TASK_FIELDS[place % TASK_WORDS])
        }
        READY => "ready sequence length".into(),
        _ if index >= SEQUENCE => format!("ready sequence place {}", index - SEQUENCE + 1),
        _ => {
            let place = index - FIRST_SLOT;
            let (slot, field) = (place / SLOT_WORDS + 1, place % SLOT_WORDS);
            match SLOT_FIELDS.get(field) {
                Some(name) => format!("slot {slot} {name}"),
                None => format!("slot {slot} queue place {}", field - QUEUE + 1),
            }
        }
    }
}

/// The machine's tables, as bytes.
pub fn write(machine: &Machine) -> Vec<u8> {
    let mut bytes = vec![0; LENGTH];
    write_into(machine, &mut bytes);
    bytes
}

/// Writes the machine's tables over `LENGTH` bytes.
pub fn write_into(machine: &Machine, bytes: &mut [u8]) {
    bytes.fill(0);
    set_word(bytes, TASKS, machine.tasks.len() as u32);
    set_word(bytes, SLOTS, machine.slots.len() as u32);
    for (number, task) in (1..).zip(&machine.tasks) {
        let (answer, id, ticks) = match task.state {
            State::Ready { answer } => (answer, 0, 0),
            State::Waiting { id, ticks } => (WAITING, id, ticks),
        };
        set_words(bytes, task_at(number), &[task.priority, answer, id, ticks]);
    }
    for (index, slot) in machine.slots.iter().enumerate() {
        let at = slot_at(index);
        set_word(bytes, at + GENERATION, slot.generation);
        if let Some(live) = &slot.live {
            let length = live.queue.len() as u32;
            let state = [live.count, live.owner, live.nest, live.maximum, length];
            set_words(bytes, at + LIVE, &[1, live.name, live.attributes()]);
            set_words(bytes, at + COUNT, &state);
            set_words(bytes, at + QUEUE, &live.queue);
        }
    }
    set_sequence(bytes, &machine.ready);
}

/// Writes the ready sequence, and zeros behind its length.
pub fn set_sequence(bytes: &mut [u8], sequence: &[u32]) {
    bytes[READY * 4..].fill(0);
    set_word(bytes, READY, sequence.len() as u32);
    set_words(bytes, SEQUENCE, sequence);
}

/// Writes numbers into words one after the other.
pub fn set_words(bytes: &mut [u8], at: usize, numbers: &[u32]) {
    for (offset, &number) in numbers.iter().enumerate() {
        set_word(bytes, at + offset, number);
    }
}

/// The machine whose tables these bytes are, or nothing if they do not agree.
pub fn read(bytes: &[u8]) -> Option<Machine> {
    if bytes.len() != LENGTH {
        return None;
    }
    let machine = read_shape(bytes)?;
    // Whatever lies beyond N, S or the length of a queue or the sequence is missing from the machine, so it
    // has to be 0.
    (machine.agrees() && write(&machine) == bytes).then_some(machine)
}

/// The machine of bytes whose ready sequence is put in number order, or nothing if they do not agree even so.
pub fn read_with_sequence_mended(bytes: &[u8]) -> Option<Machine> {
    if bytes.len() != LENGTH || word(bytes, TASKS) as usize > MOST_TASKS {
        return None;
    }
    let waits = |number: u32| word(bytes, task_at(number) + ANSWER) == WAITING;
    let ready: Vec<u32> = (1..=word(bytes, TASKS)).filter(|&number| !waits(number)).collect();
    let mut mended = bytes.to_vec();
    set_sequence(&mut mended, &ready);
    read(&mended)
}

/// The machine of bytes whose maxima are made the greatest of their class, or nothing if they do not agree even so.
pub fn read_with_maxima_mended(bytes: &[u8]) -> Option<Machine> {
    if bytes.len() != LENGTH {
        return None;
    }
    let mut mended = bytes.to_vec();
    for at in (0..MOST_SLOTS).map(slot_at) {
        let live = word(bytes, at + LIVE) != 0;
        let maximum = if live { greatest_maximum(word(bytes, at + ATTRIBUTES)) } else { 0 };
        set_word(&mut mended, at + MAXIMUM, maximum);
    }
    read(&mended)
}

fn read_shape(bytes: &[u8]) -> Option<Machine> {
    let (tasks, slots) = (word(bytes, TASKS) as usize, word(bytes, SLOTS) as usize);
    if tasks > MOST_TASKS || slots > MOST_SLOTS {
        return None;
    }
    let tasks = (1..=tasks as u32).map(|number| read_task(bytes, task_at(number))).collect();
    let slots: Option<Vec<Slot>> = (0..slots).map(|index| read_slot(bytes, slot_at(index))).collect();
    let ready = word(bytes, READY) as usize;
    if ready > MOST_TASKS {
        return None;
    }
    let ready = (0..ready).map(|place| word(bytes, SEQUENCE + place)).collect();
    Some(Machine { tasks, slots: slots?, ready })
}

fn read_task(bytes: &[u8], at: usize) -> Task {
    let (priority, answer) = (word(bytes, at + PRIORITY_OF), word(bytes, at + ANSWER));
    let state = if answer == WAITING {
        State::Waiting { id: word(bytes, at + WAITS_ON), ticks: word(bytes, at + TICKS) }
    } else {
        State::Ready { answer }
    };
    Task { priority, state }
}

fn read_slot(bytes: &[u8], at: usize) -> Option<Slot> {
    let generation = word(bytes, at + GENERATION);
    match word(bytes, at + LIVE) {
        0 => Some(Slot { generation, live: None }),
        1 => Some(Slot { generation, live: Some(read_semaphore(bytes, at)?) }),
        _ => None,
    }
}

fn read_semaphore(bytes: &[u8], at: usize) -> Option<Semaphore> {
    let (class, order, protocol) = split_attributes(word(bytes, at + ATTRIBUTES))?;
    let length = word(bytes, at + QUEUED) as usize;
    if length > MOST_TASKS {
        return None;
    }
    Some(Semaphore {
        name: word(bytes, at + NAME),
        class,
        order,
        protocol,
        count: word(bytes, at + COUNT),
        owner: word(bytes, at + OWNER),
        nest: word(bytes, at + NEST),
        maximum: word(bytes, at + MAXIMUM),
        queue: (0..length).map(|place| word(bytes, at + QUEUE + place)).collect(),
    })
}

/// The model as a manager on lent bytes: reads them, serves, writes them back.
pub struct Model;

impl Manager for Model {
    fn call(&mut self, tables: &mut [u8], call: &Call) -> Answer {
        let Some(mut machine) = read(tables) else { return Answer::DISAGREE };
        let answer = machine.call(call);
        write_into(&machine, tables);
        answer
    }

    fn ident_looked(&mut self, tables: &mut [u8], name: u32) -> (Answer, u32) {
        let Some(machine) = read(tables) else { return (Answer::DISAGREE, 0) };
        (self.call(tables, &Call::Ident { name }), machine.looked(name))
    }
}
