//! State files by moving words between them and the lent bytes, a second way beside the model's.

use crate::call::Answer;
use crate::inplace::agreement::{agrees, Tested};
use crate::inplace::{answer, get, next_task, set, words, words_mut, Words};
use crate::layout::*;
use crate::state::Keeper;
use crate::status::*;

/// Words of the table of contents.
const CONTENTS: usize = 14;

/// Words of a slot that a file of this edition has in body 2; edition 1 ends before the maximum.
fn record_words(edition: usize) -> Option<usize> {
    match edition {
        1 => Some(MAXIMUM),
        2 => Some(QUEUED),
        _ => None,
    }
}

/// The file, of this edition, of any tables whose counts and lengths fit, whether they agree or not.
pub fn file_of(tables: &[u8], edition: u32) -> Option<Vec<u8>> {
    let words = words(tables)?;
    let record = record_words(edition as usize)?;
    let (tasks, slots) = (get(words, TASKS) as usize, get(words, SLOTS) as usize);
    let ready = get(words, READY) as usize;
    let queued = |index: usize| get(words, slot_at(index) + QUEUED) as usize;
    let counts_fit = tasks <= MOST_TASKS && slots <= MOST_SLOTS && ready <= MOST_TASKS;
    if !counts_fit || (0..slots).any(|index| queued(index) > MOST_TASKS) {
        return None;
    }
    let waiting: usize = (0..slots).map(queued).sum();
    let lengths = [tasks * TASK_WORDS, slots * record, slots + waiting, ready];
    let mut file = contents(edition as usize, lengths);
    file.extend(&words[FIRST_TASK..FIRST_TASK + tasks * TASK_WORDS]);
    (0..slots).for_each(|index| file.extend(&words[slot_at(index)..slot_at(index) + record]));
    for index in 0..slots {
        let at = slot_at(index) + QUEUED;
        file.extend(&words[at..=at + queued(index)]);
    }
    file.extend(&words[SEQUENCE..SEQUENCE + ready]);
    Some(file.as_flattened().to_vec())
}

/// The one table of contents for bodies of so many words.
fn contents(edition: usize, lengths: [usize; 4]) -> Vec<[u8; 4]> {
    let mut numbers = vec![edition, 4];
    let mut offset = CONTENTS * 4;
    for (kind, length) in (1..).zip(lengths) {
        numbers.extend([kind, offset, length * 4]);
        offset += length * 4;
    }
    numbers.iter().map(|&number| (number as u32).to_be_bytes()).collect()
}

/// The words of a file in their places in the tables, if each has one and the contents are right.
fn moved(file: &[u8]) -> Option<Box<Words>> {
    let (file, rest) = file.as_chunks::<4>();
    let number = |at: usize| file.get(at).map(|&bytes| u32::from_be_bytes(bytes) as usize);
    let edition = number(0)?;
    let record = record_words(edition)?;
    // The lengths of the four bodies, which may be any numbers yet.
    let [tasks, slots, queues, ready] = [4, 7, 10, 13].map(number);
    let (tasks, slots) = (tasks? / 16, slots? / (4 * record));
    let (queues, ready) = (queues? / 4, ready? / 4);
    if tasks > MOST_TASKS || slots > MOST_SLOTS || ready > MOST_TASKS || queues < slots {
        return None;
    }
    let lengths = [tasks * TASK_WORDS, slots * record, queues, ready];
    let (wanted, length) = (contents(edition, lengths), CONTENTS + lengths.iter().sum::<usize>());
    if !rest.is_empty() || file.len() != length || file[..CONTENTS] != wanted {
        return None;
    }
    let (body, sequence) = file[CONTENTS..].split_at(length - CONTENTS - ready);
    let mut tables = Box::new([[0; 4]; WORDS]);
    set(&mut tables, TASKS, tasks as u32);
    set(&mut tables, SLOTS, slots as u32);
    set(&mut tables, READY, ready as u32);
    tables[SEQUENCE..SEQUENCE + ready].copy_from_slice(sequence);
    let (task_words, body) = body.split_at(tasks * TASK_WORDS);
    tables[FIRST_TASK..FIRST_TASK + task_words.len()].copy_from_slice(task_words);
    let (records, queues) = body.split_at(slots * record);
    move_slots(&mut tables, records.chunks_exact(record), queues)?;
    Some(tables)
}

fn move_slots<'a>(
    tables: &mut Words,
    records: impl Iterator<Item = &'a [[u8; 4]]>,
    queues: &[[u8; 4]],
) -> Option<()> {
    let mut from = 0;
    for (index, record) in records.enumerate() {
        let at = slot_at(index);
        tables[at..at + record.len()].copy_from_slice(record);
        // A live slot of edition 1 may count as far as its class ever could.
        if record.len() == MAXIMUM && get(tables, at + LIVE) == 1 {
            let counting = matches!(get(tables, at + ATTRIBUTES), 0 | PRIORITY);
            set(tables, at + MAXIMUM, if counting { u32::MAX } else { 1 });
        }
        let length = u32::from_be_bytes(*queues.get(from)?) as usize;
        if length > MOST_TASKS || from + length >= queues.len() {
            return None;
        }
        tables[at + QUEUED..=at + QUEUED + length].copy_from_slice(&queues[from..=from + length]);
        from += 1 + length;
    }
    (from == queues.len()).then_some(())
}

impl Keeper for Tested {
    fn save(&mut self, tables: &[u8], file: &mut [u8]) -> Answer {
        let Some(words) = words(tables).filter(|_| agrees(tables)) else { return Answer::DISAGREE };
        if get(words, TASKS) == 0 {
            return answer(words, INCORRECT_STATE, 0);
        }
        let written = file_of(tables, 2).expect("the counts of agreeing tables fit");
        let Some(front) = file.get_mut(..written.len()) else { return answer(words, INVALID_SIZE, 0) };
        front.copy_from_slice(&written);
        answer(words, SUCCESSFUL, written.len() as u32)
    }

    fn load(&mut self, tables: &mut [u8], file: &[u8]) -> Answer {
        if !agrees(tables) {
            return Answer::DISAGREE;
        }
        let Some(words) = words_mut(tables) else { return Answer::DISAGREE };
        if get(words, TASKS) != 0 {
            return answer(words, INCORRECT_STATE, 0);
        }
        let loaded = moved(file).filter(|made| get(made, TASKS) != 0 && agrees(made.as_flattened()));
        let Some(loaded) = loaded else { return answer(words, INVALID_SIZE, 0) };
        *words = *loaded;
        Answer::new(SUCCESSFUL, 0, next_task(words))
    }
}
