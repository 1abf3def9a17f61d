//! The comparison of state files itself, with the in-place variant in the library's stead.

use compare::call::{Answer, Call, Manager};
use compare::inplace::agreement::Tested;
use compare::layout::{
    set_word, slot_at, task_at, word, ANSWER, ATTRIBUTES, COUNT, LENGTH, LIVE, MAXIMUM, SLOTS, TASKS,
    TICKS,
};
use compare::state::comparison::{Compared, Comparison};
use compare::state::read::only_maxima_are_wrong;
use compare::state::round::round;
use compare::state::Keeper;
use compare::status::greatest_maximum;

fn rounds(subject: &mut dyn Keeper, count: u64) -> Compared<Vec<String>> {
    let mut comparison = Comparison::new(subject);
    (0..count).try_for_each(|seed| round(&mut comparison, seed))?;
    Ok(comparison.seen.gaps())
}

#[test]
fn in_place_is_as_the_model() {
    assert_eq!(rounds(&mut Tested, 80), Ok(Vec::new()));
}

type Load = fn(tables: &mut [u8], file: &[u8]) -> Answer;

/// The in-place variant with something done otherwise in its saves, its loads, or its counts of slots.
struct Wrong {
    save: fn(&[u8], &mut [u8]) -> Answer,
    load: Load,
    looked: fn(&mut [u8], u32) -> (Answer, u32),
}

const RIGHT: Wrong = Wrong {
    save: |tables, file| Tested.save(tables, file),
    load: |tables, file| Tested.load(tables, file),
    looked: |tables, name| Tested.ident_looked(tables, name),
};

impl Manager for Wrong {
    fn call(&mut self, tables: &mut [u8], call: &Call) -> Answer {
        Tested.call(tables, call)
    }

    fn ident_looked(&mut self, tables: &mut [u8], name: u32) -> (Answer, u32) {
        (self.looked)(tables, name)
    }
}

impl Keeper for Wrong {
    fn save(&mut self, tables: &[u8], file: &mut [u8]) -> Answer {
        (self.save)(tables, file)
    }

    fn load(&mut self, tables: &mut [u8], file: &[u8]) -> Answer {
        (self.load)(tables, file)
    }
}

/// The comparison finds it, and says this of it.
fn is_found(mut wrong: Wrong, said: &str) {
    let found = rounds(&mut wrong, 20).expect_err("the comparison finds it");
    assert!(found.contains(said), "{found}");
}

#[test]
fn a_save_that_clears_the_buffer_is_found() {
    let save = |tables: &[u8], file: &mut [u8]| {
        let answer = Tested.save(tables, file);
        if answer.status == 0 {
            file[answer.value as usize..].fill(0);
        }
        answer
    };
    is_found(Wrong { save, ..RIGHT }, "save, started tables");
}

#[test]
fn a_save_before_the_test_of_the_room_is_found() {
    let save = |tables: &[u8], file: &mut [u8]| {
        let answer = Tested.save(tables, file);
        if let (8, Some(first)) = (answer.status, file.first_mut()) {
            *first = !*first;
        }
        answer
    };
    is_found(Wrong { save, ..RIGHT }, "byte 0 of the file");
}

#[test]
fn a_save_with_another_value_is_found() {
    let save = |tables: &[u8], file: &mut [u8]| Answer { value: 0, ..Tested.save(tables, file) };
    is_found(Wrong { save, ..RIGHT }, "save, started tables");
}

#[test]
fn a_save_that_tests_the_room_first_is_found() {
    let save = |tables: &[u8], file: &mut [u8]| match file.len() {
        0..56 => Answer::new(8, 0, 0),
        _ => Tested.save(tables, file),
    };
    is_found(Wrong { save, ..RIGHT }, "independent ");
}

#[test]
fn a_load_that_ignores_the_end_is_found() {
    let load = |tables: &mut [u8], file: &[u8]| {
        let answer = Tested.load(tables, file);
        let whole = file.len() / 4 * 4;
        match answer.status {
            8 => Tested.load(tables, &file[..whole]),
            _ => answer,
        }
    };
    is_found(Wrong { load, ..RIGHT }, "load, damaged: bytes behind it");
}

#[test]
fn a_load_that_ignores_the_edition_is_found() {
    let load = |tables: &mut [u8], file: &[u8]| {
        let mut mended = file.to_vec();
        mended.iter_mut().take(3).for_each(|byte| *byte = 0);
        Tested.load(tables, &mended)
    };
    is_found(Wrong { load, ..RIGHT }, "another edition");
}

#[test]
fn a_load_over_a_started_machine_is_found() {
    let load = |tables: &mut [u8], file: &[u8]| {
        let answer = Tested.load(tables, file);
        if answer.status == 14 {
            tables.fill(0);
            return Tested.load(tables, file);
        }
        answer
    };
    is_found(Wrong { load, ..RIGHT }, "on started tables");
}

#[test]
fn a_refused_load_that_leaves_a_trace_is_found() {
    let load = |tables: &mut [u8], file: &[u8]| {
        let answer = Tested.load(tables, file);
        if answer.status == 8 && file.len() > 100 {
            set_word(tables, 0, word(file, 0));
        }
        answer
    };
    is_found(Wrong { load, ..RIGHT }, "word 0, N: independent 0");
}

#[test]
fn a_load_that_mends_a_free_slot_is_found() {
    // Name, attributes, count, owner, nest and maximum of a free slot are made 0 before the file is read.
    let load = |tables: &mut [u8], file: &[u8]| {
        let mut mended = file.to_vec();
        if file.len() >= 56 && file.len().is_multiple_of(4) {
            let (first, length) = (word(file, 6) as usize / 4, word(file, 7) as usize / 32);
            let records = (0..length.min(64)).map(|slot| first + 8 * slot);
            for at in records.filter(|&at| at + 8 <= file.len() / 4 && word(file, at + 1) == 0) {
                (at + 2..at + 8).for_each(|field| set_word(&mut mended, field, 0));
            }
        }
        Tested.load(tables, &mended)
    };
    is_found(Wrong { load, ..RIGHT }, "not what would be written");
}

#[test]
fn a_load_that_forgets_the_sequence_is_found() {
    let load = |tables: &mut [u8], file: &[u8]| {
        let answer = Tested.load(tables, file);
        if answer.status == 0 && tables.len() == LENGTH {
            let machine = compare::layout::read(tables).expect("loaded tables agree");
            compare::layout::set_sequence(tables, &machine.ready_by_number());
        }
        answer
    };
    is_found(Wrong { load, ..RIGHT }, "ready sequence place");
}

#[test]
fn an_ident_that_counts_wrong_after_a_load_is_found() {
    let looked = |tables: &mut [u8], name: u32| {
        let (answer, count) = Tested.ident_looked(tables, name);
        (answer, count + u32::from(answer.status == 0))
    };
    is_found(Wrong { looked, ..RIGHT }, "slots looked at: independent ");
}

/// A load of edition 1, after which `alter` is done to the maximum of each live slot, given its attributes and count.
fn load_altered(
    tables: &mut [u8],
    file: &[u8],
    alter: fn(attributes: u32, count: u32) -> u32,
) -> Answer {
    let answer = Tested.load(tables, file);
    if answer.status == 0 && word(file, 0) == 1 {
        for at in (0..word(tables, SLOTS) as usize).map(slot_at) {
            if word(tables, at + LIVE) == 1 {
                let maximum = alter(word(tables, at + ATTRIBUTES), word(tables, at + COUNT));
                set_word(tables, at + MAXIMUM, maximum);
            }
        }
    }
    answer
}

#[test]
fn wrong_maxima_of_edition_1_are_found() {
    let alters: [Load; 4] = [
        |tables, file| load_altered(tables, file, |_, _| 0),
        |tables, file| load_altered(tables, file, |_, _| u32::MAX),
        |tables, file| load_altered(tables, file, |_, count| count.max(1)),
        |tables, file| {
            load_altered(tables, file, |attributes, _| if attributes < 4 { u32::MAX } else { 1 })
        },
    ];
    for load in alters {
        is_found(Wrong { load, ..RIGHT }, "maximum: independent ");
    }
}

#[test]
fn a_free_slot_with_a_maximum_after_edition_1_is_found() {
    let load = |tables: &mut [u8], file: &[u8]| {
        let answer = Tested.load(tables, file);
        if answer.status == 0 && word(file, 0) == 1 {
            let slots = (0..word(tables, SLOTS) as usize).map(slot_at);
            let free: Vec<usize> = slots.filter(|&at| word(tables, at + LIVE) == 0).collect();
            free.iter().for_each(|at| set_word(tables, at + MAXIMUM, 1));
        }
        answer
    };
    is_found(Wrong { load, ..RIGHT }, "maximum: independent 0, library 1");
}

/// A load that takes a task's ticks left for a timeout.
fn load_with_ticks(tables: &mut [u8], file: &[u8], of: u32, ticks: u32) -> Answer {
    let answer = Tested.load(tables, file);
    if answer.status == 0 {
        let waits = |at: &usize| word(tables, at + ANSWER) == 100 && word(tables, at + TICKS) == of;
        let tasks: Vec<usize> = (1..=word(tables, TASKS)).map(task_at).filter(waits).collect();
        tasks.iter().for_each(|at| set_word(tables, at + TICKS, ticks));
    }
    answer
}

#[test]
fn ticks_taken_for_timeouts_are_found() {
    let load = |tables: &mut [u8], file: &[u8]| load_with_ticks(tables, file, 0, 500);
    is_found(Wrong { load, ..RIGHT }, " ticks left: independent 0, library 500");
    let load = |tables: &mut [u8], file: &[u8]| load_with_ticks(tables, file, u32::MAX, 0);
    is_found(Wrong { load, ..RIGHT }, " ticks left: independent 4294967295, library 0");
}

fn is_old(file: &[u8]) -> bool {
    file.len() > 56 && word(file, 0) == 1
}

#[test]
fn edition_1_that_is_not_exact_is_found() {
    // A byte behind the last body, and what a free slot has.
    let behind = |tables: &mut [u8], file: &[u8]| match Tested.load(tables, file) {
        answer if answer.status == 8 && is_old(file) => Tested.load(tables, &file[..file.len() - 1]),
        answer => answer,
    };
    is_found(Wrong { load: behind, ..RIGHT }, "edition 1: load, damaged: bytes behind it");
    let stray = |tables: &mut [u8], file: &[u8]| {
        let mut mended = file.to_vec();
        if is_old(file) && file.len().is_multiple_of(4) {
            let (first, slots) = (word(file, 6) as usize / 4, word(file, 7) as usize / 28);
            let records = (0..slots.min(64)).map(|slot| first + 7 * slot);
            for at in records.filter(|&at| at + 7 <= file.len() / 4 && word(file, at + 1) == 0) {
                (at + 2..at + 7).for_each(|field| set_word(&mut mended, field, 0));
            }
        }
        Tested.load(tables, &mended)
    };
    is_found(Wrong { load: stray, ..RIGHT }, "not what would be written");
}

#[test]
fn editions_taken_for_each_other_are_found() {
    // Whatever number comes first, the records' length decides.
    let load = |tables: &mut [u8], file: &[u8]| match Tested.load(tables, file) {
        answer if answer.status == 8 && file.len() > 56 => {
            let mut other = file.to_vec();
            set_word(&mut other, 0, 3u32.wrapping_sub(word(file, 0)));
            Tested.load(tables, &other)
        }
        answer => answer,
    };
    is_found(Wrong { load, ..RIGHT }, "damaged: ");
    let no_edition_1 = |tables: &mut [u8], file: &[u8]| match Tested.load(tables, file) {
        answer if answer.status == 0 && word(file, 0) == 1 => {
            tables.fill(0);
            Answer::new(8, 0, 0)
        }
        answer => answer,
    };
    is_found(Wrong { load: no_edition_1, ..RIGHT }, "edition 1: load, the file saved");
    let save = |tables: &[u8], file: &mut [u8]| {
        let answer = Tested.save(tables, file);
        if answer.status == 0 {
            set_word(file, 0, 1);
        }
        answer
    };
    is_found(Wrong { save, ..RIGHT }, "byte 3 of the file: independent 2, library 1");
}

#[test]
fn maxima_of_edition_2_that_are_mended_are_found() {
    let load = |tables: &mut [u8], file: &[u8]| match Tested.load(tables, file) {
        answer if answer.status == 8 && only_maxima_are_wrong(file) => {
            let mut mended = file.to_vec();
            let first = word(file, 6) as usize / 4;
            for at in (0..word(file, 7) as usize / 32).map(|slot| first + 8 * slot) {
                let maximum =
                    if word(file, at + 1) == 0 { 0 } else { greatest_maximum(word(file, at + 3)) };
                set_word(&mut mended, at + 7, maximum);
            }
            Tested.load(tables, &mended)
        }
        answer => answer,
    };
    is_found(Wrong { load, ..RIGHT }, "load, damaged: ");
}
