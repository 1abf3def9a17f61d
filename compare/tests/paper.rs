//! The rules' cases and the agreement of the tables, on this project's own code.

use compare::call::{Answer, Call, Manager};
use compare::inplace::agreement::{agrees, Tested};
use compare::layout::{
    self, read, set_word, slot_at, task_at, word, Model, LENGTH, MAXIMUM, READY, SEQUENCE, WORDS,
};

#[test]
fn paper_cases_hold_for_the_model() {
    compare::fuzz::cases::run(&mut Model).unwrap();
}

#[test]
fn paper_cases_hold_in_place() {
    compare::fuzz::cases::run(&mut Tested).unwrap();
}

/// Task 1 owns slot 1 (binary, PRIORITY) and waits on slot 2 (counting); tasks 2 and 3 queue at slot 1.
fn small_tables() -> Vec<u8> {
    let mut tables = vec![0; LENGTH];
    let obtain = |caller, id| Call::Obtain { caller, id, options: 0, timeout: 5 };
    for call in [
        Call::Start { slots: 3, priorities: vec![5, 6, 6] },
        Call::create(1, 1, 0, 20),
        Call::Create { caller: 1, name: 2, count: 0, attributes: 0, maximum: 12 },
        obtain(2, 65537),
        obtain(3, 65537),
        obtain(1, 65538),
    ] {
        Model.call(&mut tables, &call);
    }
    assert!(read(&tables).is_some(), "the tables that calls made agree");
    tables
}

/// Both tests for 25 have to say `wanted` of the small tables after the edits.
fn edited(edits: &[(usize, u32)], wanted: bool) {
    let mut tables = small_tables();
    for &(at, number) in edits {
        set_word(&mut tables, at, number);
    }
    let named: Vec<_> = edits.iter().map(|&(at, number)| (layout::word_name(at), number)).collect();
    assert_eq!(read(&tables).is_some(), wanted, "the model on {named:?}");
    assert_eq!(agrees(&tables), wanted, "in place on {named:?}");
}

#[test]
fn layout_has_its_length_and_byte_order() {
    assert_eq!((READY, SEQUENCE, WORDS, LENGTH), (2754, 2755, 2787, 11148));
    let tables = small_tables();
    assert_eq!(&tables[..8], &[0, 0, 0, 3, 0, 0, 0, 3]);
    assert_eq!((task_at(1), slot_at(0), slot_at(63) + 41), (2, 130, READY));
    let first: Vec<u32> = (slot_at(0)..slot_at(0) + 12).map(|at| word(&tables, at)).collect();
    assert_eq!(first, [1, 1, 1, 20, 0, 1, 1, 1, 2, 2, 3, 0]);
    assert_eq!(word(&tables, slot_at(1) + MAXIMUM), 12);
    let waits: Vec<u32> = (task_at(2)..task_at(3)).map(|at| word(&tables, at)).collect();
    assert_eq!(waits, [6, 100, 65537, 5]);
    let mut equals = equal_tables();
    assert_eq!(sequence(&equals), [4, 1, 4, 2, 3, 0, 0]);
    Model.call(&mut equals, &Call::Obtain { caller: 4, id: 65537, options: 0, timeout: u32::MAX });
    assert_eq!(sequence(&equals), [3, 1, 2, 3, 0, 0, 0]);
}

/// Five equals, of whom 1, 4, 2 and 3 are ready in this order.
fn equal_tables() -> Vec<u8> {
    let mut tables = vec![0; LENGTH];
    let obtain = |caller| Call::Obtain { caller, id: 65537, options: 0, timeout: 5 };
    for call in [
        Call::Start { slots: 1, priorities: vec![7; 5] },
        Call::create(1, 1, 0, 0),
        obtain(2),
        obtain(3),
        obtain(5),
        Call::Release { caller: 0, id: 65537 },
        Call::Release { caller: 0, id: 65537 },
    ] {
        Model.call(&mut tables, &call);
    }
    tables
}

/// The sequence's length and its first places.
fn sequence(tables: &[u8]) -> Vec<u32> {
    (READY..READY + 7).map(|at| word(tables, at)).collect()
}

#[test]
fn sequence_rules() {
    let altered = |words: [u32; 7], wanted: bool| {
        let mut tables = equal_tables();
        (READY..).zip(words).for_each(|(at, number)| set_word(&mut tables, at, number));
        assert_eq!(read(&tables).is_some(), wanted, "the model on {words:?}");
        assert_eq!(agrees(&tables), wanted, "in place on {words:?}");
    };
    // Any order will do.
    altered([4, 1, 2, 3, 4, 0, 0], true);
    altered([4, 4, 3, 2, 1, 0, 0], true);
    // A waiting task, one twice, one missing, none, one above N.
    altered([5, 1, 4, 2, 3, 5, 0], false);
    altered([4, 1, 5, 2, 3, 0, 0], false);
    altered([5, 1, 4, 2, 3, 1, 0], false);
    altered([4, 1, 4, 4, 3, 0, 0], false);
    altered([3, 1, 4, 2, 0, 0, 0], false);
    altered([0, 0, 0, 0, 0, 0, 0], false);
    altered([5, 1, 4, 2, 3, 0, 0], false);
    altered([5, 1, 0, 4, 2, 3, 0], false);
    altered([5, 1, 4, 2, 3, 6, 0], false);
    altered([4, 1, 33, 2, 3, 0, 0], false);
    altered([4, 1, 36, 2, 3, 0, 0], false);
    altered([4, 1, u32::MAX, 2, 3, 0, 0], false);
    // The length, and what lies behind it.
    altered([3, 1, 4, 2, 3, 0, 0], false);
    altered([4, 1, 4, 2, 3, 0, 1], false);
    altered([4, 1, 4, 2, 3, 5, 0], false);
    altered([33, 1, 4, 2, 3, 0, 0], false);
    altered([u32::MAX, 1, 4, 2, 3, 0, 0], false);
    let mut last = equal_tables();
    set_word(&mut last, WORDS - 1, 1);
    assert_eq!((read(&last).is_some(), agrees(&last)), (false, false), "the last word");
    // Before start there is no sequence.
    for at in [READY, SEQUENCE, WORDS - 1] {
        let mut tables = vec![0; LENGTH];
        assert!(agrees(&tables));
        set_word(&mut tables, at, 1);
        assert_eq!((read(&tables).is_some(), agrees(&tables)), (false, false), "word {at}");
    }
}

#[test]
fn task_rules() {
    edited(&[], true);
    edited(&[(task_at(2), 0)], false);
    edited(&[(task_at(2), 256)], false);
    // Task 3 queues behind task 2, whatever their priorities are.
    edited(&[(task_at(3), 255)], true);
    edited(&[(task_at(3), 5)], true);
    edited(&[(task_at(2) + 1, 0)], false);
    edited(&[(task_at(2) + 2, 65538)], false);
    edited(&[(task_at(2) + 3, 0)], true);
    edited(&[(task_at(2) + 3, u32::MAX)], true);
    edited(&[(task_at(4), 1)], false);
    edited(&[(0, 4)], false);
    // A fourth task is ready, and the only one.
    let fourth = [(0, 4), (task_at(4), 1), (READY, 1), (SEQUENCE, 4)];
    edited(&fourth, true);
    edited(&fourth[..2], false);
    edited(&fourth[2..], false);
    let with = |at: usize, number: u32| [&fourth[..], &[(at, number)]].concat();
    edited(&with(task_at(4) + 1, 13), true);
    edited(&with(task_at(4) + 1, 12), false);
    edited(&with(task_at(4) + 3, 1), false);
    edited(&with(task_at(4) + 1, 100), false);
}

#[test]
fn slot_rules() {
    let (binary, counting, free) = (slot_at(0), slot_at(1), slot_at(2));
    edited(&[(1, 0)], false);
    edited(&[(1, 64)], true);
    edited(&[(1, 65)], false);
    edited(&[(1, 1)], false);
    edited(&[(binary + 1, 2)], false);
    edited(&[(binary + 2, 0)], false);
    edited(&[(binary + 3, 16)], true);
    edited(&[(binary + 3, 4)], false);
    edited(&[(binary + 3, 48)], false);
    edited(&[(binary + 3, 84)], true);
    for attributes in [64, 68, 80, 96, 100, 116] {
        edited(&[(binary + 3, attributes)], false);
    }
    edited(&[(counting + 3, 84), (counting + 7, 1)], false);
    edited(&[(counting + 3, 84), (counting + 5, 3), (counting + 6, 1), (counting + 7, 1)], true);
    edited(&[(binary + 4, 1)], false);
    edited(&[(binary + 5, 2)], false);
    edited(&[(binary + 5, 4)], false);
    edited(&[(binary + 5, 0), (binary + 6, 0)], false);
    edited(&[(binary + 6, 0)], false);
    edited(&[(binary + 6, u32::MAX)], true);
    edited(&[(counting + 3, 36)], false);
    edited(&[(counting + 3, 36), (counting + 7, 1)], true);
    edited(&[(counting + 5, 2), (counting + 6, 1)], false);
    edited(&[(free, 65535)], true);
    edited(&[(free, 65536)], false);
    edited(&[(free + 2, 1)], false);
    edited(&[(free + 1, 1), (free + 2, 1)], false);
    edited(&[(free, 1), (free + 1, 1), (free + 2, 1)], false);
    edited(&[(free, 1), (free + 1, 1), (free + 2, 1), (free + 7, 1)], true);
    edited(&[(free, 1), (free + 1, 1), (free + 2, 1), (free + 4, u32::MAX), (free + 7, u32::MAX)], true);
    edited(&[(slot_at(3), 1)], false);
}

#[test]
fn maximum_rules() {
    let (binary, counting, free) = (slot_at(0), slot_at(1), slot_at(2));
    for (at, maximum, wanted) in [
        (binary, 0, false),
        (binary, 2, false),
        (binary, u32::MAX, false),
        (counting, 0, false),
        (counting, 1, true),
        (counting, u32::MAX, true),
        (free, 1, false),
        (free, u32::MAX, false),
        (slot_at(3), 1, false),
        (slot_at(63), 1, false),
    ] {
        edited(&[(at + MAXIMUM, maximum)], wanted);
    }
    let live = |attributes: u32, count: u32, maximum: u32| {
        let numbers = [1, 1, 9, attributes, count, 0, 0, maximum];
        (free..).zip(numbers).collect::<Vec<(usize, u32)>>()
    };
    for (attributes, count, maximum, wanted) in [
        (0, 12, 12, true),
        (4, 12, 13, true),
        (0, 12, 11, false),
        (4, u32::MAX, u32::MAX - 1, false),
        (0, u32::MAX - 1, u32::MAX - 1, true),
        (32, 1, 1, true),
        (32, 0, 1, true),
        (36, 1, 2, false),
        (32, 2, 2, false),
        (16, 1, 1, true),
        (20, 1, 2, false),
        (16, 2, 2, false),
        (84, 1, 1, true),
        (84, 1, 2, false),
        (84, 2, 2, false),
    ] {
        edited(&live(attributes, count, maximum), wanted);
    }
}

#[test]
fn queue_rules() {
    let (binary, counting) = (slot_at(0), slot_at(1));
    // A queue may stand in any order, with PRIORITY too.
    edited(&[(binary + 9, 3), (binary + 10, 2)], true);
    edited(&[(binary + 9, 3), (binary + 10, 2), (task_at(2), 5), (task_at(3), 255)], true);
    edited(&[(binary + 9, 3), (binary + 10, 2), (binary + 3, 84)], true);
    edited(&[(binary + 10, 2)], false);
    edited(&[(binary + 8, 3), (binary + 11, 2)], false);
    edited(&[(binary + 8, 1)], false);
    edited(&[(binary + 8, 1), (binary + 10, 0)], false);
    edited(&[(binary + 8, 33)], false);
    edited(&[(binary + 11, 1)], false);
    edited(&[(counting + 9, 0)], false);
    edited(&[(counting + 9, 4)], false);
    edited(&[(counting + 9, u32::MAX)], false);
    // Generation and identifiers waited on move together.
    let moved = 65535 * 65536 + 1;
    edited(&[(binary, 65535)], false);
    edited(&[(binary, 65535), (task_at(2) + 2, moved), (task_at(3) + 2, moved)], true);
}

#[test]
fn other_lengths_never_agree() {
    let mut call_on = |length: usize| {
        let mut tables = small_tables();
        tables.resize(length, 0);
        let answers =
            [Model.call(&mut tables.clone(), &Call::Tick), Tested.call(&mut tables, &Call::Tick)];
        assert_eq!(answers, [Answer::DISAGREE; 2], "length {length}");
    };
    (0..40).for_each(&mut call_on);
    (LENGTH - 9..LENGTH).for_each(&mut call_on);
    (LENGTH + 1..LENGTH + 41).for_each(&mut call_on);
}
