//! Timeouts: the in-place variant with one thing done wrong with them, which the comparison and the cases have to find.

mod wrong;

use compare::call::{Answer, Call, Manager};
use compare::fuzz::cases;
use compare::inplace::agreement::Tested;
use compare::layout::{set_word, task_at, word, ANSWER, TASKS, TICKS};
use compare::status::{FOREVER, STANDARD, STANDARD_LIMIT};
use wrong::{random_parts, Serve, Wrong};

/// A wait that begins with this timeout is stored with these ticks.
fn stored(tables: &mut [u8], call: &Call, of: u32, ticks: u32) -> Answer {
    let answer = Tested.call(tables, call);
    match *call {
        Call::Obtain { caller, timeout, .. } if timeout == of && answer.status == 100 => {
            set_word(tables, task_at(caller) + TICKS, ticks);
        }
        _ => {}
    }
    answer
}

/// An obtain with this timeout is made with other options.
fn with_options(tables: &mut [u8], call: &Call, of: u32, alter: fn(u32) -> u32) -> Answer {
    match *call {
        Call::Obtain { caller, id, options, timeout } if timeout == of => {
            Tested.call(tables, &Call::Obtain { caller, id, options: alter(options), timeout })
        }
        _ => Tested.call(tables, call),
    }
}

/// A tick leaves a wait that had so many ticks left with others.
fn ticked(tables: &mut [u8], call: &Call, of: u32, left: u32) -> Answer {
    let before = tables.to_vec();
    let answer = Tested.call(tables, call);
    if *call == Call::Tick && answer.status == 0 {
        let waits = |at: usize| word(&before, at + ANSWER) == 100 && word(&before, at + TICKS) == of;
        for at in (1..=word(tables, TASKS)).map(task_at).filter(|&at| waits(at)) {
            set_word(tables, at + TICKS, left);
        }
    }
    answer
}

const WRONG: [(&str, Serve); 12] = [
    ("timeout 0 for ever", |tables, call| stored(tables, call, 0, 0)),
    ("a standard limit of 499", |tables, call| stored(tables, call, 0, 499)),
    ("a standard limit of 501", |tables, call| stored(tables, call, 0, 501)),
    ("timeout 4294967295 stored as ticks left", |tables, call| stored(tables, call, u32::MAX, u32::MAX)),
    ("timeout 4294967295 the standard limit too", |tables, call| stored(tables, call, u32::MAX, 500)),
    ("timeout 4294967294 for ever too", |tables, call| stored(tables, call, u32::MAX - 1, 0)),
    ("timeout 500 for ever", |tables, call| stored(tables, call, 500, 0)),
    ("NO_WAIT that waits with timeout 0", |tables, call| {
        with_options(tables, call, 0, |options| options & !1)
    }),
    ("NO_WAIT that waits with timeout 4294967295", |tables, call| {
        with_options(tables, call, u32::MAX, |options| options & !1)
    }),
    ("timeout 0 that does not wait", |tables, call| with_options(tables, call, 0, |_| 1)),
    ("4294967295 ticks left for ever", |tables, call| ticked(tables, call, u32::MAX, u32::MAX)),
    ("0 ticks left for the standard limit", |tables, call| ticked(tables, call, 0, 499)),
];

/// "0 means the standard limit, 500 ticks, and 4294967295 means for ever"
#[test]
fn timeouts_have_the_papers_numbers() {
    assert_eq!([STANDARD, STANDARD_LIMIT, FOREVER], [0, 500, 4_294_967_295]);
}

#[test]
fn wrong_timeouts_are_found_at_random() {
    for (what, serve) in WRONG {
        let found = random_parts(&mut Wrong(serve)).expect_err(what);
        assert!(matches!(found.call, Call::Obtain { .. } | Call::Tick), "{what}: {found}");
    }
}

#[test]
fn wrong_timeouts_are_found_by_the_cases() {
    for (what, serve) in WRONG {
        cases::run(&mut Wrong(serve)).expect_err(what);
    }
}

#[test]
fn wrong_ticks_are_named() {
    let found = random_parts(&mut Wrong(WRONG[0].1)).expect_err("the comparison finds it");
    let said = found.memory.expect("a word differs");
    assert!(said.ends_with(" ticks left: independent 500, library 0"), "{said}");
}
