//! Managers with one thing done wrong, which the facts of the history have to find by themselves, without a model beside them.

mod runs;
mod wrong;

use compare::call::{Answer, Call, Manager};
use compare::history::Fact;
use compare::inplace::agreement::{Tested, Untested};
use compare::layout::*;
use runs::random_run;
use wrong::{Serve, Wrong};

/// The facts that document 02 asks for.
const FACTS: [Fact; 2] = [Fact::Account, Fact::Turn];
const RUNS: u64 = 40;

/// The first word of the slot that an identifier names, if it is live and not binary with an owner.
fn slot_of(tables: &[u8], id: u32) -> Option<usize> {
    let slots = (0..word(tables, SLOTS) as usize).filter(|index| *index as u32 + 1 == id % 65536);
    let live = |at: &usize| word(tables, at + LIVE) == 1 && word(tables, at + GENERATION) == id >> 16;
    slots.map(slot_at).find(live).filter(|at| word(tables, at + ATTRIBUTES) & 16 == 0)
}

fn is_fifo(tables: &[u8], at: usize) -> bool {
    word(tables, at + ATTRIBUTES) & 4 == 0
}

fn queue(tables: &[u8], at: usize) -> Vec<u32> {
    (0..word(tables, at + QUEUED) as usize).map(|place| word(tables, at + QUEUE + place)).collect()
}

fn set_queue(tables: &mut [u8], at: usize, queue: &[u32]) {
    (at + QUEUED..at + SLOT_WORDS).for_each(|field| set_word(tables, field, 0));
    set_word(tables, at + QUEUED, queue.len() as u32);
    (at + QUEUE..).zip(queue).for_each(|(field, &task)| set_word(tables, field, task));
}

fn add_to_count(tables: &mut [u8], at: usize, more: u32) {
    let count = word(tables, at + COUNT);
    set_word(tables, at + COUNT, count.wrapping_add(more));
}

/// A call as it should be, and then `alter` with the tables before and the slot, if it is a call of this kind with this status.
fn and_then(
    tables: &mut [u8],
    call: &Call,
    kind: usize,
    status: u32,
    alter: fn(&[u8], &mut [u8], usize),
) -> Answer {
    let before = tables.to_vec();
    let answer = Untested.call(tables, call);
    let id = match *call {
        Call::Release { id, .. } | Call::Obtain { id, .. } | Call::Flush { id, .. } => id,
        Call::Create { .. } => answer.value,
        _ => 0,
    };
    let at = slot_of(tables, id);
    if call.kind() == kind && answer.status == status {
        at.into_iter().for_each(|at| alter(&before, tables, at));
    }
    answer
}

/// A release of a FIFO queue that `order` has put in another order.
fn release_after(tables: &mut [u8], call: &Call, order: fn(&[u8], &mut [u32])) -> Answer {
    if let Call::Release { id, .. } = *call {
        if let Some(at) = slot_of(tables, id).filter(|&at| is_fifo(tables, at)) {
            let mut waiters = queue(tables, at);
            order(tables, &mut waiters);
            set_queue(tables, at, &waiters);
        }
    }
    Untested.call(tables, call)
}

/// The tasks whose waits have ended with this answer are given another.
fn answered(before: &[u8], tables: &mut [u8], was: u32, is: u32) {
    for at in (1..=word(before, TASKS)).map(task_at) {
        if word(before, at + ANSWER) == 100 && word(tables, at + ANSWER) == was {
            set_word(tables, at + ANSWER, is);
        }
    }
}

fn tick_and_then(tables: &mut [u8], call: &Call, alter: fn(&[u8], &mut [u8])) -> Answer {
    let before = tables.to_vec();
    let answer = Untested.call(tables, call);
    if *call == Call::Tick {
        alter(&before, tables);
    }
    answer
}

/// Releases that woke somebody.
fn woke(before: &[u8], at: usize) -> bool {
    word(before, at + QUEUED) > 0
}

const CREATE: usize = 1;
const OBTAIN: usize = 4;
const RELEASE: usize = 5;
const FLUSH: usize = 6;

const JOINS_IN_FRONT: Serve = |tables, call| {
    and_then(tables, call, OBTAIN, 100, |_, tables, at| {
        let mut waiters = queue(tables, at);
        if is_fifo(tables, at) {
            waiters.rotate_right(1);
        }
        set_queue(tables, at, &waiters);
    })
};

const WRONG: [(&str, Fact, Serve); 18] = [
    ("a release raises the count and also wakes", Fact::Account, |tables, call| {
        and_then(tables, call, RELEASE, 0, |before, tables, at| {
            add_to_count(tables, at, u32::from(woke(before, at)))
        })
    }),
    ("a grant does not lower the count", Fact::Account, |tables, call| {
        and_then(tables, call, OBTAIN, 0, |_, tables, at| add_to_count(tables, at, 1))
    }),
    ("a queue is served from the rear", Fact::Turn, |tables, call| {
        release_after(tables, call, |_, waiters| {
            if !waiters.is_empty() {
                waiters.rotate_right(1);
            }
        })
    }),
    ("a flush grants", Fact::Account, |tables, call| {
        and_then(tables, call, FLUSH, 0, |before, tables, _| answered(before, tables, 13, 0))
    }),
    ("a release wakes nobody and raises nothing", Fact::Account, |tables, call| {
        match (call, Untested.call(&mut tables.to_vec(), call)) {
            (Call::Release { .. }, answer) if answer.status == 0 => answer,
            _ => Untested.call(tables, call),
        }
    }),
    ("a tick ends a wait with 0", Fact::Account, |tables, call| {
        tick_and_then(tables, call, |before, tables| answered(before, tables, 6, 0))
    }),
    ("a waiter joins in front", Fact::Turn, JOINS_IN_FRONT),
    ("a FIFO queue is served by priority", Fact::Turn, |tables, call| {
        release_after(tables, call, |tables, waiters| {
            waiters.sort_by_key(|&task| word(tables, task_at(task) + PRIORITY_OF));
        })
    }),
    ("the second in the queue goes first where there are three", Fact::Turn, |tables, call| {
        release_after(tables, call, |_, waiters| {
            if waiters.len() >= 3 {
                waiters.swap(0, 1);
            }
        })
    }),
    ("a release raises the count past those that wait", Fact::Turn, |tables, call| {
        let before = tables.to_vec();
        let answer = Untested.call(tables, call);
        if let (&Call::Release { id, .. }, 0) = (call, answer.status) {
            if let Some(at) = slot_of(&before, id).filter(|&at| woke(&before, at)) {
                tables.copy_from_slice(&before);
                add_to_count(tables, at, 1);
            }
        }
        answer
    }),
    ("a release sends the first away and raises the count", Fact::Turn, |tables, call| {
        and_then(tables, call, RELEASE, 0, |before, tables, at| {
            answered(before, tables, 0, 13);
            add_to_count(tables, at, u32::from(woke(before, at)));
        })
    }),
    ("a flush ends waits as a tick does", Fact::Turn, |tables, call| {
        and_then(tables, call, FLUSH, 0, |before, tables, _| answered(before, tables, 13, 6))
    }),
    ("a tick ends waits as a flush does", Fact::Turn, |tables, call| {
        tick_and_then(tables, call, |before, tables| answered(before, tables, 6, 13))
    }),
    ("a delete ends waits with 0", Fact::Turn, |tables, call| {
        let before = tables.to_vec();
        let answer = Untested.call(tables, call);
        if let Call::Delete { .. } = call {
            answered(&before, tables, 7, 0);
        }
        answer
    }),
    ("a release that is refused raises the count", Fact::Account, |tables, call| {
        and_then(tables, call, RELEASE, 13, |_, tables, at| add_to_count(tables, at, 1))
    }),
    ("an obtain that is refused lowers the count", Fact::Account, |tables, call| {
        and_then(tables, call, OBTAIN, 13, |_, tables, at| add_to_count(tables, at, u32::MAX))
    }),
    ("a slot used again begins one too high", Fact::Account, |tables, call| {
        and_then(tables, call, CREATE, 0, |before, tables, at| {
            add_to_count(tables, at, u32::from(word(before, at + GENERATION) > 0))
        })
    }),
    ("a task that timed out stays in the queue", Fact::Account, |tables, call| {
        tick_and_then(tables, call, |before, tables| {
            for at in (0..word(before, SLOTS) as usize).map(slot_at) {
                set_queue(tables, at, &queue(before, at));
            }
        })
    }),
];

#[test]
fn wrong_managers_are_found_by_the_facts() {
    for (what, fact, serve) in WRONG {
        let found = (0..RUNS).find_map(|seed| random_run(Wrong(serve), seed, &FACTS).err());
        let broken = found.unwrap_or_else(|| panic!("{what}: not found"));
        assert_eq!(broken.fact, fact, "{what}: {broken}");
    }
}

#[test]
fn right_managers_pass_the_same_runs() {
    let every = [Fact::Account, Fact::Turn, Fact::Place];
    for seed in 0..RUNS {
        assert_eq!(random_run(Model, seed, &every), Ok(()), "seed {seed}");
        assert_eq!(random_run(Tested, seed, &every), Ok(()), "seed {seed}");
        assert_eq!(random_run(Untested, seed, &every), Ok(()), "seed {seed}");
    }
}

#[test]
fn a_waiter_in_front_is_found_by_its_place_too() {
    let found = (0..RUNS).find_map(|seed| random_run(Wrong(JOINS_IN_FRONT), seed, &[Fact::Place]).err());
    let said = found.expect("it is found").to_string();
    assert!(said.ends_with("joined with 1 ahead, in the tables with Some(0)"), "{said}");
}
