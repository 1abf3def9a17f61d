//! The cases of timeouts: the standard limit, for ever, a number of ticks, and what the tables hold of them.

use crate::call::Call;
use crate::fuzz::cases::{Case, Named};
use crate::layout::{set_word, task_at, TICKS};
use crate::status::{FOREVER, STANDARD};

pub const CASES: [Named; 5] = [
    ("timeout 0 ends at the 500th tick", |case| {
        nine_tasks_of_whom_eight_wait(case);
        answers(case, [100, 100, 100, 100, 100, 100, 100, 100], 9);
        case.tick(8);
        answers(case, [100, 100, 100, 100, 100, 100, 100, 6], 8);
        ticks(case, 497, 8);
        answers(case, [100, 100, 100, 100, 100, 100, 100, 6], 8);
        // The 499th, the 500th and the 501st.
        case.tick(7);
        answers(case, [100, 100, 100, 100, 100, 100, 6, 6], 7);
        case.tick(3);
        answers(case, [100, 100, 6, 6, 6, 100, 6, 6], 3);
        case.tick(3);
        answers(case, [100, 100, 6, 6, 6, 6, 6, 6], 3);
        ticks(case, 99, 3);
        answers(case, [100, 100, 6, 6, 6, 6, 6, 6], 3);
        case.holds(task_at(1) + TICKS, 0);
        case.holds(task_at(2) + TICKS, u32::MAX - 1 - 600);
        case.interrupt(65537, 1);
        case.task(1, 0, 1);
    }),
    ("a wait is stored with its ticks, one for ever with 0", |case| {
        case.start(1, &[1, 2], 1);
        case.create(1, 9, 0, 4, [0, 65537, 1]);
        let named = [(0, 500), (4_294_967_295, 0)];
        let counted = [1, 2, 499, 500, 501, 1 << 31, u32::MAX - 1].map(|ticks| (ticks, ticks));
        for (timeout, ticks) in named.into_iter().chain(counted) {
            for options in [0, 2, u32::MAX - 1] {
                case.expect(Call::Obtain { caller: 1, id: 65537, options, timeout }, 100, 0, 2);
                case.holds(task_at(1) + TICKS, ticks);
                case.interrupt(65537, 1);
                case.holds(task_at(1) + TICKS, 0);
            }
        }
    }),
    ("NO_WAIT is deaf to the timeout", |case| {
        case.start(2, &[1, 2], 1);
        case.create(2, 9, 0, 16, [0, 65537, 1]);
        case.create(2, 9, 0, 0, [0, 65538, 1]);
        for options in [1, 3, u32::MAX] {
            for timeout in [STANDARD, 5, FOREVER] {
                for id in [65537, 65538] {
                    case.expect(Call::Obtain { caller: 1, id, options, timeout }, 13, 0, 1);
                }
            }
        }
        case.task(1, 0, 1);
        case.holds(task_at(1) + TICKS, 0);
    }),
    ("what can be had at once is had whatever the timeout", |case| {
        case.start(2, &[1, 2], 1);
        case.create(1, 9, 3, 0, [0, 65537, 1]);
        case.create(1, 9, 0, 16, [0, 65538, 1]);
        for timeout in [STANDARD, 1, FOREVER] {
            case.obtain(2, 65537, timeout, [0, 0, 1]);
            case.obtain(1, 65538, timeout, [0, 0, 1]);
        }
        case.obtain(2, 65537, STANDARD, [100, 0, 1]);
    }),
    ("ticks left mean what they meant", |case| {
        case.start(1, &[1, 2], 1);
        case.create(1, 9, 0, 0, [0, 65537, 1]);
        case.obtain(1, 65537, FOREVER, [100, 0, 2]);
        for (left, after) in [(0, 0), (u32::MAX, u32::MAX - 1), (500, 499), (2, 1)] {
            set_word(case.tables.bytes_mut(), task_at(1) + TICKS, left);
            case.tick(2);
            case.holds(task_at(1) + TICKS, after);
        }
        case.tick(1);
        case.task(1, 6, 1);
    }),
];

/// Task 1 waits for ever, 2 nearly so; 3, 4 and 5 with timeout 0, of whom two have option bits that say nothing; 6 a tick longer
/// than they, 7 a tick less, and 8 a single one.
fn nine_tasks_of_whom_eight_wait(case: &mut Case) {
    let waits = [
        (0, FOREVER),
        (0, u32::MAX - 1),
        (0, STANDARD),
        (2, STANDARD),
        (u32::MAX - 1, STANDARD),
        (0, 501),
        (0, 499),
        (0, 1),
    ];
    case.start(1, &[1, 2, 3, 4, 5, 6, 7, 8, 9], 1);
    case.create(9, 9, 0, 0, [0, 65537, 1]);
    for (caller, (options, timeout)) in (1..).zip(waits) {
        case.expect(Call::Obtain { caller, id: 65537, options, timeout }, 100, 0, caller + 1);
    }
}

/// The answers of tasks 1 to 8.
fn answers(case: &mut Case, wanted: [u32; 8], next: u32) {
    (1..).zip(wanted).for_each(|(task, answer)| case.task(task, answer, next));
}

/// So many ticks, after each of which this task is next.
fn ticks(case: &mut Case, count: usize, next: u32) {
    (0..count).for_each(|_| case.tick(next));
}
