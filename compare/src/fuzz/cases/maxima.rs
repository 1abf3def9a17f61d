//! The cases of maxima: what create takes, where release stops, and what of them the tables hold.

use crate::call::Call;
use crate::fuzz::cases::{Case, Named};
use crate::layout::{set_word, slot_at, COUNT, MAXIMUM};
use crate::status::FOREVER;

pub const CASES: [Named; 7] = [
    ("a queue of twelve places", |case| {
        case.start(1, &[1], 1);
        case.create_up_to([1, 9, 11, 0, 12], [0, 65537, 1]);
        case.interrupt(65537, 1);
        case.release(0, 65537, [13, 0, 1]);
        case.release(1, 65537, [13, 0, 1]);
        case.obtain(1, 65537, FOREVER, [0, 0, 1]);
        case.interrupt(65537, 1);
        case.release(1, 65537, [13, 0, 1]);
        case.holds(slot_at(0) + COUNT, 12);
    }),
    ("a waiter is served whatever the maximum", |case| {
        case.start(1, &[1, 2], 1);
        case.create_up_to([1, 9, 0, 4, 1], [0, 65537, 1]);
        case.obtain(1, 65537, FOREVER, [100, 0, 2]);
        case.release(2, 65537, [0, 0, 1]);
        case.holds(slot_at(0) + COUNT, 0);
        case.release(2, 65537, [0, 0, 1]);
        case.release(2, 65537, [13, 0, 1]);
    }),
    ("maxima that create takes", |case| {
        case.start(6, &[1], 1);
        let taken = [[0, 0, 1], [1, 4, 1], [u32::MAX - 1, 0, u32::MAX - 1], [0, 4, u32::MAX]];
        for (slot, [count, attributes, maximum]) in (1..).zip(taken) {
            case.create_up_to([1, 9, count, attributes, maximum], [0, 65536 + slot, 1]);
        }
        case.create_up_to([1, 9, 0, 20, 1], [0, 65536 + 5, 1]);
        case.create_up_to([1, 9, 1, 36, 1], [0, 65536 + 6, 1]);
    }),
    ("maxima that create refuses", |case| {
        case.start(1, &[1], 1);
        for attributes in [0, 4, 16, 20, 32, 36] {
            case.create_up_to([1, 9, 0, attributes, 0], [10, 0, 1]);
            case.create_up_to([1, 9, 2, attributes, 1], [10, 0, 1]);
            case.create_up_to([1, 9, u32::MAX, attributes, u32::MAX - 1], [10, 0, 1]);
        }
        for attributes in [16, 20, 32, 36] {
            for (count, maximum) in [(0, 2), (1, 2), (2, 2), (1, u32::MAX), (0, 0x0100_0001)] {
                case.create_up_to([1, 9, count, attributes, maximum], [10, 0, 1]);
            }
        }
        case.create_up_to([1, 9, 13, 0, 12], [10, 0, 1]);
    }),
    ("10 has its old place", |case| {
        case.start(1, &[1], 1);
        case.create_up_to([0, 0, 5, 48, 0], [18, 0, 1]);
        case.create_up_to([2, 0, 5, 48, 0], [4, 0, 1]);
        case.create_up_to([1, 0, 5, 48, 0], [3, 0, 1]);
        case.create_up_to([1, 9, 5, 48, 0], [11, 0, 1]);
        case.create_up_to([1, 9, 5, 48, 4], [11, 0, 1]);
        case.create_up_to([1, 9, 5, 0, 5], [0, 65537, 1]);
        // The only slot is taken, and 10 goes before 5.
        case.create_up_to([1, 9, 5, 0, 0], [10, 0, 1]);
        case.create_up_to([1, 9, 5, 0, 4], [10, 0, 1]);
        case.create_up_to([1, 9, 1, 16, 2], [10, 0, 1]);
        case.create_up_to([1, 9, 5, 0, 5], [5, 0, 1]);
    }),
    ("a freed slot has no maximum", |case| {
        case.start(1, &[1], 1);
        case.create_up_to([1, 9, 0, 0, 12], [0, 65537, 1]);
        case.holds(slot_at(0) + MAXIMUM, 12);
        case.expect(Call::Delete { caller: 1, id: 65537 }, 0, 0, 1);
        case.holds(slot_at(0) + MAXIMUM, 0);
        case.create_up_to([1, 9, 1, 32, 1], [0, 131073, 1]);
        case.holds(slot_at(0) + MAXIMUM, 1);
    }),
    ("maxima that do not agree", |case| {
        case.start(2, &[1], 1);
        case.create_up_to([1, 9, 3, 0, 12], [0, 65537, 1]);
        for (maximum, status) in [(3, 0), (2, 25), (0, 25), (u32::MAX, 0), (12, 0)] {
            set_maximum(case, 0, maximum);
            case.expect(Call::Tick, status, 0, u32::from(status == 0));
        }
        set_maximum(case, 1, 1);
        case.expect(Call::Tick, 25, 0, 0);
        set_maximum(case, 1, 0);
        for (generation, attributes) in [(1, 16), (2, 32)] {
            let id = generation * 65536 + 2;
            case.create_up_to([1, 9, 1, attributes, 1], [0, id, 1]);
            for (maximum, status) in [(2, 25), (0, 25), (u32::MAX, 25), (1, 0)] {
                set_maximum(case, 1, maximum);
                case.expect(Call::Tick, status, 0, u32::from(status == 0));
            }
            case.expect(Call::Delete { caller: 1, id }, 0, 0, 1);
        }
    }),
];

fn set_maximum(case: &mut Case, index: usize, maximum: u32) {
    set_word(case.tables.bytes_mut(), slot_at(index) + MAXIMUM, maximum);
}
