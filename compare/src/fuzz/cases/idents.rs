//! The cases of ident: what it finds, and how many slots it looks at for that.

use crate::call::Call;
use crate::fuzz::cases::{Case, Named};
use crate::fuzz::lent::Lent;
use crate::layout::{self, GENERATION, LENGTH};

pub const CASES: [Named; 6] = [
    ("ident gives the lowest slot of the name", |case| {
        case.start(3, &[1], 1);
        case.create(1, 8, 0, 0, [0, 65537, 1]);
        case.create(1, 9, 0, 0, [0, 65538, 1]);
        case.create(1, 9, 0, 0, [0, 65539, 1]);
        case.ident(9, [0, 65538, 1], 2);
        case.expect(Call::Delete { caller: 1, id: 65538 }, 0, 0, 1);
        case.ident(9, [0, 65539, 1], 3);
        case.ident(0, [3, 0, 1], 0);
    }),
    ("ident looks at no slot behind its match", |case| {
        case.start(64, &[1], 1);
        case.ident(1, [3, 0, 1], 64);
        for slot in 1..=64 {
            case.create(1, 100 + slot, 0, 0, [0, 65536 + slot, 1]);
        }
        for slot in 1..=64 {
            case.ident(100 + slot, [0, 65536 + slot, 1], slot);
        }
        case.ident(1, [3, 0, 1], 64);
        case.ident(u32::MAX, [3, 0, 1], 64);
        case.ident(0, [3, 0, 1], 0);
    }),
    ("ident looks at free slots too", |case| {
        case.start(5, &[1], 1);
        for name in 1..=3 {
            case.create(1, name, 0, 0, [0, 65536 + name, 1]);
        }
        case.expect(Call::Delete { caller: 1, id: 65537 }, 0, 0, 1);
        case.expect(Call::Delete { caller: 1, id: 65538 }, 0, 0, 1);
        case.ident(3, [0, 65539, 1], 3);
        case.ident(2, [3, 0, 1], 5);
        // A free slot's name is stored as 0, and yet name 0 looks at none.
        case.ident(0, [3, 0, 1], 0);
        // The count is the slot's number, whatever the generation.
        case.create(1, 3, 0, 0, [0, 2 * 65536 + 1, 1]);
        case.ident(3, [0, 2 * 65536 + 1, 1], 1);
    }),
    ("ident with a single slot", |case| {
        case.start(1, &[1], 1);
        case.ident(9, [3, 0, 1], 1);
        case.ident(0, [3, 0, 1], 0);
        case.create(1, 9, 0, 0, [0, 65537, 1]);
        case.ident(9, [0, 65537, 1], 1);
        case.ident(8, [3, 0, 1], 1);
    }),
    ("ident of damaged tables looks at no slot", |case| {
        two_named(case);
        layout::set_word(case.tables.bytes_mut(), layout::slot_at(2) + GENERATION, 65536);
        for name in [8, 9, 7, 0] {
            case.ident(name, [25, 0, 0], 0);
        }
        layout::set_word(case.tables.bytes_mut(), layout::slot_at(2) + GENERATION, 65535);
        case.ident(9, [0, 65538, 1], 2);
    }),
    ("ident of tables of another length looks at no slot", |case| {
        two_named(case);
        let mut bytes = case.tables.bytes().to_vec();
        bytes.push(0);
        for length in [0, 1, LENGTH - 4, LENGTH - 1, LENGTH + 1] {
            case.tables = Lent::new(&bytes[..length], length % 4);
            for name in [8, 9, 7, 0] {
                case.ident(name, [25, 0, 0], 0);
            }
        }
        case.tables = Lent::new(&bytes[..LENGTH], 1);
        case.ident(9, [0, 65538, 1], 2);
    }),
];

/// Names 8 and 9 in the first two of three slots.
fn two_named(case: &mut Case) {
    case.start(3, &[1], 1);
    case.create(1, 8, 0, 0, [0, 65537, 1]);
    case.create(1, 9, 0, 0, [0, 65538, 1]);
    case.ident(8, [0, 65537, 1], 1);
    case.ident(9, [0, 65538, 1], 2);
    case.ident(7, [3, 0, 1], 3);
}
