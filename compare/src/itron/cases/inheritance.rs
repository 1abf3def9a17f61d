//! What No. 8 of document 02 says of these calls: a PRIORITY semaphore serves by working priorities, and lends nothing itself.

use super::{Case, Named};
use crate::call::Call;
use crate::itron::lent::Lending;
use crate::itron::*;
use crate::layout::{word, SEQUENCE};
use crate::status::FOREVER;

fn wait(caller: u32, id: u32) -> Call {
    Call::Obtain { caller, id, options: 0, timeout: FOREVER }
}

/// Tasks 1 and 2 wait for semid 1 in this order, and 3 for the Classic semaphore of these attributes that 1 owns; 4 is next.
fn boosted(case: &mut Case, sematr: u32, attributes: u32) {
    case.lent = Lending::blank(1);
    case.start(2, &[30, 20, 10, 1]);
    case.call(Call::create(1, 9, 0, attributes), 0, 65537, 4);
    case.cre(4, 1, (sematr, 0, 9), E_OK, 4);
    case.wai(1, 1, 100, 4);
    case.wai(2, 1, 100, 4);
    case.call(wait(3, 65537), 100, 0, 4);
}

pub const CASES: [Named; 3] = [
    ("sig_sem serves by working priorities", |case| {
        for (sematr, attributes, first) in [(0, 84, 1), (0, 20, 1), (1, 84, 1), (1, 20, 2)] {
            boosted(case, sematr, attributes);
            case.sig(0, 1, E_OK, 4);
            case.answer(first, E_OK);
            case.answer(3 - first, 100);
        }
    }),
    ("del_sem wakes by working priorities", |case| {
        for (sematr, attributes, first) in [(0, 84, 1), (0, 20, 1), (1, 84, 1), (1, 20, 2)] {
            boosted(case, sematr, attributes);
            case.del(4, 1, E_OK, 4);
            let found = [1, 2].map(|place| word(case.lent.tables.bytes(), SEQUENCE + place));
            case.check("the ready sequence", [first, 3 - first], found);
        }
    }),
    ("a waiter of wai_sem lends nothing, and what it is lent stays with it", |case| {
        case.start(2, &[10, 20, 30]);
        case.cre(3, 1, (1, 1, 1), E_OK, 1);
        case.wai(3, 1, E_OK, 1);
        case.call(Call::create(1, 9, 0, 84), 0, 65538, 1);
        // Task 1 waits for what 3 has taken, and nobody works for it.
        case.wai(1, 1, 100, 2);
        case.call(wait(2, 65538), 100, 0, 3);
        case.sig(3, 1, E_OK, 1);
    }),
];
