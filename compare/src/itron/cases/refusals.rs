//! The sentences about refusals, their order, and when a list agrees.

use super::{Case, Named};
use crate::call::Call;
use crate::itron::*;
use crate::layout::{set_word, slot_at, LENGTH, MAXIMUM};

pub const CASES: [Named; 9] = [
    ("-2 or less is E_PAR", |case| {
        case.start(2, &[10]);
        case.cre(1, 1, (0, 1, 1), E_OK, 1);
        for tmout in [-2, -3, i32::MIN + 1, i32::MIN] {
            case.twai(1, 1, tmout, E_PAR, 1);
            case.twai(1, 2, tmout, E_PAR, 1);
        }
        case.twai(1, 2, -1, E_NOEXS, 1);
        case.twai(1, 1, -1, E_OK, 1);
    }),
    ("a negative isemcnt, a maxsem below 1 or isemcnt above maxsem is E_PAR", |case| {
        case.start(4, &[10]);
        let least = i32::MIN;
        let refused = [(-1, 1), (-2, 1), (least, 1), (least, least), (-1, -1), (0, 0), (0, -1), (0, least)];
        for (isemcnt, maxsem) in refused.into_iter().chain([(1, 0), (2, 1), (i32::MAX, i32::MAX - 1)]) {
            case.cre(1, 1, (0, isemcnt, maxsem), E_PAR, 1);
        }
        case.cre(1, 1, (0, 0, 1), E_OK, 1);
        case.cre(1, 2, (0, 1, 1), E_OK, 1);
        case.cre(1, 3, (0, 0, i32::MAX), E_OK, 1);
        case.cre(1, 4, (0, i32::MAX, i32::MAX), E_OK, 1);
    }),
    ("sematr other than 0 or 1 is E_RSATR", |case| {
        case.start(2, &[10]);
        for sematr in [2, 3, 4, 16, 256, 1 << 31, u32::MAX] {
            case.cre(1, 1, (sematr, 0, 1), E_RSATR, 1);
            case.cre(1, 1, (sematr, -1, 0), E_RSATR, 1);
        }
        case.cre(1, 1, (0, 0, 1), E_OK, 1);
        case.cre(1, 2, (1, 0, 1), E_OK, 1);
    }),
    ("create E_OBJ, E_RSATR, E_PAR, E_NOMEM", |case| {
        case.start(2, &[10]);
        case.cre(1, 1, (0, 0, 1), E_OK, 1);
        case.call(Call::create(1, 9, 0, 0), 0, 65538, 1);
        case.cre(1, 1, (2, -1, 0), E_OBJ, 1);
        case.cre(1, 2, (2, -1, 0), E_RSATR, 1);
        case.cre(1, 2, (0, -1, 0), E_PAR, 1);
        case.cre(1, 2, (0, 0, 1), E_NOMEM, 1);
    }),
    ("caller, 0 or waiting E_CTX, above N E_ID, sig_sem and ref_sem allowing 0", |case| {
        case.start(2, &[10, 20]);
        case.cre(1, 1, (0, 0, 2), E_OK, 1);
        case.wai(1, 1, 100, 2);
        for (caller, code) in [(0, E_CTX), (1, E_CTX), (3, E_ID), (u32::MAX, E_ID)] {
            // A semid that is none and numbers out of their range come behind the caller.
            each_but_signal_and_reference(case, caller, 0, code, 2);
            each_but_signal_and_reference(case, caller, 1, code, 2);
        }
        case.sig(1, 0, E_CTX, 2);
        case.reference(1, 0, (E_CTX, 2, 0, 0));
        case.sig(3, 0, E_ID, 2);
        case.reference(u32::MAX, 1, (E_ID, 2, 0, 0));
        case.reference(0, 1, (E_OK, 2, 1, 0));
        case.sig(0, 1, E_OK, 1);
    }),
    ("then semid outside 1..S E_ID", |case| {
        case.start(3, &[10]);
        for semid in [0, 4, 64, 65, u32::MAX] {
            each_but_signal_and_reference(case, 1, semid, E_ID, 1);
            case.sig(0, semid, E_ID, 1);
            case.reference(0, semid, (E_ID, 1, 0, 0));
        }
        case.cre(1, 3, (0, 0, 1), E_OK, 1);
        for semid in [1, 2] {
            case.del(1, semid, E_NOEXS, 1);
            case.sig(1, semid, E_NOEXS, 1);
            case.wai(1, semid, E_NOEXS, 1);
            case.preq(1, semid, E_NOEXS, 1);
            case.twai(1, semid, 0, E_NOEXS, 1);
            case.reference(1, semid, (E_NOEXS, 1, 0, 0));
        }
    }),
    ("tables or list that don't agree E_SYS", |case| {
        case.start(2, &[10]);
        case.cre(1, 1, (0, 1, 1), E_OK, 1);
        let list = case.lent.list.entries().to_vec();
        for length in [0, 1, 63, 65, 128] {
            let mut other = list.clone();
            other.resize(length, 0);
            case.lend_list(&other);
            every_call_is_e_sys(case);
        }
        case.lend_list(&list);
        case.lent.tables.bytes_mut()[LENGTH - 1] ^= 1;
        every_call_is_e_sys(case);
        case.lent.tables.bytes_mut()[LENGTH - 1] ^= 1;
        case.preq(1, 1, E_OK, 1);
    }),
    ("each entry nothing or a live counting semaphore with a maximum of at most 2147483647, none twice", |case| {
        case.start(4, &[10]);
        case.cre(1, 1, (0, 1, 1), E_OK, 1);
        case.call(Call::create(1, 9, 0, 16), 0, 65538, 1);
        case.call(Call::create(1, 9, 0, 32), 0, 65539, 1);
        case.call(Call::create(1, 9, 0, 4), 0, 65540, 1);
        // Twice, binary, simple binary, too great a maximum, stale, no slot.
        for id in [65537, 65538, 65539, 65540, 1, 131073, 65541, 65536, u32::MAX] {
            case.set_entry(1, id);
            every_call_is_e_sys(case);
        }
        case.set_entry(1, 0);
        for place in [4, 63] {
            case.set_entry(place, 65537);
            every_call_is_e_sys(case);
            case.set_entry(place, 0);
        }
        for (maximum, code) in [(MOST_MAPPED + 1, E_SYS), (MOST_MAPPED, E_TMOUT)] {
            set_word(case.lent.tables.bytes_mut(), slot_at(3) + MAXIMUM, maximum);
            case.set_entry(1, 65540);
            case.preq(1, 2, code, if code == E_SYS { 0 } else { 1 });
        }
    }),
    ("on an unstarted machine the list is all nothing and agrees", |case| {
        for (caller, code) in [(0, E_CTX), (1, E_ID), (u32::MAX, E_ID)] {
            each_on_unstarted(case, caller, code);
        }
        case.sig(0, 1, E_ID, 0);
        case.reference(0, 1, (E_ID, 0, 0, 0));
        case.delete(0, 65537, 18, 0);
        case.delete(1, 65537, 4, 0);
        case.set_entry(0, 65537);
        every_call_is_e_sys(case);
        for length in [0, 63, 65] {
            case.lend_list(&vec![0; length]);
            every_call_is_e_sys(case);
        }
        case.lend_list(&[0; ENTRIES]);
        case.lent.tables.bytes_mut()[LENGTH - 1] = 1;
        every_call_is_e_sys(case);
    }),
];

/// The five calls that an interrupt may not make, with numbers out of their range.
fn each_but_signal_and_reference(case: &mut Case, caller: u32, semid: u32, code: i32, next: u32) {
    case.cre(caller, semid, (2, -1, 0), code, next);
    case.del(caller, semid, code, next);
    case.wai(caller, semid, code, next);
    case.preq(caller, semid, code, next);
    case.twai(caller, semid, -2, code, next);
}

fn each_on_unstarted(case: &mut Case, caller: u32, code: i32) {
    case.cre(caller, 1, (0, 0, 1), code, 0);
    case.del(caller, 1, code, 0);
    case.wai(caller, 1, code, 0);
    case.preq(caller, 1, code, 0);
    case.twai(caller, 1, 5, code, 0);
}

fn every_call_is_e_sys(case: &mut Case) {
    for caller in [0, 1, 9] {
        case.cre(caller, 2, (0, 0, 1), E_SYS, 0);
        case.del(caller, 1, E_SYS, 0);
        case.sig(caller, 1, E_SYS, 0);
        case.wai(caller, 1, E_SYS, 0);
        case.preq(caller, 1, E_SYS, 0);
        case.twai(caller, 1, -2, E_SYS, 0);
        case.reference(caller, 1, (E_SYS, 0, 0, 0));
        case.delete(caller, 65537, 25, 0);
    }
}
