//! The comparison of the ITRON calls, with the in-place variant in the library's stead, and with the wrong ones that the request names
//! and others that let damaged lists through.

mod spoilt;

use compare::inplace::agreement::Tested;
use compare::itron::comparison::Comparison;
use compare::itron::limits::limits;
use compare::itron::*;
use compare::layout::{read, word, SLOTS, TASKS};
use compare::model::Class;
use spoilt::{coded, found, found_both_ways, found_by_cases, right, rounds, would};

#[test]
fn in_place_is_as_the_model() {
    let mut subject = Tested;
    let mut comparison = Comparison::new(&mut subject);
    limits(&mut comparison).unwrap_or_else(|difference| panic!("{difference}"));
    rounds(&mut comparison, 400).unwrap_or_else(|difference| panic!("{difference}"));
    assert_eq!(comparison.seen.gaps(), [""; 0]);
}

// ---- the seven that the request's must-fail edits name

#[test]
fn minus_2_waits_for_ever() {
    let said = found_both_ways(found_by_cases(|tables, list, service| match service {
        Service::TwaiSem { caller, semid, tmout: ..=-2 } => {
            right(tables, list, Service::WaiSem { caller, semid })
        }
        _ => right(tables, list, service),
    }));
    assert!(said.contains("TwaiSem") && said.contains("tmout: -"), "{said}");
}

#[test]
fn e_noexs_before_e_par() {
    found_both_ways(found_by_cases(|tables, list, service| match service {
        Service::TwaiSem { caller, semid, tmout: ..=-2 } => {
            let code = would(tables, list, Service::TwaiSem { caller, semid, tmout: 0 });
            let given = right(tables, list, service);
            if code == E_NOEXS {
                coded(given, code)
            } else {
                given
            }
        }
        _ => right(tables, list, service),
    }));
}

#[test]
fn a_mapping_kept_after_del_sem() {
    let said = found_both_ways(found_by_cases(|tables, list, service| {
        let before = list.to_vec();
        let given = right(tables, list, service);
        if matches!(service, Service::DelSem { .. }) {
            list.copy_from_slice(&before);
        }
        given
    }));
    assert!(said.contains("DelSem") && said.contains("of the list: independent 0"), "{said}");
}

#[test]
fn isemcnt_above_maxsem_let_in() {
    found_both_ways(found_by_cases(|tables, list, service| match service {
        Service::CreSem { caller, semid, sematr, isemcnt, maxsem: maxsem @ 1.. } => {
            let maxsem = maxsem.max(isemcnt);
            right(tables, list, Service::CreSem { caller, semid, sematr, isemcnt, maxsem })
        }
        _ => right(tables, list, service),
    }));
}

#[test]
fn sig_sem_at_the_maximum_e_ok() {
    let said = found_both_ways(found_by_cases(|tables, list, service| {
        let given = right(tables, list, service);
        if given.code() == E_QOVR {
            coded(given, E_OK)
        } else {
            given
        }
    }));
    assert!(said.contains("SigSem"), "{said}");
}

#[test]
fn ref_sem_refused_with_a_count() {
    found_both_ways(found_by_cases(|tables, list, service| match right(tables, list, service) {
        Given::Reference { code: code @ ..0, next, exinf, wtsk, .. } => {
            let count = word(tables.get(..4).unwrap_or(&[0; 4]), TASKS) as i32;
            Given::Reference { code, next, exinf, wtsk, semcnt: count }
        }
        given => given,
    }));
}

#[test]
fn one_identifier_twice_let_through() {
    found(found_by_cases(|tables, list, service| {
        let mut once = list.to_vec();
        for place in 0..once.len() {
            if once[..place].contains(&once[place]) {
                once[place] = 0;
            }
        }
        let twice = once != list;
        let given = right(tables, &mut once, service);
        if !twice {
            list.copy_from_slice(&once);
        }
        given
    }));
}

// ---- more of the list

/// Serves with the list that `alter` makes of a wrong one, and leaves the entries that were altered as they are.
fn let_through(alter: impl Fn(&[u8], &mut Vec<u32>)) -> String {
    found(|tables, list, service| {
        let mut altered = list.to_vec();
        alter(tables, &mut altered);
        if altered == list {
            return right(tables, list, service);
        }
        right(tables, &mut altered, service)
    })
}

#[test]
fn lists_of_another_length_let_through() {
    let said = let_through(|_, list| list.resize(ENTRIES, 0));
    assert!(said.contains(" entries: "), "{said}");
    let_through(|_, list| {
        if list.len() == 63 {
            list.push(0)
        }
    });
    let_through(|_, list| list.truncate(64));
}

#[test]
fn entries_behind_s_let_through() {
    let_through(|tables, list| {
        let slots = if tables.len() > 8 { word(tables, SLOTS) as usize } else { 64 };
        list.iter_mut().skip(slots).for_each(|entry| *entry = 0);
    });
}

/// Clears the entries of live semaphores that satisfy this.
fn without(tables: &[u8], list: &mut [u32], wrong: impl Fn(Class, u32) -> bool) {
    let Some(machine) = read(tables) else { return };
    for entry in list {
        let live = machine.semaphore(*entry);
        if live.is_some_and(|live| wrong(live.class, live.maximum)) {
            *entry = 0;
        }
    }
}

#[test]
fn other_classes_let_through() {
    let_through(|tables, list| without(tables, list, |class, _| class == Class::Binary));
    let_through(|tables, list| without(tables, list, |class, _| class == Class::SimpleBinary));
}

#[test]
fn maxima_above_2147483647_let_through() {
    let_through(|tables, list| without(tables, list, |_, maximum| maximum > MOST_MAPPED));
    let_through(|tables, list| without(tables, list, |_, maximum| maximum == MOST_MAPPED + 1));
}

#[test]
fn stale_identifiers_let_through() {
    let_through(|tables, list| {
        let Some(machine) = read(tables) else { return };
        list.iter_mut().filter(|entry| machine.find(**entry).is_none()).for_each(|entry| *entry = 0);
    });
}

#[test]
fn e_sys_with_a_next_task() {
    found(|tables, list, service| match right(tables, list, service) {
        Given::Code { code: E_SYS, .. } => Given::Code { code: E_SYS, next: 1 },
        given => given,
    });
}
