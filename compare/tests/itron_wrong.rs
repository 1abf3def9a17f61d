//! Wrong variants of the ITRON calls on lists that agree, which the comparison has to find.

mod spoilt;

use compare::call::{Answer, Call, Manager};
use compare::inplace::agreement::Tested;
use compare::itron::comparison::Comparison;
use compare::itron::limits::limits;
use compare::itron::*;
use compare::layout::{
    set_word, slot_at, task_at, word, ATTRIBUTES, MAXIMUM, NAME, QUEUED, SLOTS, TASKS, TICKS,
};
use spoilt::{coded, found, found_both_ways, found_by_cases, right, would, Wrong};

/// N and S of tables, 0 where these are too short.
fn tasks_and_slots(tables: &[u8]) -> [u32; 2] {
    [TASKS, SLOTS].map(|at| word(tables.get(..8).unwrap_or(&[0; 8]), at))
}

/// The first word of the slot that a semid in use is mapped to.
fn slot_of(list: &[u32], semid: u32) -> usize {
    slot_at((list[semid as usize - 1] & 0xFFFF) as usize - 1)
}

#[test]
fn the_semid_before_the_caller() {
    found_both_ways(|tables, list, service| {
        let given = right(tables, list, service);
        let [_, slots] = tasks_and_slots(tables);
        let outside = service.semid().is_some_and(|semid| semid == 0 || semid > slots);
        if given.code() == E_CTX && outside {
            coded(given, E_ID)
        } else {
            given
        }
    });
}

#[test]
fn a_caller_above_n_answered_e_ctx() {
    found_both_ways(|tables, list, service| {
        let given = right(tables, list, service);
        let [tasks, _] = tasks_and_slots(tables);
        if given.code() == E_ID && service.caller() > tasks {
            coded(given, E_CTX)
        } else {
            given
        }
    });
}

/// A call that tests its numbers before its semid.
fn numbers_before_the_semid(out: impl Fn(Service) -> bool + Copy) {
    found_both_ways(|tables, list, service| {
        let given = right(tables, list, service);
        let [tasks, _] = tasks_and_slots(tables);
        if given.code() == E_ID && service.caller() <= tasks && out(service) {
            coded(given, E_PAR)
        } else {
            given
        }
    });
}

#[test]
fn e_par_before_the_semids_e_id() {
    numbers_before_the_semid(|service| matches!(service, Service::TwaiSem { tmout: ..=-2, .. }));
    numbers_before_the_semid(|service| matches!(service, Service::CreSem { isemcnt: ..0, .. }));
    numbers_before_the_semid(|service| matches!(service, Service::CreSem { maxsem: ..1, .. }));
}

#[test]
fn interrupts_taken_for_others() {
    found_both_ways(|tables, list, service| match service {
        Service::SigSem { caller: 0, .. } if would(tables, list, service) != E_SYS => {
            coded(right(&mut tables.to_vec(), list, service), E_CTX)
        }
        _ => right(tables, list, service),
    });
    found_both_ways(|tables, list, service| match service {
        Service::PreqSem { caller: 0, semid } => {
            right(tables, list, Service::PreqSem { caller: 1, semid })
        }
        _ => right(tables, list, service),
    });
}

#[test]
fn a_waiting_caller_of_ref_sem_let_in() {
    found_both_ways(|tables, list, service| match service {
        Service::RefSem { semid, .. } if would(tables, list, service) == E_CTX => {
            right(tables, list, Service::RefSem { caller: 0, semid })
        }
        _ => right(tables, list, service),
    });
}

/// A create that tests one refusal before another: its numbers with the first one's mended show the second.
fn create_out_of_order(early: i32, mended: impl Fn(Service) -> Service + Copy) {
    found_both_ways(|tables, list, service| {
        let given = right(tables, list, service);
        let late = [E_OBJ, E_RSATR, E_PAR].contains(&given.code());
        let other = matches!(service, Service::CreSem { .. }) && late;
        if other && would(tables, list, mended(service)) == early {
            coded(given, early)
        } else {
            given
        }
    });
}

#[test]
fn refusals_of_cre_sem_out_of_order() {
    let with = |service, new_sematr: Option<u32>, counts: Option<(i32, i32)>| match service {
        Service::CreSem { caller, semid, sematr, isemcnt, maxsem } => {
            let (isemcnt, maxsem) = counts.unwrap_or((isemcnt, maxsem));
            Service::CreSem { caller, semid, sematr: new_sematr.unwrap_or(sematr), isemcnt, maxsem }
        }
        other => other,
    };
    create_out_of_order(E_PAR, |service| with(service, Some(0), None));
    create_out_of_order(E_NOMEM, |service| with(service, None, Some((0, 1))));
    create_out_of_order(E_NOMEM, |service| with(service, Some(0), None));
}

#[test]
fn e_obj_behind_e_rsatr() {
    found_both_ways(|tables, list, service| match (service, right(tables, list, service)) {
        (Service::CreSem { sematr: 2.., .. }, given) if given.code() == E_OBJ => coded(given, E_RSATR),
        (_, given) => given,
    });
}

/// A create whose new slot is altered.
fn created_otherwise(alter: impl Fn(&mut [u8], usize) + Copy) -> String {
    found_both_ways(|tables, list, service| {
        let before = list.to_vec();
        let given = right(tables, list, service);
        let made = list.iter().zip(&before).find(|(is, was)| **was == 0 && **is != 0);
        if let Some((id, _)) = made {
            alter(tables, slot_at((id & 0xFFFF) as usize - 1));
        }
        given
    })
}

#[test]
fn semaphores_made_otherwise() {
    let said = created_otherwise(|tables, at| set_word(tables, at + NAME, 1 + word(tables, at + NAME)));
    assert!(said.contains(" name: independent "), "{said}");
    let said = created_otherwise(|tables, at| set_word(tables, at + MAXIMUM, u32::MAX));
    assert!(said.contains(" maximum: independent "), "{said}");
    let said = created_otherwise(|tables, at| set_word(tables, at + ATTRIBUTES, 0));
    assert!(said.contains(" attributes: independent 4"), "{said}");
}

#[test]
fn ticks_counted_otherwise() {
    let late = |tables: &mut [u8], list: &mut [u32], service, by: u32| {
        let given = right(tables, list, service);
        if let (Service::TwaiSem { caller, tmout: 1.., .. }, WAITING_CODE) = (service, given.code()) {
            let at = task_at(caller) + TICKS;
            set_word(tables, at, word(tables, at).wrapping_add(by));
        }
        given
    };
    let said = found_both_ways(|tables, list, service| late(tables, list, service, 1));
    assert!(said.contains(" ticks left: independent "), "{said}");
    found_both_ways(|tables, list, service| late(tables, list, service, u32::MAX));
}

/// Waits that begin by these calls are stored with other ticks than 0.
fn for_ever_no_more(calls: impl Fn(Service) -> bool + Copy, ticks: u32) {
    let said = found_both_ways(found_by_cases(|tables, list, service| {
        let given = right(tables, list, service);
        if calls(service) && given.code() == WAITING_CODE {
            set_word(tables, task_at(service.caller()) + TICKS, ticks);
        }
        given
    }));
    assert!(said.contains(&format!(" ticks left: independent 0, library {ticks}")), "{said}");
}

#[test]
fn waits_for_ever_with_a_limit() {
    for ticks in [500, u32::MAX] {
        for_ever_no_more(|service| matches!(service, Service::WaiSem { .. }), ticks);
        for_ever_no_more(|service| matches!(service, Service::TwaiSem { tmout: -1, .. }), ticks);
    }
}

/// A poll handed on without NO_WAIT: timeout 0 is then the standard limit.
#[test]
fn polls_that_wait() {
    found_both_ways(found_by_cases(|tables, list, service| match service {
        Service::PreqSem { caller, semid } => {
            right(tables, list, Service::TwaiSem { caller, semid, tmout: 500 })
        }
        _ => right(tables, list, service),
    }));
    found_both_ways(found_by_cases(|tables, list, service| match service {
        Service::TwaiSem { caller, semid, tmout: 0 } => {
            right(tables, list, Service::TwaiSem { caller, semid, tmout: 500 })
        }
        _ => right(tables, list, service),
    }));
}

#[test]
fn how_many_wait_in_wtsk() {
    found_both_ways(|tables, list, service| match (service, right(tables, list, service)) {
        (Service::RefSem { semid, .. }, Given::Reference { code: E_OK, next, exinf, semcnt, .. }) => {
            let wtsk = word(tables, slot_of(list, semid) + QUEUED) as i32;
            Given::Reference { code: E_OK, next, exinf, wtsk, semcnt }
        }
        (_, given) => given,
    });
}

#[test]
fn polls_with_another_code() {
    for code in [E_RLWAI, E_QOVR, WAITING_CODE] {
        found_both_ways(|tables, list, service| {
            let given = right(tables, list, service);
            if given.code() == E_TMOUT {
                coded(given, code)
            } else {
                given
            }
        });
    }
}

#[test]
fn a_refused_cre_sem_that_writes_the_list() {
    found_both_ways(|tables, list, service| {
        let given = right(tables, list, service);
        if let (Service::CreSem { semid, .. }, E_NOMEM) = (service, given.code()) {
            list[semid as usize - 1] = u32::MAX;
        }
        given
    });
}

#[test]
fn a_sig_sem_that_writes_the_list() {
    let said = found_both_ways(|tables, list, service| {
        let given = right(tables, list, service);
        if let (Service::SigSem { semid, .. }, E_OK) = (service, given.code()) {
            list[semid as usize - 1] = 0;
        }
        given
    });
    assert!(said.contains("SigSem") && said.contains("of the list: independent "), "{said}");
}

#[test]
fn a_ref_sem_that_writes_the_tables() {
    let said = found_both_ways(|tables, list, service| {
        let given = right(tables, list, service);
        if let (Service::RefSem { semid, .. }, E_OK) = (service, given.code()) {
            let at = slot_of(list, semid) + NAME;
            set_word(tables, at, word(tables, at) ^ 1);
        }
        given
    });
    assert!(said.contains("RefSem") && said.contains(" name: independent "), "{said}");
}

/// Semids are slots: right as long as semaphores are made and deleted in the order of their semids.
#[test]
fn semids_taken_for_slots() {
    found(|tables, list, service| match service {
        Service::SigSem { caller, semid } if would(tables, list, service) == E_OK => {
            let at = slot_at(semid as usize - 1);
            let id = word(tables, at) << 16 | semid;
            let answer = Tested.call(tables, &Call::Release { caller, id });
            Given::Code { code: -(answer.status as i32), next: answer.next }
        }
        _ => right(tables, list, service),
    });
}

// ---- delete with the list

#[test]
fn a_mapping_kept_after_delete_with_the_list() {
    found_both_ways(|tables, list, service| {
        let before = list.to_vec();
        let given = right(tables, list, service);
        if matches!(service, Service::Delete { .. }) {
            list.copy_from_slice(&before);
        }
        given
    });
}

#[test]
fn a_mapping_dropped_by_a_refused_delete() {
    found_both_ways(|tables, list, service| {
        let given = right(tables, list, service);
        if let (Service::Delete { id, .. }, Given::Classic(Answer { status: 14 | 18, .. })) =
            (service, given)
        {
            list.iter_mut().filter(|entry| **entry == id).for_each(|entry| *entry = 0);
        }
        given
    });
}

#[test]
fn what_is_not_mapped_is_not_deleted() {
    found_both_ways(|tables, list, service| match service {
        Service::Delete { id, .. } if !list.contains(&id) && would(tables, list, service) == 0 => {
            coded(right(&mut tables.to_vec(), list, service), 4)
        }
        _ => right(tables, list, service),
    });
}

#[test]
fn delete_with_a_list_that_disagrees() {
    found(|tables, list, service| match service {
        Service::Delete { caller, id } if would(tables, list, service) == 25 => {
            Given::Classic(Tested.call(tables, &Call::Delete { caller, id }))
        }
        _ => right(tables, list, service),
    });
}

// ---- the code of an answer

#[test]
fn answers_with_another_code() {
    let variants: [fn(u32) -> i32; 4] = [
        |answer| if answer == 13 { E_QOVR } else { Tested.code(answer) },
        |answer| if answer == 100 { E_SYS } else { Tested.code(answer) },
        |answer| if answer == 5 { E_NOMEM } else { Tested.code(answer) },
        |answer| Tested.code(answer & 0xFFFF),
    ];
    for code in variants {
        let mut subject = Wrong(right, code);
        let said = limits(&mut Comparison::new(&mut subject)).expect_err("the comparison finds it");
        assert!(said.starts_with("the code of answer "), "{said}");
    }
}
