//! The sentences of document 02, No. 5, on this project's own code, and its numbers.

use compare::call::Call;
use compare::inplace::agreement::Tested;
use compare::itron::*;
use compare::layout::{Model, LENGTH};

#[test]
fn the_papers_sentences_hold_for_the_model() {
    cases::run(&mut Model).unwrap();
}

#[test]
fn the_papers_sentences_hold_in_place() {
    cases::run(&mut Tested).unwrap();
}

/// "E_SYS -5, E_NOMEM -10, E_RSATR -24, E_PAR -33, E_ID -35, E_NOEXS -52, E_OBJ -63, E_CTX -69, E_QOVR -73, E_DLT -81,
/// E_TMOUT -85, E_RLWAI -86"
#[test]
fn codes_have_the_papers_numbers() {
    assert_eq!([E_OK, E_SYS, E_NOMEM, E_RSATR, E_PAR, E_ID, E_NOEXS], [0, -5, -10, -24, -33, -35, -52]);
    assert_eq!([E_OBJ, E_CTX, E_QOVR, E_DLT, E_TMOUT, E_RLWAI], [-63, -69, -73, -81, -85, -86]);
    assert_eq!((WAITING_CODE, ENTRIES, MOST_MAPPED), (100, 64, 2_147_483_647));
}

fn started(subject: &mut dyn Itron, slots: u32, priorities: &[u32]) -> Vec<u8> {
    let mut tables = vec![0; LENGTH];
    let start = Call::Start { slots, priorities: priorities.to_vec() };
    assert_eq!(subject.call(&mut tables, &start).status, 0);
    tables
}

/// The code of a twai_sem with this tmout, on a semaphore with or without a count, by both ways.
fn codes_of_tmout(tmout: i32) -> [i32; 3] {
    let mut found = Vec::new();
    for subject in [&mut Model as &mut dyn Itron, &mut Tested] {
        for isemcnt in [0, 1] {
            let mut tables = started(subject, 1, &[1]);
            let mut list = [0; ENTRIES];
            let twai = Service::TwaiSem { caller: 1, semid: 1, tmout };
            found.push(subject.serve(&mut tables, &mut list, &twai).code());
            let create = Service::CreSem { caller: 1, semid: 1, sematr: 0, isemcnt, maxsem: 1 };
            assert_eq!(subject.serve(&mut tables, &mut list, &create).code(), E_OK);
            found.push(subject.serve(&mut tables, &mut list, &twai).code());
        }
    }
    let [without, at_0, again, at_1, rest @ ..] = found.as_slice() else { panic!("eight codes") };
    assert_eq!((again, rest), (without, &found[..4]), "both ways");
    [*without, *at_0, *at_1]
}

#[test]
fn tmout_is_exact_at_the_ends_and_around_0() {
    for tmout in [i32::MIN, i32::MIN + 1, -65536, -3, -2] {
        assert_eq!(codes_of_tmout(tmout), [E_PAR; 3], "tmout {tmout}");
    }
    assert_eq!(codes_of_tmout(-1), [E_NOEXS, WAITING_CODE, E_OK]);
    assert_eq!(codes_of_tmout(0), [E_NOEXS, E_TMOUT, E_OK]);
    for tmout in [1, 2, 65536, i32::MAX - 1, i32::MAX] {
        assert_eq!(codes_of_tmout(tmout), [E_NOEXS, WAITING_CODE, E_OK], "tmout {tmout}");
    }
}

/// Every pair of ends: done exactly where 0 <= isemcnt <= maxsem and maxsem is at least 1.
#[test]
fn isemcnt_and_maxsem_are_exact_at_the_ends_and_around_0() {
    let ends = [i32::MIN, i32::MIN + 1, -2, -1, 0, 1, 2, i32::MAX - 1, i32::MAX];
    for (isemcnt, maxsem) in ends.iter().flat_map(|&one| ends.map(|other| (one, other))) {
        let (count, maximum) = (i64::from(isemcnt), i64::from(maxsem));
        let fits = (0..=maximum).contains(&count) && maximum >= 1;
        for subject in [&mut Model as &mut dyn Itron, &mut Tested] {
            let mut tables = started(subject, 1, &[1]);
            let mut list = [0; ENTRIES];
            let create = Service::CreSem { caller: 1, semid: 1, sematr: 1, isemcnt, maxsem };
            let code = subject.serve(&mut tables, &mut list, &create).code();
            assert_eq!(code, if fits { E_OK } else { E_PAR }, "{isemcnt} of {maxsem}");
            let reference = Service::RefSem { caller: 0, semid: 1 };
            let semcnt = match subject.serve(&mut tables, &mut list, &reference) {
                Given::Reference { semcnt, .. } => semcnt,
                given => panic!("{given:?}"),
            };
            assert_eq!(semcnt, if fits { isemcnt } else { 0 }, "{isemcnt} of {maxsem}");
        }
    }
}

/// "tables or list that don't agree E_SYS": a list of any length but 64 does not agree, even all 0.
#[test]
fn no_other_length_of_a_list_agrees() {
    for length in 0..200 {
        for subject in [&mut Model as &mut dyn Itron, &mut Tested] {
            let mut tables = started(subject, 64, &[1]);
            let mut list = vec![0; length];
            let preq = Service::PreqSem { caller: 1, semid: 1 };
            let given = subject.serve(&mut tables, &mut list, &preq);
            let wanted = match length {
                64 => Given::Code { code: E_NOEXS, next: 1 },
                _ => Given::Code { code: E_SYS, next: 0 },
            };
            assert_eq!(given, wanted, "{length} entries");
        }
    }
}

/// "A function turns a task's answer into a code": every small number, and bits far above them.
#[test]
fn any_other_answer_is_e_sys() {
    for subject in [&mut Model as &mut dyn Itron, &mut Tested] {
        for answer in 0..70_000 {
            let wanted = match answer {
                0 | 100 => answer as i32,
                6 => -85,
                7 => -81,
                13 => -86,
                _ => -5,
            };
            assert_eq!(subject.code(answer), wanted, "answer {answer}");
            assert_eq!(subject.code(answer | 1 << 31), -5);
        }
    }
}

/// "-81 as u32" and its like are no answers: a code is not turned once more.
#[test]
fn codes_are_no_answers() {
    for code in [E_SYS, E_TMOUT, E_DLT, E_RLWAI] {
        assert_eq!([Model.code(code as u32), Tested.code(code as u32)], [E_SYS; 2]);
    }
}
