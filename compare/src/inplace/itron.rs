//! The ITRON calls in place on the lent bytes and entries, a second way beside the model's. Codes are bare numbers here, so that
//! a wrong constant is not shared.

use crate::call::Answer;
use crate::inplace::agreement::{agrees, Tested};
use crate::inplace::{self, get, next_task, words_mut, Words};
use crate::itron::{Given, Itron, Service};
use crate::layout::*;
use crate::status::*;

/// What a call gives where tables or list do not agree.
fn disagree(service: &Service) -> Given {
    match service {
        Service::Delete { .. } => Given::Classic(Answer::new(25, 0, 0)),
        Service::RefSem { .. } => Given::Reference { code: -5, next: 0, exinf: 0, wtsk: 0, semcnt: 0 },
        _ => Given::Code { code: -5, next: 0 },
    }
}

/// Whether an interrupt may make a call, by the call's place in `SERVICES`.
const INTERRUPTS: [bool; 7] = [false, false, true, false, false, false, true];

/// The slot's first word, of an identifier that a list may have.
fn counting(words: &Words, id: u32) -> Option<usize> {
    let at = inplace::find(words, id)?;
    let fits =
        matches!(get(words, at + ATTRIBUTES), 0 | PRIORITY) && get(words, at + MAXIMUM) >> 31 == 0;
    fits.then_some(at)
}

/// Marks each slot that an entry names: one marked already is named twice.
fn list_agrees(words: &Words, list: &[u32]) -> bool {
    let slots = get(words, SLOTS) as usize;
    let mut marks = 0u64;
    list.len() == 64
        && list.iter().enumerate().all(|(place, &id)| {
            if id == 0 {
                return true;
            }
            let mark = 1u64.checked_shl((id & 0xFFFF).wrapping_sub(1)).unwrap_or(0);
            let known = place < slots && counting(words, id).is_some() && marks & mark == 0;
            marks |= mark;
            known
        })
}

fn refuse_caller(words: &Words, service: &Service) -> Option<i32> {
    let caller = service.caller();
    if caller == 0 {
        return (!INTERRUPTS[service.kind()]).then_some(-69);
    }
    if caller > get(words, TASKS) {
        return Some(-35);
    }
    (get(words, task_at(caller) + ANSWER) == WAITING).then_some(-69)
}

/// The refusals behind the semid's, of a semid whose entry is `id`.
fn refuse(service: &Service, id: u32) -> Option<i32> {
    if let Service::CreSem { sematr, isemcnt, maxsem, .. } = *service {
        let fits = 0 <= isemcnt && isemcnt <= maxsem && maxsem != 0;
        return match (id, sematr) {
            (1.., _) => Some(-63),
            (_, 2..) => Some(-24),
            _ => (!fits).then_some(-33),
        };
    }
    let late = matches!(*service, Service::TwaiSem { tmout, .. } if tmout < -1);
    if late {
        return Some(-33);
    }
    (id == 0).then_some(-52)
}

/// Makes the call behind all refusals but those of the semaphore itself.
fn perform(words: &mut Words, entry: &mut u32, service: &Service) -> i32 {
    let id = *entry;
    let mut obtain =
        |caller, options, timeout| match inplace::obtain(words, caller, id, options, timeout).status {
            UNSATISFIED => -85,
            status => status as i32,
        };
    match *service {
        Service::CreSem { caller, semid, sematr, isemcnt, maxsem } => {
            let (count, maximum) = (isemcnt as u32, maxsem as u32);
            let made = inplace::create(words, caller, semid, count, sematr << 2, maximum);
            *entry = made.value;
            if made.value == 0 {
                -10
            } else {
                0
            }
        }
        Service::DelSem { caller, .. } => {
            *entry = 0;
            inplace::delete(words, caller, id).status as i32
        }
        Service::SigSem { caller, .. } => match inplace::release(words, caller, id).status {
            UNSATISFIED => -73,
            status => status as i32,
        },
        Service::WaiSem { caller, .. } => obtain(caller, 0, 4_294_967_295),
        Service::PreqSem { caller, .. } => obtain(caller, NO_WAIT, 0),
        // The 32 bits of -1 are those of the timeout for ever.
        Service::TwaiSem { caller, tmout, .. } => obtain(caller, u32::from(tmout == 0), tmout as u32),
        Service::RefSem { .. } | Service::Delete { .. } => 0,
    }
}

/// One call by its semid, on words and a list that agree.
fn by_semid(words: &mut Words, list: &mut [u32], semid: u32, service: &Service) -> i32 {
    if let Some(refusal) = refuse_caller(words, service) {
        return refusal;
    }
    if semid.wrapping_sub(1) >= get(words, SLOTS) {
        return -35;
    }
    let entry = &mut list[semid as usize - 1];
    match refuse(service, *entry) {
        Some(refusal) => refusal,
        None => perform(words, entry, service),
    }
}

fn delete(words: &mut Words, list: &mut [u32], caller: u32, id: u32) -> Given {
    let answer = inplace::delete(words, caller, id);
    if answer.status == SUCCESSFUL {
        if let Some(place) = list.iter().position(|&entry| entry == id) {
            list[place] = 0;
        }
    }
    Given::Classic(answer)
}

fn serve(words: &mut Words, list: &mut [u32], service: &Service) -> Given {
    if let Service::Delete { caller, id } = *service {
        return delete(words, list, caller, id);
    }
    let semid = service.semid().unwrap_or(0);
    let code = by_semid(words, list, semid, service);
    let next = next_task(words);
    if !matches!(service, Service::RefSem { .. }) {
        return Given::Code { code, next };
    }
    let at = if code == 0 { counting(words, list[semid as usize - 1]) } else { None };
    let (wtsk, semcnt) = match at {
        Some(at) => (get(words, at + QUEUED).min(1), get(words, at + COUNT)),
        None => (0, 0),
    };
    Given::Reference { code, next, exinf: 0, wtsk: wtsk as i32, semcnt: semcnt as i32 }
}

impl Itron for Tested {
    fn serve(&mut self, tables: &mut [u8], list: &mut [u32], service: &Service) -> Given {
        if !agrees(tables) {
            return disagree(service);
        }
        match words_mut(tables) {
            Some(words) if list_agrees(words, list) => serve(words, list, service),
            _ => disagree(service),
        }
    }

    fn code(&mut self, answer: u32) -> i32 {
        const CODES: [(u32, i32); 5] = [(0, 0), (6, -85), (7, -81), (13, -86), (100, 100)];
        CODES.iter().find(|(of, _)| *of == answer).map_or(-5, |(_, code)| *code)
    }
}
