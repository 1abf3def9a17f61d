//! Random calls with a list, weighted so that what matters really occurs.

use crate::fuzz::generate::{draw_caller, draw_id};
use crate::fuzz::rng::Rng;
use crate::itron::{Service, SERVICES};
use crate::model::Machine;

/// Weights of the calls, in the order of `SERVICES`: mixed, signals, waits.
const WEIGHTS: [[u32; SERVICES.len()]; 3] =
    [[26, 6, 20, 12, 10, 18, 10, 4], [18, 2, 50, 6, 4, 8, 6, 1], [20, 3, 10, 30, 4, 30, 6, 2]];

pub const SEMIDS: [u32; 5] = [0, 1, 64, 65, u32::MAX];
pub const COUNTS: [i32; 9] = [i32::MIN, -2, -1, 0, 1, 2, 12, i32::MAX - 1, i32::MAX];
pub const TMOUTS: [i32; 12] = [i32::MIN, -3, -2, -1, 0, 1, 2, 499, 500, 501, i32::MAX - 1, i32::MAX];
pub const SEMATRS: [u32; 8] = [0, 1, 2, 3, 4, 16, 1 << 31, u32::MAX];

/// A call of any kind, for tables and list as they are.
pub fn draw(rng: &mut Rng, machine: &Machine, list: &[u32]) -> Service {
    let weights = rng.pick(&WEIGHTS);
    let kind = rng.weighted(&weights);
    draw_kind(rng, machine, list, kind)
}

/// A call of the kind at this place in `SERVICES`.
pub fn draw_kind(rng: &mut Rng, machine: &Machine, list: &[u32], kind: usize) -> Service {
    let interrupts = if matches!(kind, 2 | 6) { 25 } else { 3 };
    let caller = draw_caller(rng, machine, interrupts);
    let semid = draw_semid(rng, machine, list, if kind == 0 { 15 } else { 85 });
    match kind {
        0 => draw_create(rng, caller, semid),
        1 => Service::DelSem { caller, semid },
        2 => Service::SigSem { caller, semid },
        3 => Service::WaiSem { caller, semid },
        4 => Service::PreqSem { caller, semid },
        5 => Service::TwaiSem { caller, semid, tmout: draw_tmout(rng) },
        6 => Service::RefSem { caller, semid },
        _ => Service::Delete { caller, id: draw_any_id(rng, machine, list) },
    }
}

/// A semid, `mapped` times in a hundred one that has a semaphore.
fn draw_semid(rng: &mut Rng, machine: &Machine, list: &[u32], mapped: usize) -> u32 {
    let slots = machine.slots.len() as u32;
    if slots == 0 || rng.chance(8) {
        let end = rng.pick(&SEMIDS);
        let any = rng.word();
        return rng.pick(&[end, end, slots, slots + 1, any]);
    }
    let has = rng.chance(mapped);
    let of_kind = |&semid: &u32| list.get(semid as usize - 1).is_some_and(|&id| (id != 0) == has);
    let fitting: Vec<u32> = (1..=slots).filter(of_kind).collect();
    if fitting.is_empty() {
        return rng.between(1, slots);
    }
    // The first few are drawn more often, so that queues grow.
    let few = fitting.len().min(3);
    if rng.chance(60) {
        fitting[rng.below(few)]
    } else {
        rng.pick(&fitting)
    }
}

fn draw_create(rng: &mut Rng, caller: u32, semid: u32) -> Service {
    let any = rng.word();
    let wrong = rng.pick(&SEMATRS);
    let sematr = rng.pick(&[0, 0, 0, 0, 0, 0, 1, 1, 1, 1, 1, 1, wrong, any]);
    let end = rng.pick(&COUNTS);
    let maxsem = rng.pick(&[1, 1, 2, 2, 3, 12, i32::MAX, i32::MAX - 1, end, any as i32]);
    let (below, above) = (maxsem.wrapping_sub(1), maxsem.wrapping_add(1));
    let other = rng.pick(&COUNTS);
    let isemcnt = rng.pick(&[0, 0, 0, 0, 0, 1, maxsem, maxsem, below, above, other]);
    Service::CreSem { caller, semid, sematr, isemcnt, maxsem }
}

fn draw_tmout(rng: &mut Rng) -> i32 {
    let (end, any) = (rng.pick(&TMOUTS), rng.word() as i32);
    rng.pick(&[-1, -1, 0, 0, 1, 1, 1, 2, 3, 5, end, end, any])
}

/// An identifier for Classic delete, often one of the list.
fn draw_any_id(rng: &mut Rng, machine: &Machine, list: &[u32]) -> u32 {
    let mapped: Vec<u32> = list.iter().copied().filter(|&id| id != 0).collect();
    match mapped.is_empty() || rng.chance(40) {
        true => draw_id(rng, machine),
        false => rng.pick(&mapped),
    }
}
