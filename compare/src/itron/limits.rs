//! Every call with the ends of every range, each on its own copy of several tables and lists.

use crate::call::{Call, Manager};
use crate::itron::comparison::Comparison;
use crate::itron::generate::{COUNTS, SEMATRS, TMOUTS};
use crate::itron::lent::Lending;
use crate::itron::{Itron, Service, ENTRIES};
use crate::layout::{self, Model, LENGTH};
use crate::model::Machine;
use crate::state::comparison::Compared;
use crate::status::SUCCESSFUL;

/// Tables and list by calls on a blank machine.
struct Made {
    tables: Vec<u8>,
    list: Vec<u32>,
}

impl Made {
    fn started(slots: u32, priorities: &[u32]) -> Self {
        let mut made = Made { tables: vec![0; LENGTH], list: vec![0; ENTRIES] };
        made.call(Call::Start { slots, priorities: priorities.to_vec() });
        made
    }

    fn call(&mut self, call: Call) {
        let answer = Model.call(&mut self.tables, &call);
        assert_eq!(answer.status, SUCCESSFUL, "{call:?}");
    }

    fn serve(&mut self, service: Service) {
        let given = Model.serve(&mut self.tables, &mut self.list, &service);
        assert!(given.code() >= 0, "{service:?} gives {given:?}");
    }

    fn create(&mut self, semid: u32, sematr: u32, isemcnt: i32, maxsem: i32) {
        self.serve(Service::CreSem { caller: 1, semid, sematr, isemcnt, maxsem });
    }

    fn wait(&mut self, caller: u32, semid: u32, tmout: i32) {
        self.serve(Service::TwaiSem { caller, semid, tmout });
    }

    fn machine(&self) -> Machine {
        layout::read(&self.tables).expect("tables that calls made agree")
    }

    /// Compares one call on a copy.
    fn compare(&self, comparison: &mut Comparison, service: Service) -> Compared {
        let mut lent = Lending::new(&self.tables, &self.list, 0);
        comparison.serve(&mut lent, &service).map(|_| ())
    }
}

/// Tables and lists: unstarted; one slot; no slot free, of 4 and of 64; the last semid alone; nobody ready.
fn bases() -> Vec<Made> {
    let blank = Made { tables: vec![0; LENGTH], list: vec![0; ENTRIES] };
    vec![blank, one_slot(), no_slot(), all_slots(), last_semid(), nobody_ready()]
}

fn one_slot() -> Made {
    let mut made = Made::started(1, &[5]);
    made.create(1, 0, 1, 2);
    made
}

/// Semid 1 at 0 with two waiters, semid 2 at the greatest maximum, semid 4 free; the other slots are Classic's.
fn no_slot() -> Made {
    let mut made = Made::started(4, &[7, 3, 3, 9]);
    made.create(1, 1, 0, 1);
    made.create(2, 0, i32::MAX, i32::MAX);
    made.call(Call::create(1, 4, 0, 16));
    made.call(Call::create(1, 4, 1, 32));
    made.wait(3, 1, -1);
    made.wait(2, 1, i32::MAX);
    made
}

/// Semids 1 to 63 in use, and Classic's semaphore in the slot that is left.
fn all_slots() -> Made {
    let mut made = Made::started(64, &[9; 32]);
    made.call(Call::create(1, 64, 0, 16));
    for semid in (1..=63).rev() {
        made.create(semid, semid % 2, (semid % 3) as i32, 3);
    }
    (2..=31).for_each(|task| made.wait(task, task / 4 * 3 + 3, 0x1000 + task as i32));
    made
}

fn last_semid() -> Made {
    let mut made = Made::started(64, &[1, 2]);
    made.call(Call::create(2, 64, 0, 0));
    made.create(64, 0, 2, 12);
    made
}

fn nobody_ready() -> Made {
    let mut made = Made::started(2, &[4, 4]);
    made.create(2, 0, 0, i32::MAX);
    made.wait(1, 2, -1);
    made.wait(2, 2, 1);
    made
}

fn callers(machine: &Machine) -> Vec<u32> {
    let tasks = machine.tasks.len() as u32;
    let mut callers = vec![0, 1, tasks, tasks + 1, u32::MAX];
    callers.extend((1..=tasks).filter(|&task| machine.is_waiting(task)).take(1));
    callers.sort_unstable();
    callers.dedup();
    callers
}

fn semids(machine: &Machine) -> Vec<u32> {
    let slots = machine.slots.len() as u32;
    let mut semids = vec![0, 1, 2, slots, slots + 1, 63, 64, 65, u32::MAX];
    semids.sort_unstable();
    semids.dedup();
    semids
}

/// The calls of one caller on one semid.
fn calls(caller: u32, semid: u32) -> Vec<Service> {
    let mut calls = vec![
        Service::DelSem { caller, semid },
        Service::SigSem { caller, semid },
        Service::WaiSem { caller, semid },
        Service::PreqSem { caller, semid },
        Service::RefSem { caller, semid },
    ];
    calls.extend(waits(caller, semid));
    calls.extend(SEMATRS.into_iter().flat_map(|sematr| creates(caller, semid, sematr)));
    calls
}

fn waits(caller: u32, semid: u32) -> impl Iterator<Item = Service> {
    TMOUTS.into_iter().map(move |tmout| Service::TwaiSem { caller, semid, tmout })
}

/// A create with each isemcnt and each maxsem.
fn creates(caller: u32, semid: u32, sematr: u32) -> impl Iterator<Item = Service> {
    let of =
        move |isemcnt| COUNTS.map(|maxsem| Service::CreSem { caller, semid, sematr, isemcnt, maxsem });
    COUNTS.into_iter().flat_map(of)
}

/// Identifiers for Classic delete with the list: those of all slots, and some that name nothing.
fn ids(machine: &Machine) -> Vec<u32> {
    let slots = machine.slots.iter().enumerate();
    let of_slots = slots.map(|(index, slot)| crate::model::identifier(slot.generation, index));
    of_slots.chain([0, 1, 65536, 65537, u32::MAX]).collect()
}

/// Every call with every end, and answers turned into codes.
pub fn limits(comparison: &mut Comparison) -> Compared {
    for made in bases() {
        let machine = made.machine();
        for caller in callers(&machine) {
            for semid in semids(&machine) {
                for service in calls(caller, semid) {
                    made.compare(comparison, service)?;
                }
            }
            for id in ids(&machine) {
                made.compare(comparison, Service::Delete { caller, id })?;
            }
        }
    }
    codes(comparison)
}

/// The ends of the signed numbers by one caller, few enough for a record: where no slot is free, and where many are.
pub fn signed(comparison: &mut Comparison) -> Compared {
    for made in [no_slot(), last_semid()] {
        let slots = made.machine().slots.len() as u32;
        for semid in [1, 2, slots, slots + 1] {
            for service in waits(1, semid).chain(creates(1, semid, 0)) {
                made.compare(comparison, service)?;
            }
        }
    }
    Ok(())
}

/// Answers turned into codes: all small numbers, and some far above.
pub fn codes(comparison: &mut Comparison) -> Compared {
    let far = [1 << 8, 1 << 16, (1 << 16) + 6, 1 << 31, (1 << 31) + 7, u32::MAX - 1, u32::MAX];
    for answer in (0..=1000).chain(far) {
        comparison.code(answer)?;
    }
    Ok(())
}
