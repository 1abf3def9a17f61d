//! What a comparison has to have seen of the ends of ranges, and of refusals where several apply.

use crate::itron::seen::Seen;
use crate::itron::*;
use crate::model::Machine;

/// Refusals that go before others, and numbers that alone are out of their range.
const ORDERS: [&str; 13] = [
    "E_CTX before E_ID for the semid",
    "cre_sem E_ID for the semid before E_PAR",
    "twai_sem E_ID for the semid before E_PAR",
    "E_OBJ before E_RSATR",
    "E_OBJ before E_PAR",
    "E_RSATR before E_PAR",
    "E_RSATR before E_NOMEM",
    "E_PAR before E_NOMEM",
    "E_PAR before E_NOEXS",
    "E_PAR for isemcnt below 0 alone",
    "E_PAR for maxsem below 1 alone",
    "E_PAR for isemcnt above maxsem alone",
    "E_PAR for tmout -2 on a semaphore",
];

pub fn orders() -> impl Iterator<Item = &'static str> {
    ORDERS.into_iter()
}

const CALLERS: [&str; 5] =
    ["caller 0", "caller N", "caller N+1", "caller 4294967295", "a waiting caller"];
const SEMIDS: [&str; 7] =
    ["semid 0", "semid 1", "semid S", "semid S+1", "semid 64", "semid 65", "semid 4294967295"];
const SIGNED: [i32; 6] = [i32::MIN, -2, -1, 0, 1, i32::MAX];
const SEMATRS: [u32; 4] = [0, 1, 2, u32::MAX];

/// Each call with each end of the ranges of its numbers, on tables and list that agree.
pub fn ends() -> Vec<(usize, String)> {
    let mut ends = Vec::new();
    for kind in 0..SERVICES.len() {
        ends.extend(CALLERS.map(|end| (kind, end.to_string())));
        if kind != 7 {
            ends.extend(SEMIDS.map(|end| (kind, end.to_string())));
        }
    }
    ends.extend(SEMATRS.map(|number| (0, format!("sematr {number}"))));
    for number in SIGNED {
        ends.extend(["isemcnt", "maxsem"].map(|name| (0, format!("{name} {number}"))));
        ends.push((5, format!("tmout {number}")));
    }
    ends
}

impl Seen {
    fn at_end(&mut self, service: &Service, name: &str, it_is: bool) {
        if it_is {
            *self.ends.entry((service.kind(), name.to_string())).or_default() += 1;
        }
    }

    /// Counts a call by the ends that its numbers are at.
    pub fn saw_ends(&mut self, machine: &Machine, service: &Service) {
        let (tasks, slots) = (machine.tasks.len() as u32, machine.slots.len() as u32);
        let caller = service.caller();
        let waits = (1..=tasks).contains(&caller) && machine.is_waiting(caller);
        let at =
            [caller == 0, caller == tasks && tasks > 0, caller == tasks + 1, caller == u32::MAX, waits];
        CALLERS.iter().zip(at).for_each(|(name, it_is)| self.at_end(service, name, it_is));
        if let Some(semid) = service.semid() {
            let last = semid == slots && slots > 0;
            let at = [semid == 0, semid == 1, last, semid == slots + 1];
            let far = [semid == 64, semid == 65, semid == u32::MAX];
            let at = at.into_iter().chain(far);
            SEMIDS.iter().zip(at).for_each(|(name, it_is)| self.at_end(service, name, it_is));
        }
        match *service {
            Service::CreSem { sematr, isemcnt, maxsem, .. } => {
                self.at_end(service, &format!("sematr {sematr}"), SEMATRS.contains(&sematr));
                self.at_end(service, &format!("isemcnt {isemcnt}"), SIGNED.contains(&isemcnt));
                self.at_end(service, &format!("maxsem {maxsem}"), SIGNED.contains(&maxsem));
            }
            Service::TwaiSem { tmout, .. } => {
                self.at_end(service, &format!("tmout {tmout}"), SIGNED.contains(&tmout));
            }
            _ => {}
        }
    }

    /// Counts a refusal by what else would have refused the call.
    pub fn saw_orders(&mut self, machine: &Machine, list: &[u32], service: &Service, code: i32) {
        let Some(semid) = service.semid() else { return };
        let slots = machine.slots.len() as u32;
        let outside = semid == 0 || semid > slots;
        self.happened("E_CTX before E_ID for the semid", code == E_CTX && outside);
        let mapped = !outside && list[semid as usize - 1] != 0;
        let for_semid = code == E_ID && service.caller() as usize <= machine.tasks.len();
        match *service {
            Service::CreSem { sematr, isemcnt, maxsem, .. } => {
                let out = isemcnt < 0 || maxsem < 1 || isemcnt > maxsem;
                self.happened("cre_sem E_ID for the semid before E_PAR", for_semid && out);
                self.happened("E_OBJ before E_RSATR", code == E_OBJ && sematr > 1);
                self.happened("E_OBJ before E_PAR", code == E_OBJ && sematr <= 1 && out);
                self.saw_create_orders(machine, [isemcnt, maxsem], code);
            }
            Service::TwaiSem { tmout, .. } => {
                self.happened("twai_sem E_ID for the semid before E_PAR", for_semid && tmout < -1);
                self.happened("E_PAR before E_NOEXS", code == E_PAR && !mapped);
                let late = code == E_PAR && mapped;
                self.happened("E_PAR for tmout -2 on a semaphore", late && tmout == -2);
            }
            _ => {}
        }
    }

    fn saw_create_orders(&mut self, machine: &Machine, [isemcnt, maxsem]: [i32; 2], code: i32) {
        let usable = machine.slots.iter().any(|slot| slot.live.is_none() && slot.generation < 65535);
        let faults = [
            ("E_PAR for isemcnt below 0 alone", isemcnt < 0),
            ("E_PAR for maxsem below 1 alone", maxsem < 1),
            ("E_PAR for isemcnt above maxsem alone", isemcnt > maxsem),
        ];
        let out = faults.iter().filter(|(_, it_is)| *it_is).count();
        self.happened("E_RSATR before E_PAR", code == E_RSATR && out > 0);
        self.happened("E_RSATR before E_NOMEM", code == E_RSATR && out == 0 && !usable);
        self.happened("E_PAR before E_NOMEM", code == E_PAR && !usable);
        for (name, it_is) in faults {
            self.happened(name, code == E_PAR && out == 1 && it_is);
        }
    }
}
