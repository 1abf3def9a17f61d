//! What has occurred in a comparison of the ITRON calls, and what has to.

mod faults;
mod numbers;

use std::collections::BTreeMap;

use crate::itron::*;
use crate::model::{Machine, Semaphore};
use crate::status::*;

/// Every code that document 02 gives each call, in the order of `SERVICES`; of Classic delete the statuses.
const CODES: [&[i32]; SERVICES.len()] = [
    &[E_OK, E_SYS, E_CTX, E_ID, E_OBJ, E_RSATR, E_PAR, E_NOMEM],
    &[E_OK, E_SYS, E_CTX, E_ID, E_NOEXS],
    &[E_OK, E_SYS, E_CTX, E_ID, E_NOEXS, E_QOVR],
    &[E_OK, WAITING_CODE, E_SYS, E_CTX, E_ID, E_NOEXS],
    &[E_OK, E_SYS, E_CTX, E_ID, E_NOEXS, E_TMOUT],
    &[E_OK, WAITING_CODE, E_SYS, E_CTX, E_ID, E_PAR, E_NOEXS, E_TMOUT],
    &[E_OK, E_SYS, E_CTX, E_ID, E_NOEXS],
    &[0, 4, 12, 14, 18, 25],
];

/// The codes of tasks' answers.
const TURNED: [i32; 6] = [E_OK, WAITING_CODE, E_TMOUT, E_DLT, E_RLWAI, E_SYS];

/// Happenings besides the codes that a run has to have seen.
const HAPPENINGS: [&str; 38] = [
    "cre_sem in a slot that was used before",
    "cre_sem gave generation 65535",
    "cre_sem with TA_TPRI",
    "cre_sem refused with 64 live slots",
    "cre_sem refused with a retired slot free",
    "del_sem woke waiters",
    "del_sem of a semaphore that Classic create made",
    "del_sem of generation 65535",
    "sig_sem by an interrupt woke a task",
    "sig_sem woke the first of two",
    "sig_sem woke one that is not first in its queue",
    "sig_sem woke one that is first by inheritance alone",
    "del_sem woke in another order than arrival",
    "sig_sem refused at maximum 2147483647",
    "sig_sem refused at maximum 1",
    "sig_sem refused at a maximum between",
    "wai_sem made the last ready task wait",
    "a wait of wai_sem or of twai_sem with -1 outlasted the standard limit",
    "twai_sem began a wait for ever",
    "twai_sem began a wait of 1 tick",
    "twai_sem began a wait of 500 ticks",
    "twai_sem began a wait of 2147483647 ticks",
    "twai_sem polled and got it",
    "ref_sem by an interrupt",
    "ref_sem found a task waiting",
    "ref_sem found several tasks waiting",
    "ref_sem found the count 2147483647",
    "delete with the list of a mapped semaphore",
    "delete with the list of a mapped semaphore woke waiters",
    "delete with the list of one that is not mapped, others being mapped",
    "delete with the list refused for its caller, the identifier being mapped",
    "plain delete of a mapped semaphore",
    "plain delete of one that is not mapped",
    "E_SYS after a plain delete of a mapped semaphore",
    "served again once its entry was cleared",
    "cre_sem done on a loaded state with an empty list",
    "E_NOEXS on a loaded state with an empty list",
    "refused on an unstarted machine with an empty list",
];

type Counts<Key> = BTreeMap<Key, u64>;

#[derive(Default)]
pub struct Seen {
    codes: Counts<(usize, i32)>,
    turned: Counts<i32>,
    /// Ends of ranges, by call.
    ends: Counts<(usize, String)>,
    happenings: Counts<&'static str>,
    /// A list that disagreed after a plain delete has been mended, and nothing was served since.
    mended: bool,
}

impl Seen {
    fn happened(&mut self, name: &'static str, it_did: bool) {
        if it_did {
            *self.happenings.entry(name).or_default() += 1;
        }
    }

    /// Counts what a call gave by its code alone.
    pub fn answered(&mut self, service: &Service, given: Given) {
        *self.codes.entry((service.kind(), given.code())).or_default() += 1;
    }

    /// Counts the code that a task's answer was turned into.
    pub fn turned(&mut self, code: i32) {
        *self.turned.entry(code).or_default() += 1;
    }

    /// Counts the code of a task's answer in tables.
    pub fn woke(&mut self, code: i32) {
        let name = match code {
            E_OK => "a task's answer E_OK",
            WAITING_CODE => "a task's answer 100",
            E_TMOUT => "a task's answer E_TMOUT",
            E_DLT => "a task's answer E_DLT",
            E_RLWAI => "a task's answer E_RLWAI",
            _ => return,
        };
        self.happened(name, true);
    }

    pub fn deleted_plainly(&mut self, mapped: bool) {
        self.happened("plain delete of a mapped semaphore", mapped);
        self.happened("plain delete of one that is not mapped", !mapped);
    }

    pub fn after_plain_delete(&mut self, broken: bool, code: i32) {
        self.happened("E_SYS after a plain delete of a mapped semaphore", broken && code == E_SYS);
        self.happened("served again once its entry was cleared", self.mended && code == E_OK);
        self.mended = false;
    }

    /// Counts a wait for ever that was followed by more ticks than the standard limit.
    pub fn outlasted(&mut self, still_waits: bool) {
        let name = "a wait of wai_sem or of twai_sem with -1 outlasted the standard limit";
        self.happened(name, still_waits);
    }

    pub fn mended(&mut self, after_delete: bool) {
        self.mended = after_delete;
    }

    /// Counts a call that follows a load, with the list that it began with.
    pub fn after_load(&mut self, list: &[u32], service: &Service, code: i32) {
        let empty = list.iter().all(|&id| id == 0);
        let create = matches!(service, Service::CreSem { .. });
        let created = create && code == E_OK;
        self.happened("cre_sem done on a loaded state with an empty list", empty && created);
        self.happened("E_NOEXS on a loaded state with an empty list", empty && code == E_NOEXS);
    }

    /// Counts a call with what it gave, given tables and list before it.
    pub fn served(&mut self, before: Option<&Machine>, list: &[u32], service: &Service, given: Given) {
        self.answered(service, given);
        self.saw_agreement(before, list, given.code());
        let Some(machine) = before.filter(|machine| facade::list_agrees(machine, list)) else { return };
        self.saw_ends(machine, service);
        self.saw_orders(machine, list, service, given.code());
        let refused_unstarted = machine.tasks.is_empty() && given.code() < 0;
        self.happened("refused on an unstarted machine with an empty list", refused_unstarted);
        match service {
            Service::CreSem { .. } => self.saw_create(machine, service, given.code()),
            Service::Delete { caller, id } => self.saw_delete(machine, list, *caller, *id, given),
            _ => self.saw_mapped(machine, list, service, given),
        }
    }

    fn saw_create(&mut self, machine: &Machine, service: &Service, code: i32) {
        let Service::CreSem { sematr, .. } = *service else { return };
        let live = machine.slots.iter().filter(|slot| slot.live.is_some()).count();
        let slots = machine.slots.len();
        let free = machine.slots.iter().filter(|slot| slot.live.is_none());
        let used = free.map(|slot| slot.generation).find(|&generation| generation < LAST_GENERATION);
        let again = used.is_some_and(|generation| generation > 0);
        self.happened("cre_sem in a slot that was used before", code == E_OK && again);
        let last = used == Some(LAST_GENERATION - 1);
        self.happened("cre_sem gave generation 65535", code == E_OK && last);
        self.happened("cre_sem with TA_TPRI", code == E_OK && sematr == 1);
        self.happened("cre_sem refused with 64 live slots", code == E_NOMEM && live == MOST_SLOTS);
        self.happened("cre_sem refused with a retired slot free", code == E_NOMEM && live < slots);
    }

    fn saw_delete(&mut self, machine: &Machine, list: &[u32], caller: u32, id: u32, given: Given) {
        let mapped = id != 0 && list.contains(&id);
        let waiters = machine.semaphore(id).is_some_and(|live| !live.queue.is_empty());
        let done = given.code() == 0;
        self.happened("delete with the list of a mapped semaphore", done && mapped);
        let woke = done && mapped && waiters;
        self.happened("delete with the list of a mapped semaphore woke waiters", woke);
        let beside = done && !mapped && list.iter().any(|&id| id != 0);
        self.happened("delete with the list of one that is not mapped, others being mapped", beside);
        let by_caller = mapped && (caller == 0 || given.code() == INCORRECT_STATE as i32);
        let name = "delete with the list refused for its caller, the identifier being mapped";
        self.happened(name, by_caller && !done);
    }

    /// Counts a call on a semid that has a semaphore.
    fn saw_mapped(&mut self, machine: &Machine, list: &[u32], service: &Service, given: Given) {
        let place = service.semid().unwrap_or(0).wrapping_sub(1) as usize;
        let Some(&id) = list.get(place) else { return };
        let Some(live) = machine.semaphore(id) else { return };
        let (caller, code, waiting) = (service.caller(), given.code(), live.queue.len());
        let done = code == E_OK;
        match *service {
            Service::DelSem { semid, .. } => {
                self.happened("del_sem woke waiters", done && waiting > 0);
                let other = machine.in_turn(id) != live.queue;
                self.happened("del_sem woke in another order than arrival", done && other);
                let other = live.name != semid;
                self.happened("del_sem of a semaphore that Classic create made", done && other);
                self.happened("del_sem of generation 65535", done && id >> 16 == LAST_GENERATION);
            }
            Service::SigSem { .. } => {
                self.saw_signal(live, caller, code);
                self.saw_served(machine, id, done);
            }
            Service::WaiSem { .. } => {
                let last = machine.ready.len() == 1;
                self.happened("wai_sem made the last ready task wait", code == WAITING_CODE && last);
            }
            Service::TwaiSem { tmout, .. } => self.saw_timed(tmout, code),
            Service::RefSem { .. } => {
                self.happened("ref_sem by an interrupt", done && caller == 0);
                self.happened("ref_sem found a task waiting", done && waiting > 0);
                self.happened("ref_sem found several tasks waiting", done && waiting > 1);
                self.happened("ref_sem found the count 2147483647", done && live.count == MOST_MAPPED);
            }
            _ => {}
        }
    }

    fn saw_signal(&mut self, live: &Semaphore, caller: u32, code: i32) {
        let (done, waiting, refused) = (code == E_OK, live.queue.len(), code == E_QOVR);
        self.happened("sig_sem by an interrupt woke a task", done && waiting > 0 && caller == 0);
        self.happened("sig_sem woke the first of two", done && waiting > 1);
        self.happened("sig_sem refused at maximum 2147483647", refused && live.maximum == MOST_MAPPED);
        self.happened("sig_sem refused at maximum 1", refused && live.maximum == 1);
        let between = (2..MOST_MAPPED).contains(&live.maximum);
        self.happened("sig_sem refused at a maximum between", refused && between);
    }

    fn saw_served(&mut self, machine: &Machine, id: u32, done: bool) {
        let first = |priorities: &[u32]| machine.in_turn_by(id, priorities).first().copied();
        let (equals, own) = (vec![1; machine.tasks.len()], machine.working_with(0));
        let served = first(&machine.working());
        let (late, lent) = (served != first(&equals), served != first(&own));
        self.happened("sig_sem woke one that is not first in its queue", done && late);
        self.happened("sig_sem woke one that is first by inheritance alone", done && lent);
    }

    fn saw_timed(&mut self, tmout: i32, code: i32) {
        let waits = code == WAITING_CODE;
        self.happened("twai_sem began a wait for ever", waits && tmout == -1);
        self.happened("twai_sem began a wait of 1 tick", waits && tmout == 1);
        self.happened("twai_sem began a wait of 500 ticks", waits && tmout == 500);
        self.happened("twai_sem began a wait of 2147483647 ticks", waits && tmout == i32::MAX);
        self.happened("twai_sem polled and got it", code == E_OK && tmout == 0);
    }

    /// The codes that should have occurred and did not, and those that should not occur at all.
    pub fn code_gaps(&self) -> Vec<String> {
        let mut gaps = Vec::new();
        for (kind, codes) in CODES.iter().enumerate() {
            let missing = codes.iter().filter(|&&code| !self.codes.contains_key(&(kind, code)));
            gaps.extend(missing.map(|code| format!("{} never answered {code}", SERVICES[kind])));
        }
        let foreign = self.codes.keys().filter(|(kind, code)| !CODES[*kind].contains(code));
        gaps.extend(foreign.map(|(kind, code)| format!("{} answered {code}", SERVICES[*kind])));
        let missing = TURNED.iter().filter(|code| !self.turned.contains_key(code));
        gaps.extend(missing.map(|code| format!("no answer was turned into {code}")));
        gaps
    }

    /// The same, and all else that should have occurred and did not.
    pub fn gaps(&self) -> Vec<String> {
        let mut gaps = self.code_gaps();
        let missing = numbers::ends().into_iter().filter(|end| !self.ends.contains_key(end));
        gaps.extend(missing.map(|(kind, end)| format!("{} never with {end}", SERVICES[kind])));
        let answers =
            ["E_OK", "100", "E_TMOUT", "E_DLT", "E_RLWAI"].map(|code| ("a task's answer", code));
        let unseen = |name: &str| !self.happenings.contains_key(name);
        let answers = answers.iter().map(|(what, code)| format!("{what} {code}"));
        gaps.extend(answers.filter(|name| unseen(name)).map(|name| format!("never seen: {name}")));
        let wanted = HAPPENINGS.into_iter().chain(faults::wanted()).chain(numbers::orders());
        gaps.extend(wanted.filter(|name| unseen(name)).map(|name| format!("never seen: {name}")));
        gaps
    }

    /// A line for each call with how often each code occurred, and a line for each happening.
    pub fn table(&self) -> String {
        let mut lines = String::new();
        for (kind, name) in SERVICES.iter().enumerate() {
            let of_kind = self.codes.iter().filter(|((of, _), _)| *of == kind);
            let counts: Vec<String> =
                of_kind.map(|((_, code), count)| format!("{code}: {count}")).collect();
            lines += &format!("  {name:20} {}\n", counts.join("  "));
        }
        for (name, count) in &self.happenings {
            lines += &format!("  {count:>10} {name}\n");
        }
        lines
    }
}
