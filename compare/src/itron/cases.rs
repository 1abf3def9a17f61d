//! The sentences of document 02, No. 5, and what No. 6 says of these calls, as cases that run on any facade.

mod inheritance;
mod refusals;

use std::fmt::Debug;

use crate::call::{Answer, Call};
use crate::itron::lent::{Lending, LentList};
use crate::itron::*;
use crate::layout::{self, set_word, slot_at, task_at, word, TICKS};
use crate::state::{write::write, LONGEST};

/// Tables and list of one case, and the first answer that was not the paper's.
struct Case<'a> {
    subject: &'a mut dyn Itron,
    lent: Lending,
    done: u64,
    failed: Option<String>,
}

impl Case<'_> {
    fn check<Seen: PartialEq + Debug>(&mut self, what: impl Debug, wanted: Seen, found: Seen) {
        if self.failed.is_some() {
            return;
        }
        if found != wanted {
            self.failed = Some(format!("{what:?}: the paper says {wanted:?}, got {found:?}"));
        } else if !self.lent.tables.guards_hold() || !self.lent.list.guards_hold() {
            self.failed = Some(format!("{what:?}: what lies around tables and list was written"));
        }
    }

    fn serve(&mut self, service: Service) -> Given {
        self.done += 1;
        self.subject.serve(self.lent.tables.bytes_mut(), self.lent.list.entries_mut(), &service)
    }

    /// Copies of tables and list.
    fn held(&self) -> (Vec<u8>, Vec<u32>) {
        (self.lent.tables.bytes().to_vec(), self.lent.list.entries().to_vec())
    }

    /// A call that answers a code and the next task; a refusal must change nothing.
    fn expect(&mut self, service: Service, code: i32, next: u32) {
        let before = self.held();
        let found = self.serve(service);
        self.check(service, Given::Code { code, next }, found);
        if code < 0 {
            self.unchanged(service, before);
        }
    }

    fn unchanged(&mut self, service: Service, before: (Vec<u8>, Vec<u32>)) {
        let same = self.held() == before;
        self.check((service, "nothing has changed"), true, same);
    }

    fn cre(&mut self, caller: u32, semid: u32, numbers: (u32, i32, i32), code: i32, next: u32) {
        let (sematr, isemcnt, maxsem) = numbers;
        self.expect(Service::CreSem { caller, semid, sematr, isemcnt, maxsem }, code, next);
    }

    fn del(&mut self, caller: u32, semid: u32, code: i32, next: u32) {
        self.expect(Service::DelSem { caller, semid }, code, next);
    }

    fn sig(&mut self, caller: u32, semid: u32, code: i32, next: u32) {
        self.expect(Service::SigSem { caller, semid }, code, next);
    }

    fn wai(&mut self, caller: u32, semid: u32, code: i32, next: u32) {
        self.expect(Service::WaiSem { caller, semid }, code, next);
    }

    fn preq(&mut self, caller: u32, semid: u32, code: i32, next: u32) {
        self.expect(Service::PreqSem { caller, semid }, code, next);
    }

    fn twai(&mut self, caller: u32, semid: u32, tmout: i32, code: i32, next: u32) {
        self.expect(Service::TwaiSem { caller, semid, tmout }, code, next);
    }

    /// A ref_sem with its code, next task, wtsk and semcnt.
    fn reference(&mut self, caller: u32, semid: u32, wanted: (i32, u32, i32, i32)) {
        let (service, before) = (Service::RefSem { caller, semid }, self.held());
        let (code, next, wtsk, semcnt) = wanted;
        let found = self.serve(service);
        self.check(service, Given::Reference { code, next, exinf: 0, wtsk, semcnt }, found);
        self.unchanged(service, before);
    }

    /// A Classic delete with the list; a refusal must change nothing.
    fn delete(&mut self, caller: u32, id: u32, status: u32, next: u32) {
        let (service, before) = (Service::Delete { caller, id }, self.held());
        let found = self.serve(service);
        self.check(service, Given::Classic(Answer::new(status, 0, next)), found);
        if status != 0 {
            self.unchanged(service, before);
        }
    }

    fn call(&mut self, call: Call, status: u32, value: u32, next: u32) {
        let found = self.subject.call(self.lent.tables.bytes_mut(), &call);
        self.done += 1;
        self.check(call, Answer::new(status, value, next), found);
    }

    fn start(&mut self, slots: u32, priorities: &[u32]) {
        let call = Call::Start { slots, priorities: priorities.to_vec() };
        let found = self.subject.call(self.lent.tables.bytes_mut(), &call);
        self.check(call, 0, found.status);
    }

    /// The code of a task's answer.
    fn answer(&mut self, task: u32, code: i32) {
        let answer = self.subject.call(self.lent.tables.bytes_mut(), &Call::Task { task });
        let found = self.subject.code(answer.value);
        self.check(("the answer of task", task), code, found);
    }

    fn tick(&mut self, next: u32) {
        self.call(Call::Tick, 0, 0, next);
    }

    /// The ticks left of a task, 0 if it waits for ever or not at all.
    fn ticks_left(&mut self, task: u32, wanted: u32) {
        let found = word(self.lent.tables.bytes(), task_at(task) + TICKS);
        self.check(("ticks left of task", task), wanted, found);
    }

    /// The list's first entries; all behind them are 0.
    fn list(&mut self, wanted: &[u32]) {
        let mut list = wanted.to_vec();
        list.resize(ENTRIES, 0);
        self.check("the list", list, self.lent.list.entries().to_vec());
    }

    /// Another list, at the other alignment than that of a case's beginning.
    fn lend_list(&mut self, entries: &[u32]) {
        self.lent.list = LentList::new(entries, 1);
    }

    /// The list with one entry set, of 64.
    fn set_entry(&mut self, place: usize, id: u32) {
        self.lent.list.entries_mut()[place] = id;
    }
}

/// A sentence and what shows it.
type Named = (&'static str, fn(&mut Case));

const CASES: [Named; 17] = [
    ("a list that maps semid 1..S to a live identifier or nothing", |case| {
        case.start(4, &[10, 20]);
        case.cre(1, 3, (0, 0, 10), E_OK, 1);
        case.list(&[0, 0, 65537]);
        case.cre(2, 1, (1, 2, 2), E_OK, 1);
        case.list(&[65538, 0, 65537]);
        case.del(1, 3, E_OK, 1);
        case.list(&[65538]);
    }),
    ("wai_sem, and twai_sem with a tmout of -1, wait for ever", |case| {
        case.start(2, &[10, 20, 30, 40]);
        case.cre(1, 1, (0, 0, 1), E_OK, 1);
        case.wai(1, 1, 100, 2);
        case.twai(2, 1, -1, 100, 3);
        case.twai(3, 1, 500, 100, 4);
        for (task, ticks) in [(1, 0), (2, 0), (3, 500)] {
            case.ticks_left(task, ticks);
        }
        (0..499).for_each(|_| case.tick(4));
        case.answer(3, 100);
        // The 500th ends the wait that has a number of ticks, and the others outlast it.
        (0..101).for_each(|_| case.tick(3));
        for (task, code) in [(1, 100), (2, 100), (3, E_TMOUT)] {
            case.answer(task, code);
            case.ticks_left(task, 0);
        }
        case.sig(0, 1, E_OK, 1);
        case.sig(0, 1, E_OK, 1);
        case.answer(1, E_OK);
        case.answer(2, E_OK);
    }),
    ("0 polls", |case| {
        case.start(2, &[10, 20]);
        case.cre(1, 1, (0, 1, 1), E_OK, 1);
        case.twai(1, 1, 0, E_OK, 1);
        case.twai(1, 1, 0, E_TMOUT, 1);
        case.preq(2, 1, E_TMOUT, 1);
        case.sig(0, 1, E_OK, 1);
        case.preq(2, 1, E_OK, 1);
    }),
    ("one unit of tmout is one tick", |case| {
        case.start(2, &[10, 20]);
        case.cre(1, 1, (0, 0, 1), E_OK, 1);
        case.twai(1, 1, 2, 100, 2);
        case.tick(2);
        case.answer(1, 100);
        case.tick(1);
        case.answer(1, E_TMOUT);
        case.twai(1, 1, i32::MAX, 100, 2);
        case.ticks_left(1, MOST_MAPPED);
        case.tick(2);
    }),
    ("a semid may be used again after del_sem", |case| {
        case.start(1, &[10]);
        for generation in 1..=3 {
            case.cre(1, 1, (0, 0, 1), E_OK, 1);
            case.list(&[generation * 65536 + 1]);
            case.del(1, 1, E_OK, 1);
            case.list(&[]);
        }
    }),
    ("sematr 0 is FIFO and 1 is PRIORITY", |case| {
        for (sematr, first) in [(0, 1), (1, 2)] {
            case.lent = Lending::blank(1);
            case.start(1, &[30, 20, 10]);
            case.cre(3, 1, (sematr, 0, 9), E_OK, 3);
            case.wai(1, 1, 100, 3);
            case.wai(2, 1, 100, 3);
            case.sig(3, 1, E_OK, 3);
            case.answer(first, E_OK);
            case.answer(3 - first, 100);
        }
    }),
    ("a new semaphore's Classic name is its semid", |case| {
        case.start(4, &[10]);
        case.cre(1, 3, (0, 0, 1), E_OK, 1);
        case.call(Call::Ident { name: 3 }, 0, 65537, 1);
        case.call(Call::Ident { name: 1 }, 3, 0, 1);
    }),
    ("a loaded state begins with an empty list", |case| {
        case.start(2, &[10, 20]);
        case.cre(1, 1, (0, 1, 1), E_OK, 1);
        let machine = layout::read(case.lent.tables.bytes()).expect("tables that calls made agree");
        let file = write(&machine);
        assert!(file.len() <= LONGEST);
        case.lent = Lending::blank(2);
        let loaded = case.subject.load(case.lent.tables.bytes_mut(), &file);
        case.check("load", Answer::new(0, 0, 1), loaded);
        case.preq(1, 1, E_NOEXS, 1);
        // The semaphore is there, under its Classic name; the semid is free for another.
        case.call(Call::Ident { name: 1 }, 0, 65537, 1);
        case.cre(1, 1, (0, 0, 1), E_OK, 1);
        case.list(&[65538]);
        case.cre(1, 2, (0, 0, 1), E_NOMEM, 1);
    }),
    ("the next task, 0 with E_SYS", |case| {
        case.start(2, &[10, 20]);
        case.cre(1, 1, (0, 0, 1), E_OK, 1);
        case.wai(1, 1, 100, 2);
        case.wai(2, 1, 100, 0);
        case.sig(0, 1, E_OK, 1);
        case.set_entry(1, 7);
        case.sig(1, 1, E_SYS, 0);
        case.reference(1, 1, (E_SYS, 0, 0, 0));
        case.delete(1, 65537, 25, 0);
    }),
    ("ref_sem gives exinf 0, wtsk 1 if a task waits, else 0, and semcnt, all 0 when refused", |case| {
        case.start(3, &[10, 20, 30]);
        case.cre(1, 1, (0, 5, 9), E_OK, 1);
        case.cre(1, 2, (0, 0, 9), E_OK, 1);
        case.reference(1, 1, (E_OK, 1, 0, 5));
        case.reference(0, 2, (E_OK, 1, 0, 0));
        case.wai(1, 2, 100, 2);
        case.wai(2, 2, 100, 3);
        case.reference(3, 2, (E_OK, 3, 1, 0));
        case.reference(3, 3, (E_NOEXS, 3, 0, 0));
        case.reference(3, 4, (E_ID, 3, 0, 0));
        case.reference(4, 1, (E_ID, 3, 0, 0));
        case.reference(1, 1, (E_CTX, 3, 0, 0));
    }),
    ("13 at signal is E_QOVR", |case| {
        case.start(2, &[10]);
        case.cre(1, 1, (0, 0, 1), E_OK, 1);
        case.sig(1, 1, E_OK, 1);
        case.sig(1, 1, E_QOVR, 1);
        case.sig(0, 1, E_QOVR, 1);
        case.cre(1, 2, (0, i32::MAX - 1, i32::MAX), E_OK, 1);
        case.sig(0, 2, E_OK, 1);
        case.reference(0, 2, (E_OK, 1, 0, i32::MAX));
        case.sig(0, 2, E_QOVR, 1);
    }),
    ("Classic delete with the list drops the mapping", |case| {
        case.start(3, &[10, 20]);
        case.cre(1, 2, (0, 0, 1), E_OK, 1);
        case.call(Call::create(1, 9, 0, 16), 0, 65538, 1);
        case.call(Call::create(1, 9, 0, 32), 0, 65539, 1);
        case.wai(1, 2, 100, 2);
        // Refused, it drops nothing; of one that is not mapped it is a plain delete.
        case.delete(0, 65537, 18, 2);
        case.delete(1, 65537, 14, 2);
        case.delete(3, 65537, 4, 2);
        case.delete(2, 1, 4, 2);
        case.delete(2, 65538, 12, 2);
        case.delete(2, 65539, 0, 2);
        case.list(&[0, 65537]);
        case.delete(2, 65537, 0, 1);
        case.list(&[]);
        case.answer(1, E_DLT);
        case.delete(2, 65537, 4, 1);
    }),
    ("once done without it on a mapped semaphore, the list no longer agrees", |case| {
        case.start(2, &[10]);
        case.cre(1, 1, (0, 1, 1), E_OK, 1);
        case.call(Call::Delete { caller: 1, id: 65537 }, 0, 0, 1);
        case.preq(1, 1, E_SYS, 0);
        // Not even when the slot is used again.
        case.call(Call::create(1, 1, 1, 0), 0, 131073, 1);
        case.preq(1, 1, E_SYS, 0);
        case.cre(1, 2, (0, 0, 1), E_SYS, 0);
        case.set_entry(0, 0);
        case.preq(1, 1, E_NOEXS, 1);
        case.cre(1, 1, (0, 0, 1), E_OK, 1);
        case.list(&[65538]);
    }),
    ("E_NOMEM when the slots have run out", |case| {
        case.start(2, &[10]);
        case.call(Call::create(1, 9, 0, 16), 0, 65537, 1);
        case.cre(1, 2, (0, 0, 1), E_OK, 1);
        case.cre(1, 1, (0, 0, 1), E_NOMEM, 1);
        case.del(1, 2, E_OK, 1);
        // A slot freed at its last generation is used up.
        set_word(case.lent.tables.bytes_mut(), slot_at(1), 65535);
        case.cre(1, 1, (0, 0, 1), E_NOMEM, 1);
    }),
    ("0 and 100 stay, 6, 7 and 13 become E_TMOUT, E_DLT and E_RLWAI, any other number E_SYS", |case| {
        for (answer, code) in [(0, 0), (100, 100), (6, -85), (7, -81), (13, -86)] {
            let found = case.subject.code(answer);
            case.check(answer, code, found);
        }
        for answer in [1, 3, 4, 5, 8, 12, 14, 25, 99, 101, 65542, 0x8000_0007, u32::MAX] {
            let found = case.subject.code(answer);
            case.check(answer, -5, found);
        }
    }),
    ("a woken task's code", |case| {
        case.start(1, &[10, 20, 30, 40]);
        case.cre(4, 1, (0, 0, 1), E_OK, 1);
        case.wai(1, 1, 100, 2);
        case.sig(0, 1, E_OK, 1);
        case.answer(1, E_OK);
        case.wai(1, 1, 100, 2);
        case.call(Call::Flush { caller: 4, id: 65537 }, 0, 0, 1);
        case.answer(1, E_RLWAI);
        case.wai(2, 1, 100, 1);
        case.twai(3, 1, 1, 100, 1);
        case.tick(1);
        case.answer(3, E_TMOUT);
        case.del(4, 1, E_OK, 1);
        case.answer(2, E_DLT);
    }),
    ("a waiter is served before the count", |case| {
        case.start(1, &[10, 20]);
        case.cre(1, 1, (0, 0, 1), E_OK, 1);
        case.wai(1, 1, 100, 2);
        case.sig(2, 1, E_OK, 1);
        case.reference(2, 1, (E_OK, 1, 0, 0));
        case.sig(2, 1, E_OK, 1);
        case.reference(2, 1, (E_OK, 1, 0, 1));
        case.wai(2, 1, E_OK, 1);
        case.reference(2, 1, (E_OK, 1, 0, 0));
    }),
];

/// Runs every case; how many calls were made, or the first answer that is not the paper's.
pub fn run(subject: &mut dyn Itron) -> Result<u64, String> {
    let mut done = 0;
    for (name, run_case) in CASES.into_iter().chain(refusals::CASES).chain(inheritance::CASES) {
        let mut case = Case { subject, lent: Lending::blank(0), done: 0, failed: None };
        run_case(&mut case);
        if let Some(failure) = case.failed {
            return Err(format!("case \"{name}\": {failure}"));
        }
        done += case.done;
    }
    Ok(done)
}
