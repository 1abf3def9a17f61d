//! The cases that the rules name, P1 to P15 among them, run on any manager.

mod idents;
mod inheritance;
mod maxima;
mod timeouts;

use std::fmt::Debug;

use crate::call::{Answer, Call, Manager};
use crate::fuzz::lent::Lent;
use crate::layout::{self, LENGTH};
use crate::status::FOREVER;

/// The tables of one case, and the first answer that was not the rules'.
struct Case<'a> {
    subject: &'a mut dyn Manager,
    tables: Lent,
    done: u64,
    failed: Option<String>,
}

impl Case<'_> {
    fn expect(&mut self, call: Call, status: u32, value: u32, next: u32) {
        let found = self.subject.call(self.tables.bytes_mut(), &call);
        self.done += 1;
        self.check(&call, Answer::new(status, value, next), found);
    }

    fn check<Given: PartialEq + Debug>(&mut self, call: &Call, wanted: Given, found: Given) {
        if self.failed.is_some() {
            return;
        }
        if found != wanted {
            self.failed = Some(format!("{call:?}: the rules say {wanted:?}, got {found:?}"));
        } else if !self.tables.guards_hold() {
            self.failed = Some(format!("{call:?}: bytes outside the lent memory were written"));
        }
    }

    /// An ident, made by both functions: the answer, and how many slots are looked at.
    fn ident(&mut self, name: u32, [status, value, next]: [u32; 3], looked: u32) {
        let (call, before) = (Call::Ident { name }, self.tables.bytes().to_vec());
        self.expect(call.clone(), status, value, next);
        let found = self.subject.ident_looked(self.tables.bytes_mut(), name);
        self.check(&call, (Answer::new(status, value, next), looked), found);
        if self.tables.bytes() != before && self.failed.is_none() {
            self.failed = Some(format!("{call:?}: the tables were changed"));
        }
    }

    fn start(&mut self, slots: u32, priorities: &[u32], next: u32) {
        self.expect(Call::Start { slots, priorities: priorities.to_vec() }, 0, 0, next);
    }

    /// A create with the greatest maximum of its class.
    fn create(&mut self, caller: u32, name: u32, count: u32, attributes: u32, wanted: [u32; 3]) {
        self.expect(Call::create(caller, name, count, attributes), wanted[0], wanted[1], wanted[2]);
    }

    /// A create with caller, name, count, attributes and maximum.
    fn create_up_to(&mut self, numbers: [u32; 5], wanted: [u32; 3]) {
        let [caller, name, count, attributes, maximum] = numbers;
        let call = Call::Create { caller, name, count, attributes, maximum };
        self.expect(call, wanted[0], wanted[1], wanted[2]);
    }

    fn obtain(&mut self, caller: u32, id: u32, timeout: u32, wanted: [u32; 3]) {
        let call = Call::Obtain { caller, id, options: 0, timeout };
        self.expect(call, wanted[0], wanted[1], wanted[2]);
    }

    fn release(&mut self, caller: u32, id: u32, wanted: [u32; 3]) {
        self.expect(Call::Release { caller, id }, wanted[0], wanted[1], wanted[2]);
    }

    /// A release by an interrupt, which is done.
    fn interrupt(&mut self, id: u32, next: u32) {
        self.release(0, id, [0, 0, next]);
    }

    fn tick(&mut self, next: u32) {
        self.expect(Call::Tick, 0, 0, next);
    }

    fn task(&mut self, task: u32, answer: u32, next: u32) {
        self.expect(Call::Task { task }, 0, answer, next);
    }

    /// The tables have this number in this word.
    fn holds(&mut self, at: usize, wanted: u32) {
        let found = layout::word(self.tables.bytes(), at);
        if found != wanted && self.failed.is_none() {
            let name = layout::word_name(at);
            self.failed = Some(format!("{name}: the rules say {wanted}, got {found}"));
        }
    }
}

/// A case's name and what runs it.
type Named = (&'static str, fn(&mut Case));

const CASES: [Named; 20] = [
    ("P1 to P11", worked_session),
    ("P12", |case| {
        case.start(1, &[1], 1);
        case.create_up_to([1, 5, u32::MAX, 0, u32::MAX], [0, 65537, 1]);
        case.release(1, 65537, [13, 0, 1]);
    }),
    ("P13", |case| {
        case.start(1, &[1], 1);
        case.create_up_to([1, 5, 1, 32, 1], [0, 65537, 1]);
        case.release(0, 65537, [13, 0, 1]);
    }),
    ("P14", |case| {
        case.start(1, &[1], 1);
        case.create_up_to([1, 5, 1, 16, 1], [0, 65537, 1]);
        case.release(0, 65537, [23, 0, 1]);
    }),
    ("P15", |case| {
        case.start(1, &[10, 10], 1);
        case.create_up_to([1, 77, 0, 0, u32::MAX], [0, 65537, 1]);
        case.obtain(1, 65537, 0, [100, 0, 2]);
        case.release(2, 65537, [0, 0, 2]);
    }),
    ("equals take turns", |case| {
        case.start(1, &[5, 5, 5, 9], 1);
        case.create(1, 9, 0, 0, [0, 65537, 1]);
        for (waits, next) in [(1, 2), (2, 3), (3, 1), (1, 2)] {
            case.obtain(waits, 65537, FOREVER, [100, 0, next]);
            case.interrupt(65537, next);
        }
        // 2, 3, 1 are ready in this order: two of them leave, and the last is next.
        case.obtain(3, 65537, FOREVER, [100, 0, 2]);
        case.obtain(2, 65537, FOREVER, [100, 0, 1]);
        case.obtain(1, 65537, FOREVER, [100, 0, 4]);
        case.obtain(4, 65537, FOREVER, [100, 0, 0]);
        for next in [3, 3, 3, 3] {
            case.interrupt(65537, next);
        }
    }),
    ("a tick wakes equals by their numbers", |case| {
        case.start(2, &[5, 5, 5, 5, 9], 1);
        case.create(5, 9, 0, 0, [0, 65537, 1]);
        case.create(5, 9, 0, 4, [0, 65538, 1]);
        // Neither the queue of the first nor its slot decides.
        case.obtain(4, 65537, 2, [100, 0, 1]);
        case.obtain(3, 65537, 2, [100, 0, 1]);
        case.obtain(1, 65537, 2, [100, 0, 2]);
        case.obtain(2, 65538, 2, [100, 0, 5]);
        case.tick(5);
        case.tick(1);
        for (waits, next) in [(1, 2), (2, 3), (3, 4), (4, 5)] {
            case.obtain(waits, 65537, FOREVER, [100, 0, next]);
        }
    }),
    ("ticks wake one after the other", |case| {
        case.start(1, &[5, 5, 9], 1);
        case.create(1, 9, 0, 0, [0, 65537, 1]);
        case.obtain(2, 65537, 1, [100, 0, 1]);
        case.obtain(1, 65537, 2, [100, 0, 3]);
        case.tick(2);
        case.tick(2);
    }),
    ("a flush wakes equals by their queue", |case| {
        case.start(1, &[5, 5, 5, 9], 1);
        case.create(4, 9, 0, 4, [0, 65537, 1]);
        for (waits, next) in [(3, 1), (1, 2), (2, 4)] {
            case.obtain(waits, 65537, FOREVER, [100, 0, next]);
        }
        case.expect(Call::Flush { caller: 4, id: 65537 }, 0, 0, 3);
        for (waits, next) in [(3, 1), (1, 2), (2, 4)] {
            case.obtain(waits, 65537, FOREVER, [100, 0, next]);
        }
    }),
    ("a delete wakes equals by their queue", |case| {
        case.start(2, &[5, 5, 5, 9], 1);
        case.create(4, 9, 0, 0, [0, 65537, 1]);
        case.create(4, 9, 0, 0, [0, 65538, 1]);
        for (waits, next) in [(2, 1), (3, 1), (1, 4)] {
            case.obtain(waits, 65537, FOREVER, [100, 0, next]);
        }
        case.expect(Call::Delete { caller: 4, id: 65537 }, 0, 0, 2);
        for (waits, next) in [(2, 3), (3, 1), (1, 4)] {
            case.obtain(waits, 65538, FOREVER, [100, 0, next]);
        }
    }),
    ("what begins or ends no wait moves nobody", |case| {
        case.start(3, &[5, 5, 9], 1);
        case.create(1, 9, 0, 0, [0, 65537, 1]);
        case.create(1, 8, 1, 16, [0, 65538, 1]);
        case.obtain(1, 65537, FOREVER, [100, 0, 2]);
        case.interrupt(65537, 2);
        // A poll that fails, one that does not, nesting, releases, counts, refusals.
        case.expect(Call::Obtain { caller: 2, id: 65537, options: 1, timeout: 0 }, 13, 0, 2);
        case.expect(Call::Obtain { caller: 2, id: 65538, options: 1, timeout: 0 }, 0, 0, 2);
        case.obtain(2, 65538, FOREVER, [0, 0, 2]);
        case.release(2, 65538, [0, 0, 2]);
        case.release(2, 65538, [0, 0, 2]);
        case.release(2, 65537, [0, 0, 2]);
        case.obtain(2, 65537, FOREVER, [0, 0, 2]);
        case.create(2, 7, 0, 0, [0, 65539, 2]);
        case.expect(Call::Flush { caller: 2, id: 65539 }, 0, 0, 2);
        case.expect(Call::Delete { caller: 2, id: 65539 }, 0, 0, 2);
        case.ident(9, [0, 65537, 2], 1);
        case.release(2, 65539, [4, 0, 2]);
        case.tick(2);
        case.task(2, 0, 2);
        case.obtain(2, 65537, FOREVER, [100, 0, 1]);
    }),
    ("refusals of create", |case| {
        case.start(2, &[1], 1);
        case.create(1, 0, 0, 48, [3, 0, 1]);
        case.create(1, 9, 0, 48, [11, 0, 1]);
        case.create(1, 9, 2, 16, [10, 0, 1]);
        case.create(1, 9, 1, 16, [0, 65537, 1]);
    }),
    ("the 65th create", |case| {
        case.start(64, &[1], 1);
        for slot in 1..=64 {
            case.create(1, 9, 0, 0, [0, 65536 + slot, 1]);
        }
        case.create(1, 9, 0, 0, [5, 0, 1]);
    }),
    ("timeout 1", |case| {
        case.start(1, &[1, 2], 1);
        case.create(1, 9, 0, 0, [0, 65537, 1]);
        case.obtain(1, 65537, 1, [100, 0, 2]);
        case.task(1, 100, 2);
        case.expect(Call::Tick, 0, 0, 1);
        case.task(1, 6, 1);
        // The count goes up: nobody is left in the queue to be woken twice.
        case.release(2, 65537, [0, 0, 1]);
        case.task(1, 6, 1);
        case.obtain(2, 65537, FOREVER, [0, 0, 1]);
    }),
    ("equal priorities by arrival", |case| {
        case.start(1, &[7, 7, 7, 3], 4);
        case.create(4, 9, 0, 4, [0, 65537, 4]);
        for caller in [3, 1, 2] {
            case.obtain(caller, 65537, FOREVER, [100, 0, 4]);
        }
        for woken in [3, 1, 2] {
            case.release(0, 65537, [0, 0, 4]);
            case.task(woken, 0, 4);
        }
    }),
    ("FIFO ignores priority", |case| {
        case.start(1, &[9, 1, 5, 3], 2);
        case.create(4, 9, 0, 0, [0, 65537, 2]);
        case.obtain(1, 65537, FOREVER, [100, 0, 2]);
        case.obtain(2, 65537, FOREVER, [100, 0, 4]);
        case.obtain(3, 65537, FOREVER, [100, 0, 4]);
        case.release(0, 65537, [0, 0, 4]);
        case.task(1, 0, 4);
        case.release(0, 65537, [0, 0, 2]);
        case.release(0, 65537, [0, 0, 2]);
    }),
    ("a simple binary semaphore makes even its holder wait", |case| {
        case.start(1, &[1, 2], 1);
        case.create(1, 9, 1, 32, [0, 65537, 1]);
        case.obtain(1, 65537, FOREVER, [0, 0, 1]);
        case.obtain(1, 65537, FOREVER, [100, 0, 2]);
        case.release(2, 65537, [0, 0, 1]);
        case.task(1, 0, 1);
    }),
    ("nest at its end", |case| {
        case.start(1, &[1], 1);
        case.create(1, 9, 0, 16, [0, 65537, 1]);
        layout::set_word(case.tables.bytes_mut(), layout::slot_at(0) + layout::NEST, u32::MAX);
        case.obtain(1, 65537, FOREVER, [13, 0, 1]);
        case.release(1, 65537, [0, 0, 1]);
        case.obtain(1, 65537, FOREVER, [0, 0, 1]);
    }),
    ("a slot retires", |case| {
        case.start(1, &[1], 1);
        layout::set_word(case.tables.bytes_mut(), layout::slot_at(0), 65534);
        case.create(1, 9, 0, 0, [0, 65535 * 65536 + 1, 1]);
        case.expect(Call::Delete { caller: 1, id: 65535 * 65536 + 1 }, 0, 0, 1);
        case.create(1, 9, 0, 0, [5, 0, 1]);
    }),
    ("a machine not yet started", |case| {
        case.expect(Call::Tick, 0, 0, 0);
        case.ident(1, [3, 0, 0], 0);
        case.ident(0, [3, 0, 0], 0);
        case.create(0, 9, 0, 0, [18, 0, 0]);
        case.create(1, 9, 0, 0, [4, 0, 0]);
        case.release(0, 65537, [4, 0, 0]);
        case.expect(Call::Task { task: 0 }, 4, 0, 0);
        case.expect(Call::Start { slots: 1, priorities: vec![] }, 10, 0, 0);
        case.expect(Call::Start { slots: 0, priorities: vec![0] }, 10, 0, 0);
        case.expect(Call::Start { slots: 1, priorities: vec![256] }, 19, 0, 0);
        case.start(64, &[255; 32], 1);
        case.expect(Call::Start { slots: 0, priorities: vec![] }, 14, 0, 1);
    }),
];

fn worked_session(case: &mut Case) {
    case.start(4, &[10, 20], 1);
    case.create_up_to([1, 77, 1, 20, 1], [0, 65537, 1]);
    case.obtain(2, 65537, FOREVER, [0, 0, 1]);
    case.obtain(1, 65537, 3, [100, 0, 2]);
    case.expect(Call::Tick, 0, 0, 2);
    case.release(2, 65537, [0, 0, 1]);
    case.expect(Call::Delete { caller: 2, id: 65537 }, 12, 0, 1);
    case.release(1, 65537, [0, 0, 1]);
    case.expect(Call::Delete { caller: 1, id: 65537 }, 0, 0, 1);
    case.obtain(1, 65537, FOREVER, [4, 0, 1]);
    case.create_up_to([1, 78, 2, 0, u32::MAX], [0, 131073, 1]);
}

/// Runs every case; how many calls were made, or the first answer that is not the rules'.
pub fn run(subject: &mut dyn Manager) -> Result<u64, String> {
    let mut done = 0;
    let of_parts = idents::CASES.into_iter().chain(maxima::CASES).chain(timeouts::CASES);
    let of_parts = of_parts.chain(inheritance::CASES);
    for (name, run_case) in CASES.into_iter().chain(of_parts) {
        let mut case = Case { subject, tables: Lent::new(&[0; LENGTH], 0), done: 0, failed: None };
        run_case(&mut case);
        if let Some(failure) = case.failed {
            return Err(format!("case \"{name}\": {failure}"));
        }
        done += case.done;
    }
    Ok(done)
}
