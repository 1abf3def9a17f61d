//! The cases of priority inheritance: chains, cycles, queues, and what a release gives back.

use crate::call::Call;
use crate::fuzz::cases::{Case, Named};
use crate::layout::{slot_at, QUEUED, READY};
use crate::status::FOREVER;

/// The semaphores of the first slots, each in its first generation.
const A: u32 = 65537;
const B: u32 = 65538;
const C: u32 = 65539;

impl Case<'_> {
    /// The semaphore of the next slot, which its owner holds from the start.
    fn held(&mut self, owner: u32, id: u32, attributes: u32, next: u32) {
        self.create(owner, 9, 0, attributes, [0, id, next]);
    }

    fn waits(&mut self, task: u32, id: u32, next: u32) {
        self.obtain(task, id, FOREVER, [100, 0, next]);
    }

    fn gives(&mut self, owner: u32, id: u32, next: u32) {
        self.release(owner, id, [0, 0, next]);
    }

    fn flush(&mut self, id: u32, next: u32) {
        self.expect(Call::Flush { caller: 0, id }, 0, 0, next);
    }

    /// A length in the tables and the numbers behind it.
    fn lists(&mut self, at: usize, numbers: &[u32]) {
        self.holds(at, numbers.len() as u32);
        (at + 1..).zip(numbers).for_each(|(at, &number)| self.holds(at, number));
    }

    fn queue(&mut self, id: u32, tasks: &[u32]) {
        self.lists(slot_at((id & 0xFFFF) as usize - 1) + QUEUED, tasks);
    }

    fn sequence(&mut self, tasks: &[u32]) {
        self.lists(READY, tasks);
    }
}

pub const CASES: [Named; 26] = [
    ("the radio waits for the display, which goes before the logger", |case| {
        radio_waits(case, 84, 3);
        case.gives(3, A, 1);
        // The display has its own number again.
        case.waits(1, B, 2);
        case.waits(2, B, 3);
    }),
    ("with 20 the logger goes first", |case| {
        radio_waits(case, 20, 2);
        case.gives(3, A, 1);
    }),
    ("with 16 the logger goes first", |case| {
        radio_waits(case, 16, 2);
        case.gives(3, A, 1);
    }),
    ("a chain over three tasks", |case| {
        chain_of_two(case, 84, 84, 3);
        case.gives(3, A, 2);
        case.gives(2, B, 1);
        case.gives(2, A, 1);
    }),
    ("a 20 at the end of a chain cuts it", |case| chain_of_two(case, 20, 84, 4)),
    ("a 20 at the begin of a chain cuts it", |case| chain_of_two(case, 84, 20, 4)),
    ("a chain of thirty links", |case| long_chain(case, 31)),
    ("a deadlock cycle of 31 tasks, and the chain of thirty links that a flush leaves", long_cycle),
    ("a flush ends a deadlock cycle", |case| {
        cycle_of_two(case);
        case.flush(A, 2);
        case.task(2, 13, 2);
        // Task 2 works with the number of task 1, which still waits for it.
        case.gives(2, B, 1);
        case.gives(1, B, 1);
        case.waits(1, C, 3);
        case.waits(3, C, 2);
    }),
    ("a tick ends a deadlock cycle", |case| {
        cycle_of_two(case);
        case.tick(3);
        case.tick(1);
        case.task(1, 6, 1);
        case.gives(1, A, 1);
        case.task(2, 0, 1);
    }),
    ("a flush in a cycle wakes by the numbers before it", |case| {
        case.start(2, &[20, 30, 5, 40], 3);
        case.held(1, A, 84, 3);
        case.held(2, B, 84, 3);
        case.waits(1, B, 3);
        case.waits(2, A, 3);
        case.waits(3, B, 4);
        // Through the cycle task 1 works with 5 too, and came first; afterwards with 20.
        case.flush(B, 3);
        case.sequence(&[4, 1, 3]);
    }),
    ("a queue is served by working priorities", |case| {
        boosted_in_a_queue(case, &[30, 20, 10, 1], &[1, 2]);
        case.queue(B, &[1, 2]);
        case.interrupt(B, 4);
        case.task(1, 0, 4);
        case.queue(B, &[2]);
    }),
    ("a 4 is served out of the middle of its queue", |case| out_of_the_middle(case, 4, [0; 4])),
    ("a 36 is served out of the middle of its queue", |case| out_of_the_middle(case, 36, [0; 4])),
    ("a 20 is served out of the middle of its queue", |case| out_of_the_middle(case, 20, [5, 2, 4, 3])),
    ("an 84 is served out of the middle of its queue", |case| out_of_the_middle(case, 84, [5, 2, 4, 3])),
    ("a tie by inheritance goes by arrival in a queue", |case| {
        boosted_in_a_queue(case, &[30, 10, 10, 1], &[2, 1]);
        case.interrupt(B, 4);
        case.task(2, 0, 4);
        case.task(1, 100, 4);
    }),
    ("a tie by inheritance goes to who came first, boosted or not", |case| {
        boosted_in_a_queue(case, &[30, 10, 10, 1], &[1, 2]);
        case.interrupt(B, 4);
        case.task(1, 0, 4);
        case.task(2, 100, 4);
    }),
    ("a tie by inheritance goes by the ready sequence", |case| {
        case.start(1, &[10, 30, 10], 1);
        case.held(2, A, 84, 1);
        case.waits(1, A, 2);
        case.sequence(&[2, 3]);
    }),
    ("a boost moves nobody in the ready sequence", |case| {
        case.start(1, &[10, 10, 30, 40], 1);
        case.held(3, A, 84, 1);
        case.waits(1, A, 2);
        case.sequence(&[2, 3, 4]);
    }),
    ("a nested owner keeps its boost to the outermost release", |case| {
        case.start(2, &[10, 20, 30], 1);
        case.held(3, A, 84, 1);
        case.create(1, 9, 0, 0, [0, B, 1]);
        case.obtain(3, A, FOREVER, [0, 0, 1]);
        case.waits(1, A, 3);
        case.gives(3, A, 3);
        case.gives(3, A, 1);
        case.waits(1, B, 2);
    }),
    ("two semaphores of one owner", |case| two_of_one_owner(case, A, B)),
    ("two semaphores of one owner, the higher slot lends more", |case| two_of_one_owner(case, B, A)),
    ("flush and delete wake a PRIORITY queue by working priorities", |case| {
        for (attributes, woken) in [(0, [1, 2, 3]), (4, [3, 2, 1]), (32, [1, 2, 3]), (36, [3, 2, 1])] {
            case.tables.bytes_mut().fill(0);
            case.start(1, &[30, 20, 10, 5], 4);
            case.create(4, 9, 0, attributes, [0, A, 4]);
            for deletes in [false, true] {
                (1..=3).for_each(|task| case.waits(task, A, 4));
                let call = match deletes {
                    true => Call::Delete { caller: 4, id: A },
                    false => Call::Flush { caller: 4, id: A },
                };
                case.expect(call, 0, 0, 4);
                case.sequence(&[4, woken[0], woken[1], woken[2]]);
            }
        }
    }),
    ("a wait that a tick ends in the middle of a chain", |case| {
        case.start(2, &[5, 20, 30, 10], 1);
        case.held(3, A, 84, 1);
        case.held(2, B, 84, 1);
        case.obtain(2, A, 1, [100, 0, 1]);
        case.waits(1, B, 3);
        case.tick(2);
        case.task(2, 6, 2);
        case.gives(2, B, 1);
        // Neither 2 nor 3 is waited for any more.
        case.waits(1, A, 3);
        case.gives(3, A, 1);
    }),
    ("84 is a binary semaphore, and 64 goes with nothing else", attributes),
];

/// Radio 10, logger 20, display 30: the display holds the bus, which has these attributes, and the radio waits for it.
fn radio_waits(case: &mut Case, attributes: u32, next: u32) {
    case.start(2, &[10, 20, 30], 1);
    case.held(3, A, attributes, 1);
    case.create(2, 9, 0, 0, [0, B, 1]);
    case.waits(1, A, next);
}

/// Task 1 waits for task 2's semaphore B, and 2 for 3's A, with these attributes; 4 is ready between.
fn chain_of_two(case: &mut Case, a: u32, b: u32, next: u32) {
    case.start(2, &[5, 20, 30, 10], 1);
    case.held(3, A, a, 1);
    case.held(2, B, b, 1);
    case.waits(2, A, 1);
    case.waits(1, B, next);
}

/// Each of the first tasks up to `last` waits for the one after it; the first is urgent, and task 32 is not quite.
fn long_chain(case: &mut Case, last: u32) {
    let mut priorities = [200; 32];
    (priorities[0], priorities[31]) = (1, 2);
    case.start(32, &priorities, 1);
    (2..=last).for_each(|task| case.held(task, 65535 + task, 84, 1));
    (2..last).rev().for_each(|task| case.waits(task, 65536 + task, 1));
    case.waits(1, 65537, last);
    case.sequence(&[last, 32]);
    // Each passes on what it was lent.
    for owner in (2..=last).rev() {
        case.gives(owner, 65535 + owner, owner - 1);
    }
}

/// Each of the first 31 tasks waits for the one after it, the last for the first, which alone is urgent; task 32 is not quite.
fn long_cycle(case: &mut Case) {
    let mut priorities = [200; 32];
    (priorities[0], priorities[31]) = (1, 2);
    case.start(32, &priorities, 1);
    (1..=31).for_each(|task| case.held(task, 65536 + task, 84, 1));
    (2..=30).for_each(|task| case.waits(task, 65537 + task, 1));
    case.waits(31, A, 1);
    case.waits(1, B, 32);
    case.flush(A, 31);
    case.sequence(&[32, 31]);
    case.gives(31, 65536 + 31, 30);
}

/// Tasks 1 and 2 own A and B, and each waits for the other, task 1 for two ticks; 3 is ready.
fn cycle_of_two(case: &mut Case) {
    case.start(3, &[5, 7, 6], 1);
    case.held(1, A, 84, 1);
    case.held(2, B, 84, 1);
    case.create(3, 9, 0, 0, [0, C, 1]);
    case.obtain(1, B, 2, [100, 0, 2]);
    case.waits(2, A, 3);
}

/// Tasks wait in the queue of counting B in this order, task 3 then for A, which task 1 owns; 4 is next all along.
fn boosted_in_a_queue(case: &mut Case, priorities: &[u32], order: &[u32]) {
    case.start(2, priorities, 4);
    case.held(1, A, 84, 4);
    case.create(4, 9, 0, 4, [0, B, 4]);
    order.iter().for_each(|&task| case.waits(task, B, 4));
    case.waits(3, A, 4);
}

/// Tasks 1 to 4 wait for A, which these release one after the other: the most urgent is served, of equals the first, the others stay.
fn out_of_the_middle(case: &mut Case, attributes: u32, releases: [u32; 4]) {
    case.start(1, &[30, 10, 20, 10, 1], 5);
    case.held(5, A, attributes, 5);
    (1..=4).for_each(|task| case.waits(task, A, 5));
    case.queue(A, &[1, 2, 3, 4]);
    for (caller, left) in releases.into_iter().zip([&[1, 3, 4][..], &[1, 3], &[1], &[]]) {
        case.gives(caller, A, 5);
        case.queue(A, left);
    }
    case.sequence(&[5, 2, 4, 3, 1]);
}

/// Task 4 owns A and B; task 1 waits for one, 2 for the other; each release takes back what its semaphore lent and no more.
fn two_of_one_owner(case: &mut Case, one: u32, other: u32) {
    case.start(3, &[10, 20, 15, 40, 30], 1);
    case.held(4, A, 84, 1);
    case.held(4, B, 84, 1);
    case.create(5, 9, 0, 0, [0, C, 1]);
    case.waits(2, other, 1);
    case.waits(1, one, 4);
    case.gives(4, one, 1);
    case.waits(1, C, 3);
    case.waits(3, C, 4);
    case.gives(4, other, 2);
    case.waits(2, C, 5);
    case.waits(5, C, 4);
}

fn attributes(case: &mut Case) {
    case.start(3, &[1, 2], 1);
    for attributes in [64, 65, 68, 80, 81, 85, 88, 96, 100, 112, 116, 148, 212, 340] {
        case.create_up_to([1, 9, 0, attributes, 1], [11, 0, 1]);
    }
    for (count, maximum) in [(2, 1), (0, 2), (1, 0), (2, 2), (1, u32::MAX)] {
        case.create_up_to([1, 9, count, 84, maximum], [10, 0, 1]);
    }
    case.create_up_to([1, 9, 1, 84, 1], [0, A, 1]);
    case.release(0, A, [23, 0, 1]);
    case.release(1, A, [23, 0, 1]);
    case.obtain(1, A, FOREVER, [0, 0, 1]);
    case.release(2, A, [23, 0, 1]);
    case.expect(Call::Delete { caller: 1, id: A }, 12, 0, 1);
    case.expect(Call::Obtain { caller: 2, id: A, options: 1, timeout: 0 }, 13, 0, 1);
    case.gives(1, A, 1);
    case.expect(Call::Delete { caller: 1, id: A }, 0, 0, 1);
    case.held(2, 131073, 84, 1);
    case.release(1, 131073, [23, 0, 1]);
}
