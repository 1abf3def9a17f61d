//! A state file in pieces, to be put together rightly or wrongly.

use crate::layout::set_word;
use crate::model::Machine;
use crate::state::write::bodies_in;
use crate::state::{slot_numbers, BODIES, EDITION, OLD_EDITION, TASK_NUMBERS};
use crate::status::{MOST_SLOTS, MOST_TASKS};

/// The bodies with their kinds, in the order of the file, and the two first numbers.
#[derive(Clone, Debug)]
pub struct Sheet {
    pub edition: u32,
    pub count: u32,
    pub bodies: Vec<(u32, Vec<u32>)>,
    /// Before which body four bytes lie that belong to none.
    pub gap: Option<usize>,
}

impl Sheet {
    pub fn new(edition: u32, bodies: [Vec<u32>; BODIES]) -> Self {
        Sheet { edition, count: BODIES as u32, bodies: (1..).zip(bodies).collect(), gap: None }
    }

    pub fn of(edition: u32, machine: &Machine) -> Self {
        Sheet::new(edition, bodies_in(edition, machine))
    }

    /// The numbers of a body, by its place from 0.
    pub fn body(&mut self, index: usize) -> &mut Vec<u32> {
        &mut self.bodies[index].1
    }

    /// The file, its table of contents as long as the bodies need it.
    pub fn file(&self) -> Vec<u8> {
        let mut contents = vec![self.edition, self.count];
        let mut numbers = Vec::new();
        let first = 2 + 3 * self.bodies.len();
        for (index, (kind, body)) in self.bodies.iter().enumerate() {
            if self.gap == Some(index) {
                numbers.push(0);
            }
            contents.extend([*kind, 4 * (first + numbers.len()) as u32, 4 * body.len() as u32]);
            numbers.extend(body);
        }
        contents.iter().chain(&numbers).flat_map(|number| number.to_be_bytes()).collect()
    }

    /// The same with as many tasks: new ones are ready, and the last ones go from body 1 and the ready sequence.
    pub fn with_tasks(mut self, count: usize) -> Self {
        let tasks = self.body(0).len() / TASK_NUMBERS;
        self.body(0).truncate(count * TASK_NUMBERS);
        self.body(3).retain(|&number| number as usize <= count);
        for number in tasks..count {
            self.body(0).extend([1, 0, 0, 0]);
            self.body(3).push(number as u32 + 1);
        }
        self
    }

    /// The same with as many slots: new ones are free, and the last ones go with their queues.
    pub fn with_slots(mut self, count: usize) -> Self {
        let numbers = slot_numbers(self.edition);
        self.body(1).resize(count * numbers, 0);
        let mut at = 0;
        for _ in 0..count {
            match self.body(2).get(at) {
                Some(&length) => at += 1 + length as usize,
                None => {
                    self.body(2).push(0);
                    at += 1;
                }
            }
        }
        self.body(2).truncate(at);
        self
    }

    /// Counts of tasks or slots around those of the machine, around the limits, and none.
    pub fn recounted(&self) -> Vec<(String, Sheet)> {
        let tasks = self.bodies[0].1.len() / TASK_NUMBERS;
        let slots = self.bodies[1].1.len() / slot_numbers(self.edition);
        let tasks_to = [0, tasks - 1, tasks + 1, MOST_TASKS, MOST_TASKS + 1, MOST_TASKS + 2, 64];
        let slots_to = [0, slots - 1, slots + 1, MOST_SLOTS, MOST_SLOTS + 1, MOST_SLOTS + 2, 128];
        let mut made = Vec::new();
        for count in tasks_to.into_iter().filter(|&count| count != tasks) {
            made.push((format!("{count} tasks"), self.clone().with_tasks(count)));
        }
        for count in slots_to.into_iter().filter(|&count| count != slots) {
            made.push((format!("{count} slots"), self.clone().with_slots(count)));
        }
        made
    }

    /// The bodies as they are, put together as no file is.
    pub fn misplaced(&self) -> Vec<(String, Sheet)> {
        let mut made = Vec::new();
        let mut add = |name: &str, alter: &dyn Fn(&mut Sheet)| {
            let mut sheet = self.clone();
            alter(&mut sheet);
            made.push((name.to_string(), sheet));
        };
        add("edition 0", &|sheet| sheet.edition = 0);
        add("edition 3", &|sheet| sheet.edition = 3);
        add("the other edition", &|sheet| sheet.edition = EDITION + OLD_EDITION - sheet.edition);
        add("3 bodies said", &|sheet| sheet.count = 3);
        add("5 bodies said", &|sheet| sheet.count = 5);
        add("3 bodies", &|sheet| {
            sheet.count = 3;
            sheet.bodies.truncate(3);
        });
        for kind in [0, 4, 5] {
            add(&format!("a fifth body of kind {kind}"), &|sheet| {
                sheet.count = 5;
                sheet.bodies.push((kind, Vec::new()));
            });
        }
        add("a fifth body not said", &|sheet| sheet.bodies.push((5, Vec::new())));
        add("all bodies empty", &|sheet| sheet.bodies.iter_mut().for_each(|body| body.1.clear()));
        for index in 0..BODIES {
            add(&format!("a gap before body {}", index + 1), &|sheet| sheet.gap = Some(index));
            add(&format!("body {} without a kind", index + 1), &|sheet| sheet.bodies[index].0 = 0);
            let next = (index + 1) % BODIES;
            add(&format!("body {} exchanged", index + 1), &|sheet| sheet.bodies.swap(index, next));
        }
        made
    }
}

/// The file with one body's length below zero, all else being right where sums pass over 4294967295.
pub fn wrapped(file: &[u8], index: usize, back: u32) -> Vec<u8> {
    let mut wrapped = file.to_vec();
    let mut offset = 4 * (2 + 3 * BODIES) as u32;
    for body in 0..BODIES {
        let said = &file[4 * (4 + 3 * body)..][..4];
        let length = match body {
            _ if body == index => back.wrapping_neg(),
            3 => (file.len() as u32).wrapping_sub(offset),
            _ => u32::from_be_bytes([said[0], said[1], said[2], said[3]]),
        };
        set_word(&mut wrapped, 3 + 3 * body, offset);
        set_word(&mut wrapped, 4 + 3 * body, length);
        offset = offset.wrapping_add(length);
    }
    wrapped
}
