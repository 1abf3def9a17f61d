//! Random runs as lent numbers, many of them with lengths or numbers that do not fit.

use std::collections::BTreeMap;

use crate::call::Answer;
use crate::fuzz::generate::TICKS_LEFT;
use crate::fuzz::rng::Rng;
use crate::layout::{
    set_word, slot_at, task_at, word, LENGTH, MAXIMUM, READY, SEQUENCE, SLOTS, TASKS, TICKS,
};
use crate::sections::draw::random_run;
use crate::sections::lent::{Lent, GRANTS, PLACES};
use crate::sections::read::read;
use crate::sections::rows::{ROW, SCRIPT};
use crate::status::MOST_TASKS;

/// What can be wrong with what is lent, besides what a text can say.
const DAMAGES: [&str; 18] = [
    "none",
    "places too short",
    "places longer",
    "grants too short",
    "grants longer",
    "ids and cells of different length",
    "locals not 256",
    "scripts cut short",
    "more scripts than tasks",
    "a row out of place",
    "a number of the scripts",
    "a number of the events",
    "events cut short",
    "a byte of the tables",
    "two places of the ready sequence swapped",
    "a word of the ready sequence",
    "the maximum of a slot",
    "the ticks left of a task",
];

/// A run as numbers with the name of its damage, or nothing if the seed's text is no run.
pub fn random_lent(seed: u64) -> Option<(Lent, &'static str)> {
    let input = read(&random_run(seed)).ok()?;
    let mut rng = Rng::new(!seed);
    let mut lent = Lent::new(&input, rng.word());
    let kind = if rng.chance(50) { 0 } else { rng.below(DAMAGES.len()) };
    damage(&mut rng, &mut lent, kind);
    Some((lent, DAMAGES[kind]))
}

fn damage(rng: &mut Rng, lent: &mut Lent, kind: usize) {
    match kind {
        0 => {}
        1 => lent.places.truncate(rng.below(2 * MOST_TASKS)),
        2 => lent.places.resize(PLACES + rng.pick(&[1, 2, 100]), 7),
        3 => lent.grants.truncate(rng.pick(&[0, 1, 2, GRANTS - 1])),
        4 => lent.grants.resize(GRANTS + rng.pick(&[1, 2, 100]), 7),
        5 if rng.chance(50) => lent.ids.push(65537),
        5 => lent.cells.push(1),
        6 => lent.locals.resize(rng.pick(&[0, 1, 8, 255, 257, 512]), 3),
        7 => lent.scripts.truncate(rng.below(lent.scripts.len() + 1)),
        8 => {
            let tasks = 1..=rng.between(30, 60);
            lent.scripts = tasks.flat_map(|task| [SCRIPT, task, 0, 0]).collect();
            lent.places.resize(2 * rng.between(30, 60) as usize, 9);
        }
        9 => {
            let row = [rng.between(0, 7), 65537, rng.below(3) as u32, 0];
            let at = rng.below(lent.scripts.len() / ROW + 1) * ROW;
            lent.scripts.splice(at..at, row).for_each(drop);
        }
        10 => replace(rng, &mut lent.scripts),
        11 => replace(rng, &mut lent.events),
        12 => lent.events.truncate(rng.below(lent.events.len() + 1)),
        13 if rng.chance(20) => lent.tables.resize(rng.pick(&[0, 1, LENGTH - 1, LENGTH + 1]), 0),
        _ => damage_tables(rng, &mut lent.tables, kind),
    }
}

fn damage_tables(rng: &mut Rng, tables: &mut [u8], kind: usize) {
    match kind {
        13 => {
            // Most bytes may not change; the low byte of task 1's priority may.
            let any = rng.below(tables.len());
            let at = rng.pick(&[any, 4 * task_at(1) + 3]);
            tables[at] ^= 1 << rng.below(8);
        }
        14 => {
            let ready = (word(tables, READY) as usize).max(1);
            let (one, other) = (SEQUENCE + rng.below(ready), SEQUENCE + rng.below(ready));
            let (first, second) = (word(tables, one), word(tables, other));
            set_word(tables, one, second);
            set_word(tables, other, first);
        }
        15 => {
            let ready = word(tables, READY) as usize;
            let at = READY + rng.below(ready + 2).min(MOST_TASKS);
            set_word(tables, at, rng.pick(&[0, 1, 2, 3, 4, 33, u32::MAX]));
        }
        16 => {
            let slots = word(tables, SLOTS) as usize;
            let at = slot_at(rng.below(slots.max(1))) + MAXIMUM;
            set_word(tables, at, rng.pick(&[0, 1, 1, 2, 12, u32::MAX]));
        }
        _ => {
            // It is mostly the last task that waits at the outset.
            let last = word(tables, TASKS).max(1);
            let task = rng.pick(&[1, last, last]);
            set_word(tables, task_at(task) + TICKS, rng.pick(&TICKS_LEFT));
        }
    }
}

fn replace(rng: &mut Rng, numbers: &mut [u32]) {
    if !numbers.is_empty() {
        let any = rng.word();
        numbers[rng.below(numbers.len())] = rng.pick(&[0, 1, 2, 3, 5, 8, 9, 10, 65537, u32::MAX, any]);
    }
}

/// How often each damage got each status.
#[derive(Default)]
pub struct Statuses {
    seen: BTreeMap<(&'static str, u32), u64>,
}

impl Statuses {
    /// What has to occur: each damage, what it is refused with, and runs that all the same are not refused.
    pub fn gaps(&self) -> Vec<String> {
        let refused = [1, 5, 6, 8, 9, 10, 11, 12].map(|kind| (DAMAGES[kind], 11));
        let fine = [0, 2, 3, 4, 7, 10, 11, 12, 13, 14, 15, 16, 17].map(|kind| (DAMAGES[kind], 0));
        let damaged = [13, 15, 16, 17].map(|kind| (DAMAGES[kind], 25));
        let others = [(DAMAGES[0], 4), (DAMAGES[0], 11), (DAMAGES[8], 4)];
        let wanted = refused.iter().chain(&fine).chain(&damaged).chain(&others);
        let missing = wanted.filter(|key| !self.seen.contains_key(key));
        missing.map(|(name, status)| format!("never seen: {name}, {status}")).collect()
    }

    pub fn table(&self) -> String {
        let line =
            |((name, status), count): (&(&str, u32), &u64)| format!("  {count:>10} {name}: {status}\n");
        self.seen.iter().map(line).collect()
    }
}

/// Runs a seed's numbers here and on the subject; false if the seed's text is no run.
pub fn compare_lent(
    seed: u64,
    subject: &mut dyn FnMut(&mut Lent) -> Answer,
    statuses: &mut Statuses,
) -> Result<bool, String> {
    let Some((handed, name)) = random_lent(seed) else { return Ok(false) };
    let (mut wanted, mut found) = (handed.clone(), handed);
    let answers = (wanted.run(), subject(&mut found));
    *statuses.seen.entry((name, answers.0.status)).or_default() += 1;
    if answers.0 != answers.1 {
        return Err(format!("run {seed}, {name}: independent {:?}, subject {:?}", answers.0, answers.1));
    }
    match wanted.difference(&found) {
        Some(difference) => Err(format!("run {seed}, {name}: {difference}")),
        None => Ok(true),
    }
}
