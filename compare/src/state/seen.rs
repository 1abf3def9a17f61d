//! What has occurred in a comparison of state files, and what has to.

use std::collections::BTreeMap;

use crate::call::Answer;
use crate::fuzz::coverage::has_queue_against_priorities;
use crate::history;
use crate::model::{Class, Machine, State, Task};
use crate::state::read::{only_maxima_are_wrong, Fault};
use crate::state::{write, EDITION, LONGEST, OLD_EDITION};
use crate::status::{LAST_GENERATION, STANDARD_LIMIT, SUCCESSFUL};

/// What is saved.
pub mod saves {
    pub const STARTED: &str = "started tables";
    pub const UNSTARTED: &str = "unstarted tables";
    pub const UNSTARTED_SHORT: &str = "unstarted tables, a buffer too short for any";
    pub const DAMAGED: &str = "damaged tables";
    pub const DAMAGED_SHORT: &str = "damaged tables, a buffer too short for any";
    pub const LENGTH: &str = "tables of another length";
    pub const LOADED: &str = "tables loaded from a damaged file";
}

/// What is loaded, on an unstarted machine unless it is said.
pub mod loads {
    pub const RIGHT: &str = "the file saved";
    pub const STARTED: &str = "the file saved, on started tables";
    pub const STARTED_WRONG: &str = "a wrong file, on started tables";
    pub const DAMAGED: &str = "the file saved, on damaged tables";
    pub const DAMAGED_WRONG: &str = "a wrong file, on damaged tables";
    pub const LENGTH: &str = "the file saved, on tables of another length";
    pub const BYTE: &str = "damaged: a byte altered";
    pub const CUT: &str = "damaged: cut";
    pub const LONGER: &str = "damaged: bytes behind it";
    pub const WORD: &str = "damaged: a word replaced";
    pub const EXCHANGED: &str = "damaged: two words exchanged";
    pub const RECOUNTED: &str = "damaged: other counts of tasks or slots";
    pub const RESIZED: &str = "damaged: a body of another length";
    pub const MISPLACED: &str = "damaged: bodies misplaced";
    pub const WRAPPED: &str = "damaged: a length below zero";
    pub const TABLES: &str = "damaged: made from damaged tables";
    pub const RANDOM: &str = "damaged: random bytes";
    pub const BODIES: &str = "damaged: random bodies";
}

/// The statuses that each has to get, loads in both editions. Damage may also leave the tables in agreement or the file valid.
const SAVES: [(&str, &[u32]); 7] = [
    (saves::STARTED, &[0, 8]),
    (saves::UNSTARTED, &[14]),
    (saves::UNSTARTED_SHORT, &[14]),
    (saves::DAMAGED, &[0, 25]),
    (saves::DAMAGED_SHORT, &[8, 25]),
    (saves::LENGTH, &[25]),
    (saves::LOADED, &[0]),
];
const LOADS: [(&str, &[u32]); 18] = [
    (loads::RIGHT, &[0]),
    (loads::STARTED, &[14]),
    (loads::STARTED_WRONG, &[14]),
    (loads::DAMAGED, &[14, 25]),
    (loads::DAMAGED_WRONG, &[14, 25]),
    (loads::LENGTH, &[25]),
    (loads::BYTE, &[0, 8]),
    (loads::CUT, &[8]),
    (loads::LONGER, &[8]),
    (loads::WORD, &[0, 8]),
    (loads::EXCHANGED, &[0, 8]),
    (loads::RECOUNTED, &[0, 8]),
    (loads::RESIZED, &[8]),
    (loads::MISPLACED, &[8]),
    (loads::WRAPPED, &[8]),
    (loads::TABLES, &[0, 8]),
    (loads::RANDOM, &[8]),
    (loads::BODIES, &[8]),
];

/// Tables that have to be among those saved, and what has to follow a load.
const HAPPENINGS: [&str; 30] = [
    "saved: the longest file",
    "saved: no task ready",
    "saved: no task waiting",
    "saved: a queue of 8 or more",
    "saved: three queues or more",
    "saved: no live slot",
    "saved: a free slot of generation 65535",
    "saved: a live slot of generation 65535",
    "calls after a load of the file saved",
    "calls after a load of a damaged file",
    "ident after a load matched behind slot 1",
    "ident after a load matched nothing",
    "loaded: edition 1 with a live counting semaphore",
    "loaded: edition 1 with a live binary semaphore",
    "loaded: edition 1 with a live simple binary semaphore",
    "loaded: edition 1 with a free slot",
    "saved: a maximum that is neither 1 nor 4294967295",
    "refused: edition 2 for its maxima alone",
    "loaded: edition 2 with a wait for ever",
    "loaded: edition 2 with a wait of the standard limit",
    "loaded: edition 2 with a wait of 4294967295 ticks",
    "loaded: edition 1 with a wait for ever",
    "loaded: edition 1 with a wait of the standard limit",
    "loaded: edition 1 with a wait of 4294967295 ticks",
    "loaded: edition 2 with a semaphore that lends",
    "loaded: edition 2 with a PRIORITY queue against its priorities",
    "loaded: edition 2, next being another by inheritance",
    "loaded: edition 1 with a semaphore that lends",
    "loaded: edition 1 with a PRIORITY queue against its priorities",
    "loaded: edition 1, next being another by inheritance",
];

type Counts<Key> = BTreeMap<Key, u64>;

#[derive(Default)]
pub struct Seen {
    saves: Counts<(&'static str, u32)>,
    /// Each with the edition of the file before it was damaged.
    loads: Counts<(&'static str, u32, u32)>,
    faults: Counts<(Fault, u32)>,
    happenings: Counts<&'static str>,
    /// What happened in the histories that began with a load.
    pub histories: history::seen::Seen,
}

impl Seen {
    pub fn saved(&mut self, part: &'static str, status: u32) {
        *self.saves.entry((part, status)).or_default() += 1;
    }

    /// Counts a load, and the fault of a file that was refused.
    pub fn loaded(&mut self, edition: u32, part: &'static str, status: u32, fault: Option<Fault>) {
        *self.loads.entry((part, status, edition)).or_default() += 1;
        if let Some(fault) = fault {
            *self.faults.entry((fault, edition)).or_default() += 1;
        }
    }

    /// Counts an edition 2 file that is refused for a maximum and for nothing else.
    pub fn refused_for_maxima(&mut self, edition: u32, fault: Option<Fault>, file: &[u8]) {
        let of_tables = matches!(fault, Some(Fault::Agreement | Fault::Rewritten));
        let alone = edition == EDITION && of_tables && only_maxima_are_wrong(file);
        self.happened(HAPPENINGS[17], alone);
    }

    fn happened(&mut self, name: &'static str, it_did: bool) {
        if it_did {
            *self.happenings.entry(name).or_default() += 1;
        }
    }

    /// Counts calls that followed a load.
    pub fn went_on(&mut self, part: &'static str) {
        self.happened(HAPPENINGS[8], part == loads::RIGHT);
        self.happened(HAPPENINGS[9], part != loads::RIGHT);
    }

    /// Counts an ident that followed a load and the slots that it looked at.
    pub fn looked(&mut self, answer: Answer, looked: u32) {
        let found = answer.status == SUCCESSFUL;
        self.happened(HAPPENINGS[10], found && looked > 1);
        self.happened(HAPPENINGS[11], !found && looked > 0);
    }

    /// Counts what a round's tables are like.
    pub fn drew(&mut self, machine: &Machine) {
        let last = |live: bool| {
            let mut slots = machine.slots.iter();
            slots.any(|slot| slot.generation == LAST_GENERATION && slot.live.is_some() == live)
        };
        let queues_from = |length: usize| {
            let live = machine.slots.iter().filter_map(|slot| slot.live.as_ref());
            live.filter(|live| live.queue.len() >= length).count()
        };
        let ready = machine.ready.len();
        self.happened(HAPPENINGS[0], write::write(machine).len() == LONGEST);
        self.happened(HAPPENINGS[1], ready == 0);
        self.happened(HAPPENINGS[2], ready == machine.tasks.len());
        self.happened(HAPPENINGS[3], queues_from(8) > 0);
        self.happened(HAPPENINGS[4], queues_from(1) >= 3);
        self.happened(HAPPENINGS[5], queues_from(0) == 0);
        self.happened(HAPPENINGS[6], last(false));
        self.happened(HAPPENINGS[7], last(true));
        let mut live = machine.slots.iter().filter_map(|slot| slot.live.as_ref());
        self.happened(HAPPENINGS[16], live.any(|live| (2..u32::MAX).contains(&live.maximum)));
        self.drew_waits(18, machine);
        self.drew_priorities(24, machine);
    }

    /// Counts what waits are in the tables, by the happenings from this one on.
    fn drew_waits(&mut self, first: usize, machine: &Machine) {
        for (place, wanted) in (first..).zip([0, STANDARD_LIMIT, u32::MAX]) {
            let waits =
                |task: &Task| matches!(task.state, State::Waiting { ticks, .. } if ticks == wanted);
            self.happened(HAPPENINGS[place], machine.tasks.iter().any(waits));
        }
    }

    /// Counts what goes by working priorities in the tables, by the happenings from this one on.
    fn drew_priorities(&mut self, first: usize, machine: &Machine) {
        self.happened(HAPPENINGS[first], machine.lenders().next().is_some());
        self.happened(HAPPENINGS[first + 1], has_queue_against_priorities(machine));
        let by_own = machine.next_by(&machine.working_with(0));
        self.happened(HAPPENINGS[first + 2], machine.next_task() != by_own);
    }

    /// Counts what a round's tables are like that are loaded from edition 1.
    pub fn drew_old(&mut self, machine: &Machine) {
        let of = |class: Class| {
            let mut live = machine.slots.iter().filter_map(|slot| slot.live.as_ref());
            live.any(|live| live.class == class)
        };
        self.happened(HAPPENINGS[12], of(Class::Counting));
        self.happened(HAPPENINGS[13], of(Class::Binary));
        self.happened(HAPPENINGS[14], of(Class::SimpleBinary));
        self.happened(HAPPENINGS[15], machine.slots.iter().any(|slot| slot.live.is_none()));
        self.drew_waits(21, machine);
        self.drew_priorities(27, machine);
    }

    /// What has to occur and did not.
    pub fn gaps(&self) -> Vec<String> {
        let missing = each(&SAVES).filter(|key| !self.saves.contains_key(key));
        let mut gaps: Vec<String> =
            missing.map(|(part, status)| format!("save never answered {status}: {part}")).collect();
        for edition in [EDITION, OLD_EDITION] {
            let unseen = |(part, status): &_| !self.loads.contains_key(&(*part, *status, edition));
            let missing = each(&LOADS).filter(unseen);
            gaps.extend(missing.map(|(part, status)| {
                format!("load of edition {edition} never answered {status}: {part}")
            }));
            let unseen =
                Fault::ALL.iter().filter(|fault| !self.faults.contains_key(&(**fault, edition)));
            gaps.extend(unseen.map(|fault| format!("no file of edition {edition} refused for {fault}")));
        }
        let missing = HAPPENINGS.iter().filter(|name| !self.happenings.contains_key(*name));
        gaps.extend(missing.map(|name| format!("never: {name}")));
        gaps.extend(self.histories.gaps_after_loads());
        gaps
    }

    pub fn table(&self) -> String {
        let mut table = String::new();
        for ((part, status), count) in &self.saves {
            table += &format!("  {count:>10} save {status:<2} {part}\n");
        }
        for ((part, status, edition), count) in &self.loads {
            table += &format!("  {count:>10} load {status:<2} edition {edition}, {part}\n");
        }
        for ((fault, edition), count) in &self.faults {
            table += &format!("  {count:>10} edition {edition} refused for {fault}\n");
        }
        for (name, count) in &self.happenings {
            table += &format!("  {count:>10} {name}\n");
        }
        table += &self.histories.table();
        let saves = self.saves.iter().map(|((_, status), count)| (*status, *count));
        table + &totals("saves", saves) + &self.load_totals()
    }

    fn load_totals(&self) -> String {
        let all = self.loads.iter().map(|((_, status, _), count)| (*status, *count));
        let damaged = self.loads.iter().filter(|((part, ..), _)| part.starts_with("damaged: "));
        let damaged = damaged.map(|((_, status, _), count)| (*status, *count));
        totals("loads", all) + &totals("loads of damaged files", damaged)
    }
}

/// Each part with each status that it has to get.
fn each(wanted: &'static [(&'static str, &'static [u32])]) -> impl Iterator<Item = (&'static str, u32)> {
    wanted.iter().flat_map(|&(part, statuses)| statuses.iter().map(move |&status| (part, status)))
}

/// One line with the count of each status.
fn totals(what: &str, seen: impl Iterator<Item = (u32, u64)>) -> String {
    let mut sums: Counts<u32> = BTreeMap::new();
    for (status, count) in seen {
        *sums.entry(status).or_default() += count;
    }
    let each: Vec<String> =
        sums.iter().map(|(status, count)| format!("{count} with {status}")).collect();
    format!("{what}: {}\n", each.join(", "))
}
