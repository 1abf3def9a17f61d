//! What a comparison has to have seen of tables and lists that disagree.

use crate::itron::facade::list_agrees;
use crate::itron::seen::Seen;
use crate::itron::{ENTRIES, E_SYS, MOST_MAPPED};
use crate::layout::{self, LENGTH};
use crate::model::{Class, Machine};

const TABLES: [&str; 5] = [
    "E_SYS for the tables' length alone: a byte too short",
    "E_SYS for the tables' length alone: a byte too long",
    "E_SYS for the tables alone, the list being empty",
    "E_SYS for the tables, the list having entries",
    "E_SYS on an unstarted machine for its list",
];

const LENGTHS: [&str; 4] = [
    "E_SYS for the list's length alone: 0",
    "E_SYS for the list's length alone: 63",
    "E_SYS for the list's length alone: 65",
    "E_SYS for the list's length alone: another",
];

/// What can be wrong with an entry of a list where nothing else is, and that alone.
const BEHIND: &str = "E_SYS for one entry alone: behind S";
const TWICE: &str = "E_SYS for one entry alone: an identifier that is there already";
const NOT_LIVE: &str = "E_SYS for one entry alone: no live semaphore";
const BINARY: &str = "E_SYS for one entry alone: binary";
const SIMPLE_BINARY: &str = "E_SYS for one entry alone: simple binary";
const TOO_GREAT: &str = "E_SYS for one entry alone: a maximum above 2147483647";
const FAULTS: [&str; 6] = [BEHIND, TWICE, NOT_LIVE, BINARY, SIMPLE_BINARY, TOO_GREAT];

const EXACTLY: [&str; 2] =
    ["E_SYS for one entry alone: the maximum 2147483648", "agreed with the maximum 2147483647"];

/// All that has to have happened.
pub fn wanted() -> impl Iterator<Item = &'static str> {
    TABLES.into_iter().chain(LENGTHS).chain(FAULTS).chain(EXACTLY)
}

impl Seen {
    /// Counts a call on tables that are a byte too short or too long, where nothing else is wrong.
    pub fn saw_length(&mut self, tables: &[u8], list: &[u32], code: i32) {
        let name = match tables.len() {
            length if length + 1 == LENGTH => "E_SYS for the tables' length alone: a byte too short",
            length if length == LENGTH + 1 => "E_SYS for the tables' length alone: a byte too long",
            _ => return,
        };
        let mut whole = tables.to_vec();
        whole.resize(LENGTH, 0);
        let agrees = layout::read(&whole).is_some_and(|machine| list_agrees(&machine, list));
        self.happened(name, code == E_SYS && agrees);
    }

    /// Counts a call by what of tables and list disagreed, if anything.
    pub fn saw_agreement(&mut self, before: Option<&Machine>, list: &[u32], code: i32) {
        let Some(machine) = before else {
            let empty = list.iter().all(|&id| id == 0);
            let alone = list.len() == ENTRIES && empty;
            self.happened("E_SYS for the tables alone, the list being empty", code == E_SYS && alone);
            self.happened("E_SYS for the tables, the list having entries", code == E_SYS && !empty);
            return;
        };
        let faults: Vec<&str> =
            (0..list.len()).filter_map(|place| fault(machine, list, place)).collect();
        if list.len() != ENTRIES {
            let name = match list.len() {
                0 => "E_SYS for the list's length alone: 0",
                63 => "E_SYS for the list's length alone: 63",
                65 => "E_SYS for the list's length alone: 65",
                _ => "E_SYS for the list's length alone: another",
            };
            self.happened(name, code == E_SYS && faults.is_empty());
            return;
        }
        let unstarted = machine.tasks.is_empty();
        self.happened("E_SYS on an unstarted machine for its list", code == E_SYS && unstarted);
        if let [only] = faults[..] {
            self.happened(only, code == E_SYS);
        }
        let of_maximum = |maximum| {
            let mut live = list.iter().filter_map(|&id| machine.semaphore(id));
            live.any(|live| live.class == Class::Counting && live.maximum == maximum)
        };
        let next_above = faults == [TOO_GREAT] && of_maximum(MOST_MAPPED + 1);
        self.happened("E_SYS for one entry alone: the maximum 2147483648", next_above);
        let greatest = faults.is_empty() && of_maximum(MOST_MAPPED);
        self.happened("agreed with the maximum 2147483647", greatest);
    }
}

/// What of `FAULTS` is wrong with an entry.
fn fault(machine: &Machine, list: &[u32], place: usize) -> Option<&'static str> {
    let id = list[place];
    if id == 0 {
        return None;
    }
    if place >= machine.slots.len() {
        return Some(BEHIND);
    }
    let Some(live) = machine.semaphore(id) else { return Some(NOT_LIVE) };
    match live.class {
        Class::Binary => Some(BINARY),
        Class::SimpleBinary => Some(SIMPLE_BINARY),
        Class::Counting if live.maximum > MOST_MAPPED => Some(TOO_GREAT),
        Class::Counting => list[..place].contains(&id).then_some(TWICE),
    }
}
