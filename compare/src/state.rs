//! The state file of document 02, No. 2 and No. 4: the tables of a started machine as bytes to send home,
//! which an unstarted machine reads back.

pub mod comparison;
pub mod damage;
pub mod read;
pub mod round;
pub mod seen;
pub mod sheet;
pub mod write;

use crate::call::{Answer, Manager};
use crate::layout::{self, Model};
use crate::model::Machine;
use crate::state::read::Fault;
use crate::status::*;

/// The edition that is written, and the one before it, which is still read and has no maxima.
pub const EDITION: u32 = 2;
pub const OLD_EDITION: u32 = 1;
pub const BODIES: usize = 4;
/// Bytes of the table of contents: edition, number of bodies, then kind, offset and length of each.
pub const CONTENTS: usize = 4 * (2 + 3 * BODIES);
/// Numbers of a task in body 1, and of a slot in body 2, where the maximum is the last.
pub const TASK_NUMBERS: usize = 4;
pub const SLOT_NUMBERS: usize = 8;
pub const OLD_SLOT_NUMBERS: usize = SLOT_NUMBERS - 1;
/// Bytes of the longest file. A task also stands once in body 3 or 4, and each slot has a queue length.
pub const LONGEST: usize =
    CONTENTS + 4 * ((TASK_NUMBERS + 1) * MOST_TASKS + (SLOT_NUMBERS + 1) * MOST_SLOTS);

/// Numbers of a slot in body 2 of a file of this edition.
pub fn slot_numbers(edition: u32) -> usize {
    match edition {
        OLD_EDITION => OLD_SLOT_NUMBERS,
        _ => SLOT_NUMBERS,
    }
}

/// A manager that also writes and reads state files.
pub trait Keeper: Manager {
    /// Writes the file of the tables to the front of `file`; the value is its length.
    fn save(&mut self, tables: &[u8], file: &mut [u8]) -> Answer;
    /// Makes the tables of an unstarted machine those whose file `file` is.
    fn load(&mut self, tables: &mut [u8], file: &[u8]) -> Answer;
}

fn refused(status: u32, machine: &Machine) -> Answer {
    Answer::new(status, 0, machine.next_task())
}

impl Keeper for Model {
    fn save(&mut self, tables: &[u8], file: &mut [u8]) -> Answer {
        let Some(machine) = layout::read(tables) else { return Answer::DISAGREE };
        if machine.tasks.is_empty() {
            return refused(INCORRECT_STATE, &machine);
        }
        let written = write::write(&machine);
        let Some(front) = file.get_mut(..written.len()) else { return refused(INVALID_SIZE, &machine) };
        front.copy_from_slice(&written);
        Answer::new(SUCCESSFUL, written.len() as u32, machine.next_task())
    }

    fn load(&mut self, tables: &mut [u8], file: &[u8]) -> Answer {
        load_or_fault(tables, file).0
    }
}

/// A load, with the fault of a file that it refuses.
pub fn load_or_fault(tables: &mut [u8], file: &[u8]) -> (Answer, Option<Fault>) {
    let Some(machine) = layout::read(tables) else { return (Answer::DISAGREE, None) };
    if !machine.tasks.is_empty() {
        return (refused(INCORRECT_STATE, &machine), None);
    }
    match read::read(file) {
        Err(fault) => (refused(INVALID_SIZE, &machine), Some(fault)),
        Ok(loaded) => {
            layout::write_into(&loaded, tables);
            (Answer::new(SUCCESSFUL, 0, loaded.next_task()), None)
        }
    }
}
