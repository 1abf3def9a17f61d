//! Guarded sections, from document 01 alone: what is handed to the runner, and what it hands back.

pub mod check;
pub mod coverage;
pub mod damage;
pub mod draw;
pub mod lent;
pub mod plain;
pub mod read;
pub mod refusals;
pub mod rows;
pub mod runner;
pub mod spoil;
pub mod write;

use crate::call::{Answer, Call};
use crate::model::Machine;
use crate::status::MOST_TASKS;

pub const MOST_SECTIONS: usize = 8;
pub const MOST_STEPS: usize = 16;
pub const MOST_CELLS: usize = 64;
/// Locals of each task.
pub const LOCALS: usize = 8;
/// The attributes of semaphores that sections may use.
pub const GUARDS: [u32; 3] = [16, 20, 84];

/// A step with its numbers as handed in; `Unknown` is anything handed in that is none of the four.
#[derive(Clone, Copy, Debug, PartialEq, Eq)]
pub enum Step {
    Load {
        cell: u32,
        local: u32,
    },
    Store {
        local: u32,
        cell: u32,
    },
    Set {
        local: u32,
        number: u32,
    },
    /// `other` becomes the sum.
    Add {
        local: u32,
        other: u32,
    },
    Unknown,
}

#[derive(Clone, Debug, PartialEq, Eq)]
pub struct Section {
    pub id: u32,
    pub options: u32,
    pub timeout: u32,
    pub steps: Vec<Step>,
}

#[derive(Clone, Debug, PartialEq, Eq)]
pub struct Script {
    pub task: u32,
    pub sections: Vec<Section>,
}

/// The locals of tasks 1 to 32.
pub type Locals = [[u32; LOCALS]; MOST_TASKS];

/// What steps read and write, and all that the plain run has.
#[derive(Clone, Debug, Default, PartialEq, Eq)]
pub struct Data {
    pub cells: Vec<u32>,
    pub locals: Locals,
}

/// A turn of a script's task, a call by someone else or a tick; `Unknown` is anything else handed in.
#[derive(Clone, Debug, PartialEq, Eq)]
pub enum Event {
    Turn(u32),
    Call(Call),
    Unknown,
}

/// All that a run is handed; each cell belongs to the identifier at its place in `ids`.
#[derive(Clone, Debug, Default, PartialEq, Eq)]
pub struct Input {
    pub machine: Machine,
    pub ids: Vec<u32>,
    pub data: Data,
    pub scripts: Vec<Script>,
    pub events: Vec<Event>,
}

/// Where a script stands: at position 0 the obtain comes next or is waited for, at p the p-th step, one
/// behind the last step the release. A finished script stands behind its last section.
#[derive(Clone, Copy, Debug, Default, PartialEq, Eq)]
pub struct Place {
    pub section: usize,
    pub position: usize,
}

/// A granted section, by its task and its place among that task's sections.
#[derive(Clone, Copy, Debug, PartialEq, Eq)]
pub struct Grant {
    pub task: u32,
    pub section: usize,
}

/// All that a run hands back, the places in the order of the scripts.
#[derive(Clone, Debug, PartialEq, Eq)]
pub struct Outcome {
    pub answer: Answer,
    pub machine: Machine,
    pub data: Data,
    pub places: Vec<Place>,
    pub grants: Vec<Grant>,
}

impl Data {
    /// Takes one step of a task; its cell and locals are there.
    pub fn take(&mut self, task: u32, step: Step) {
        let locals = &mut self.locals[task as usize - 1];
        match step {
            Step::Load { cell, local } => locals[local as usize] = self.cells[cell as usize],
            Step::Store { local, cell } => self.cells[cell as usize] = locals[local as usize],
            Step::Set { local, number } => locals[local as usize] = number,
            Step::Add { local, other } => {
                locals[other as usize] = locals[other as usize].wrapping_add(locals[local as usize]);
            }
            Step::Unknown => {}
        }
    }
}

impl Event {
    /// Who makes the call, where the call has a caller.
    pub fn caller(&self) -> Option<u32> {
        match *self {
            Event::Call(
                Call::Create { caller, .. }
                | Call::Delete { caller, .. }
                | Call::Obtain { caller, .. }
                | Call::Release { caller, .. }
                | Call::Flush { caller, .. },
            ) => Some(caller),
            _ => None,
        }
    }
}

impl Outcome {
    /// The sections open after the last event, in the order of the scripts.
    pub fn open(&self, scripts: &[Script]) -> Vec<Grant> {
        runner::open_sections(scripts, &self.places)
    }
}
