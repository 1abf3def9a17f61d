//! A call, its answer, and what can serve it.

use crate::status::greatest_maximum;

/// One call on the manager, with its numbers as handed in.
#[derive(Clone, Debug, PartialEq, Eq)]
pub enum Call {
    Start { slots: u32, priorities: Vec<u32> },
    Create { caller: u32, name: u32, count: u32, attributes: u32, maximum: u32 },
    Ident { name: u32 },
    Delete { caller: u32, id: u32 },
    Obtain { caller: u32, id: u32, options: u32, timeout: u32 },
    Release { caller: u32, id: u32 },
    Flush { caller: u32, id: u32 },
    Tick,
    Task { task: u32 },
}

/// The names of the calls, in the order of `Call::kind`.
pub const KINDS: [&str; 9] =
    ["start", "create", "ident", "delete", "obtain", "release", "flush", "tick", "task"];

impl Call {
    /// A create with the greatest maximum of its class.
    pub fn create(caller: u32, name: u32, count: u32, attributes: u32) -> Self {
        Call::Create { caller, name, count, attributes, maximum: greatest_maximum(attributes) }
    }

    /// The call's place in `KINDS`.
    pub fn kind(&self) -> usize {
        match self {
            Call::Start { .. } => 0,
            Call::Create { .. } => 1,
            Call::Ident { .. } => 2,
            Call::Delete { .. } => 3,
            Call::Obtain { .. } => 4,
            Call::Release { .. } => 5,
            Call::Flush { .. } => 6,
            Call::Tick => 7,
            Call::Task { .. } => 8,
        }
    }
}

/// What every call gives back besides the tables.
#[derive(Clone, Copy, Debug, PartialEq, Eq)]
pub struct Answer {
    pub status: u32,
    pub value: u32,
    pub next: u32,
}

impl Answer {
    pub const fn new(status: u32, value: u32, next: u32) -> Self {
        Answer { status, value, next }
    }

    /// The answer over tables that do not agree.
    pub const DISAGREE: Answer = Answer::new(crate::status::INTERNAL_ERROR, 0, 0);
}

/// Anything that serves calls on lent bytes.
pub trait Manager {
    fn call(&mut self, tables: &mut [u8], call: &Call) -> Answer;
    /// An ident, and how many slots it looked at. The bytes are lent to be written, so that a write is seen.
    fn ident_looked(&mut self, tables: &mut [u8], name: u32) -> (Answer, u32);
}
