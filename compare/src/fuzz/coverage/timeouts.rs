//! What a comparison has to have seen of timeouts and of ticks left.

use std::collections::BTreeMap;

use crate::call::{Answer, Call};
use crate::fuzz::coverage::Coverage;
use crate::model::{Machine, State};
use crate::status::*;

/// Obtains by their timeout, and ticks by what they did to a wait.
const TIMEOUTS: [&str; 11] = [
    "obtain began a wait by timeout 0",
    "obtain began a wait by timeout 0 with other option bits",
    "obtain began a wait by timeout 500",
    "obtain began a wait by timeout 4294967294",
    "obtain began a wait by timeout 4294967295",
    "obtain refused with NO_WAIT and timeout 0",
    "obtain refused with NO_WAIT and timeout 4294967295",
    "tick ended a wait by timeout 0 as the 500th",
    "a wait by timeout 4294967295 went on after the 500th",
    "tick took one of 4294967295 ticks left",
    "damage left the tables in agreement, a task with 4294967295 ticks left",
];

/// All that has to have happened.
pub fn wanted() -> impl Iterator<Item = &'static str> {
    TIMEOUTS.into_iter()
}

/// A wait under way: the timeout that it was begun with, and the ticks since.
#[derive(Clone, Copy)]
pub struct Wait {
    pub timeout: u32,
    pub ticks: u32,
}

/// The waits that calls have begun, by their tasks.
#[derive(Default)]
pub struct Waits(BTreeMap<u32, Wait>);

impl Waits {
    /// Takes note of what a call did; gives back the waits that it ended, with their tasks.
    pub fn saw(&mut self, call: &Call, answer: Answer, after: &Machine) -> Vec<(u32, Wait)> {
        match *call {
            // What is noted is of another machine.
            Call::Start { .. } if answer.status == SUCCESSFUL => self.0.clear(),
            _ if after.tasks.is_empty() => self.0.clear(),
            Call::Tick => self.0.values_mut().for_each(|wait| wait.ticks += 1),
            Call::Obtain { caller, timeout, .. } if answer.status == WAITING => {
                self.0.insert(caller, Wait { timeout, ticks: 0 });
            }
            _ => {}
        }
        let mut ended = Vec::new();
        self.0.retain(|&task, wait| {
            let goes_on = after.is_waiting(task);
            if !goes_on {
                ended.push((task, *wait));
            }
            goes_on
        });
        ended
    }
}

impl Wait {
    /// Whether the wait had the standard limit and has come to its end.
    pub fn is_standard_at_end(self) -> bool {
        self.timeout == STANDARD && self.ticks == STANDARD_LIMIT
    }
}

impl Coverage {
    /// Counts a call by its timeout, or by the waits that it ended.
    pub fn saw_waits(&mut self, before: &Machine, call: &Call, answer: Answer, after: &Machine) {
        let ended = self.waits.saw(call, answer, after);
        match *call {
            Call::Obtain { options, timeout, .. } => self.saw_timeout(options, timeout, answer.status),
            Call::Tick => {
                self.happened(TIMEOUTS[7], ended.iter().any(|(_, wait)| wait.is_standard_at_end()));
                let late = |wait: &Wait| wait.timeout == FOREVER && wait.ticks == STANDARD_LIMIT;
                self.happened(TIMEOUTS[8], self.waits.0.values().any(late));
                self.happened(TIMEOUTS[9], before.tasks.iter().any(|task| has_most_ticks(task.state)));
            }
            _ => {}
        }
    }

    fn saw_timeout(&mut self, options: u32, timeout: u32, status: u32) {
        let (waits, refused) = (status == WAITING, status == UNSATISFIED && options & NO_WAIT != 0);
        self.happened(TIMEOUTS[0], waits && timeout == STANDARD);
        self.happened(TIMEOUTS[1], waits && timeout == STANDARD && options != 0);
        self.happened(TIMEOUTS[2], waits && timeout == STANDARD_LIMIT);
        self.happened(TIMEOUTS[3], waits && timeout == FOREVER - 1);
        self.happened(TIMEOUTS[4], waits && timeout == FOREVER);
        self.happened(TIMEOUTS[5], refused && timeout == STANDARD);
        self.happened(TIMEOUTS[6], refused && timeout == FOREVER);
    }

    /// Counts damage that left the tables in agreement with a wait as long as no timeout says.
    pub fn damaged_ticks(&mut self, machine: &Machine) {
        self.happened(TIMEOUTS[10], machine.tasks.iter().any(|task| has_most_ticks(task.state)));
    }
}

/// Whether these are the most ticks that tables can hold.
fn has_most_ticks(state: State) -> bool {
    matches!(state, State::Waiting { ticks: u32::MAX, .. })
}
