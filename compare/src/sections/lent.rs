//! The runner over lent numbers, as a C function takes them: the rule for lengths, then the run.

use crate::call::Answer;
use crate::layout;
use crate::sections::rows::*;
use crate::sections::runner::run;
use crate::sections::*;
use crate::status::{MOST_TASKS, NOT_DEFINED, SUCCESSFUL};

/// Numbers for the places of all scripts that a run may have.
pub const PLACES: usize = 2 * MOST_TASKS;
/// Numbers for all grants that a run may give, their count before them.
pub const GRANTS: usize = 1 + 2 * MOST_TASKS * MOST_SECTIONS;

/// All that is lent to a run.
#[derive(Clone, Debug, PartialEq, Eq)]
pub struct Lent {
    pub tables: Vec<u8>,
    pub scripts: Vec<u32>,
    pub events: Vec<u32>,
    pub ids: Vec<u32>,
    pub cells: Vec<u32>,
    pub locals: Vec<u32>,
    pub places: Vec<u32>,
    pub grants: Vec<u32>,
}

impl Lent {
    /// A run's input, with room for places and grants that is filled with `filler`.
    pub fn new(input: &Input, filler: u32) -> Self {
        Lent {
            tables: layout::write(&input.machine),
            scripts: script_rows(&input.scripts),
            events: event_numbers(&input.events),
            ids: input.ids.clone(),
            cells: input.data.cells.clone(),
            locals: local_numbers(&input.data.locals),
            places: vec![filler; PLACES.max(2 * input.scripts.len())],
            grants: vec![filler; GRANTS],
        }
    }

    /// Runs the events on what is lent, or refuses them all.
    pub fn run(&mut self) -> Answer {
        // As far as there is room: nothing has moved and nothing is granted yet.
        let scripts = self.scripts.chunks_exact(ROW).filter(|row| row[0] == SCRIPT).count();
        put(&mut self.places, &vec![0; 2 * scripts]);
        put(&mut self.grants, &[0]);
        let Some(machine) = layout::read(&self.tables) else { return Answer::DISAGREE };
        let refused = Answer::new(NOT_DEFINED, 0, machine.next_task());
        let (true, Some(scripts)) = (self.lengths_fit(scripts), scripts_of(&self.scripts)) else {
            return refused;
        };
        let mut data = Data { cells: self.cells.clone(), ..Data::default() };
        for (locals, numbers) in data.locals.iter_mut().zip(self.locals.chunks_exact(LOCALS)) {
            locals.copy_from_slice(numbers);
        }
        let events = events_of(&self.events);
        let outcome = run(&Input { machine, ids: self.ids.clone(), data, scripts, events });
        if outcome.answer.status == SUCCESSFUL {
            self.keep(&outcome);
        }
        outcome.answer
    }

    /// The first number that another run left otherwise, in words.
    pub fn difference(&self, other: &Lent) -> Option<String> {
        let tables = |lent: &Lent| lent.tables.iter().map(|&byte| u32::from(byte)).collect::<Vec<_>>();
        let (ours, theirs) = (tables(self), tables(other));
        let lists = [
            ("byte of the tables", &ours, &theirs),
            ("number of the scripts", &self.scripts, &other.scripts),
            ("number of the events", &self.events, &other.events),
            ("cell's identifier", &self.ids, &other.ids),
            ("cell", &self.cells, &other.cells),
            ("local", &self.locals, &other.locals),
            ("number of the places", &self.places, &other.places),
            ("number of the grants", &self.grants, &other.grants),
        ];
        let (name, ours, theirs) = lists.into_iter().find(|(_, ours, theirs)| ours != theirs)?;
        let at = ours.iter().zip(theirs).take_while(|(ours, theirs)| ours == theirs).count();
        Some(format!("{name} {at}: independent {:?}, subject {:?}", ours.get(at), theirs.get(at)))
    }

    /// Room for a place of each script; grants are written as far as there is room for them.
    fn lengths_fit(&self, scripts: usize) -> bool {
        self.ids.len() == self.cells.len()
            && self.locals.len() == MOST_TASKS * LOCALS
            && self.places.len() >= 2 * scripts
    }

    fn keep(&mut self, outcome: &Outcome) {
        layout::write_into(&outcome.machine, &mut self.tables);
        self.cells.copy_from_slice(&outcome.data.cells);
        self.locals.copy_from_slice(&local_numbers(&outcome.data.locals));
        put(&mut self.places, &place_numbers(&outcome.places));
        put(&mut self.grants, &grant_numbers(&outcome.grants));
    }
}

/// Writes numbers at the front, as far as there is room.
fn put(room: &mut [u32], numbers: &[u32]) {
    room.iter_mut().zip(numbers).for_each(|(place, &number)| *place = number);
}
