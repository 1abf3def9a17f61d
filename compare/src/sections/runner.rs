//! The run: events one by one, over the calls of the model.

use crate::call::{Answer, Call};
use crate::model::{Machine, State};
use crate::sections::refusals::first_refusal;
use crate::sections::*;
use crate::status::{SUCCESSFUL, WAITING};

/// A run under way.
#[derive(Clone, Debug)]
pub struct Running<'a> {
    scripts: &'a [Script],
    pub machine: Machine,
    pub data: Data,
    pub places: Vec<Place>,
    pub grants: Vec<Grant>,
}

/// Runs the events, or refuses them all.
pub fn run(input: &Input) -> Outcome {
    let mut running = Running::new(input);
    let refused = first_refusal(input);
    if refused.is_none() {
        for event in &input.events {
            running.event(event);
        }
    }
    running.finish(refused.map_or(SUCCESSFUL, |refusal| refusal.status))
}

/// The sections that were granted and not yet released, in the order of the scripts.
pub fn open_sections(scripts: &[Script], places: &[Place]) -> Vec<Grant> {
    let opened = scripts.iter().zip(places).filter(|(_, place)| place.position > 0);
    opened.map(|(script, place)| Grant { task: script.task, section: place.section }).collect()
}

impl<'a> Running<'a> {
    /// Tables, cells and locals as handed in, every place at the start.
    pub fn new(input: &'a Input) -> Self {
        Running {
            scripts: &input.scripts,
            machine: input.machine.clone(),
            data: input.data.clone(),
            places: vec![Place::default(); input.scripts.len()],
            grants: Vec::new(),
        }
    }

    fn finish(self, status: u32) -> Outcome {
        let Running { machine, data, places, grants, .. } = self;
        // With 25 there is no next task.
        let next = if status == Answer::DISAGREE.status { 0 } else { machine.next_task() };
        Outcome { answer: Answer::new(status, 0, next), machine, data, places, grants }
    }

    /// Does one event of a run that is not refused; the call that was made for it, with its answer.
    pub fn event(&mut self, event: &Event) -> Option<(Call, Answer)> {
        match event {
            Event::Turn(task) => {
                let index = self.scripts.iter().position(|script| script.task == *task)?;
                self.turn(index)
            }
            Event::Call(call) => Some((call.clone(), self.call(call))),
            Event::Unknown => None,
        }
    }

    /// One thing of a script: the obtain, one step or the release.
    fn turn(&mut self, index: usize) -> Option<(Call, Answer)> {
        let (task, place) = (self.scripts[index].task, self.places[index]);
        let section = self.scripts[index].sections.get(place.section)?;
        if self.machine.is_waiting(task) {
            return None;
        }
        if place.position == 0 {
            return Some(self.obtain(index, section));
        }
        if let Some(&step) = section.steps.get(place.position - 1) {
            self.data.take(task, step);
            self.places[index].position += 1;
            return None;
        }
        let release = Call::Release { caller: task, id: section.id };
        let answer = self.call(&release);
        self.leave(index);
        Some((release, answer))
    }

    fn obtain(&mut self, index: usize, section: &Section) -> (Call, Answer) {
        let Section { id, options, timeout, .. } = *section;
        let obtain = Call::Obtain { caller: self.scripts[index].task, id, options, timeout };
        let answer = self.call(&obtain);
        match answer.status {
            SUCCESSFUL => self.grant(index),
            WAITING => {}
            _ => self.leave(index),
        }
        (obtain, answer)
    }

    /// Makes a call; waits of script tasks that it ended are granted or skipped at once.
    fn call(&mut self, call: &Call) -> Answer {
        let waited: Vec<usize> =
            (0..self.scripts.len()).filter(|&index| self.is_waiting(index)).collect();
        let answer = self.machine.call(call);
        for index in waited {
            match self.machine.tasks[self.scripts[index].task as usize - 1].state {
                State::Waiting { .. } => {}
                State::Ready { answer: SUCCESSFUL } => self.grant(index),
                State::Ready { .. } => self.leave(index),
            }
        }
        answer
    }

    fn is_waiting(&self, index: usize) -> bool {
        self.machine.is_waiting(self.scripts[index].task)
    }

    fn grant(&mut self, index: usize) {
        let place = &mut self.places[index];
        place.position = 1;
        self.grants.push(Grant { task: self.scripts[index].task, section: place.section });
    }

    /// The section is over or skipped, and the next one's obtain comes at a later turn.
    fn leave(&mut self, index: usize) {
        let section = self.places[index].section + 1;
        self.places[index] = Place { section, position: 0 };
    }
}
