//! A run's outcome as text, and a run's input as the text that says it.

use std::fmt::Display;

use crate::sections::plain::plain_run;
use crate::sections::read::{read, Fault};
use crate::sections::runner::run;
use crate::sections::*;
use crate::session::lines::line_of;

/// What the program prints for a file.
pub fn answer_text(text: &[u8]) -> Result<String, Fault> {
    let input = read(text)?;
    Ok(outcome_text(&input, &run(&input)))
}

/// A word and a list behind it, which may be empty.
fn listed<T: Display>(word: &str, list: impl IntoIterator<Item = T>) -> String {
    let items: String = list.into_iter().map(|item| format!(" {item}")).collect();
    format!("{word}{items}\n")
}

fn data_text(before: &str, data: &Data, tasks: usize) -> String {
    let mut text = listed(&format!("{before}cells"), &data.cells);
    for (task, locals) in (1..).zip(&data.locals).take(tasks) {
        text += &listed(&format!("{before}locals {task}"), locals);
    }
    text
}

impl Display for Grant {
    fn fmt(&self, formatter: &mut std::fmt::Formatter) -> std::fmt::Result {
        write!(formatter, "{}:{}", self.task, self.section)
    }
}

/// A run's outcome to the letter, with the plain run below it if no section is open.
pub fn outcome_text(input: &Input, outcome: &Outcome) -> String {
    let Answer { status, value, next } = outcome.answer;
    let tasks = outcome.machine.tasks.len();
    let mut text = format!("{status} {value} {next}\n{}", data_text("", &outcome.data, tasks));
    for (script, place) in input.scripts.iter().zip(&outcome.places) {
        text += &format!("place {} {} {}\n", script.task, place.section, place.position);
    }
    let open = outcome.open(&input.scripts);
    text += &listed("grants", &outcome.grants);
    text += &listed("open", &open);
    if !open.is_empty() {
        return text + "serial open\n";
    }
    let plain = plain_run(&input.scripts, input.data.clone(), &outcome.grants);
    let serial = if plain == outcome.data { "yes" } else { "no" };
    text + &data_text("plain ", &plain, tasks) + &format!("serial {serial}\n")
}

/// The line of a step; one of no kind is written as a line that is none.
pub fn step_line(step: Step) -> String {
    match step {
        Step::Load { cell, local } => format!("load {cell} {local}"),
        Step::Store { local, cell } => format!("store {local} {cell}"),
        Step::Set { local, number } => format!("set {local} {number}"),
        Step::Add { local, other } => format!("add {local} {other}"),
        Step::Unknown => "subtract 0 1".into(),
    }
}

pub fn event_line(event: &Event) -> String {
    match event {
        Event::Turn(task) => format!("turn {task}"),
        Event::Call(call) => line_of(call).unwrap_or("task".into()),
        Event::Unknown => "turn".into(),
    }
}

/// The lines of the cells, with the numbers they hold.
pub fn cell_lines(input: &Input) -> Vec<String> {
    let cells = input.ids.iter().zip(&input.data.cells);
    cells.map(|(id, number)| format!("cell {id} {number}")).collect()
}

/// A line for each local that is not 0.
pub fn local_lines(data: &Data) -> Vec<String> {
    let mut lines = Vec::new();
    for (task, locals) in (1..).zip(&data.locals) {
        let numbered = locals.iter().enumerate().filter(|(_, &number)| number != 0);
        lines.extend(numbered.map(|(index, number)| format!("local {task} {index} {number}")));
    }
    lines
}

pub fn script_lines(script: &Script) -> Vec<String> {
    let mut lines = vec![format!("script {}", script.task)];
    for Section { id, options, timeout, steps } in &script.sections {
        lines.push(format!("section {id} {options} {timeout}"));
        lines.extend(steps.iter().map(|&step| step_line(step)));
        lines.push("end".into());
    }
    lines
}

/// All lines behind those of the session, in the usual order.
pub fn input_lines(input: &Input) -> Vec<String> {
    let mut lines = cell_lines(input);
    lines.extend(local_lines(&input.data));
    lines.extend(input.scripts.iter().flat_map(script_lines));
    lines.push("run".into());
    lines.extend(input.events.iter().map(event_line));
    lines
}
