//! The text of a run: session lines, then cells, locals and scripts, then events.

use std::fmt;

use crate::sections::*;
use crate::session::{numbers, parse_line, LONGEST_LINE};
use crate::status::MOST_TASKS;

/// What is wrong with a file, and the number of the line, from 1.
#[derive(Clone, Debug, PartialEq, Eq)]
pub struct Fault {
    pub line: usize,
    pub reason: &'static str,
}

impl fmt::Display for Fault {
    fn fmt(&self, formatter: &mut fmt::Formatter) -> fmt::Result {
        write!(formatter, "line {}: {}", self.line, self.reason)
    }
}

pub const NO_LINE: &str = "this is no cell, local, script, section or run.";
pub const LOCAL_OUT_OF_RANGE: &str =
    "a local has a task from 1 to 32 and an index from 0 to 7, and this one has not.";
pub const END_WITHOUT_SECTION: &str = "this end has no section to end.";
pub const STEP_WITHOUT_SECTION: &str = "this step is in no section.";
pub const SECTION_WITHOUT_SCRIPT: &str = "this section is in no script.";
pub const SCRIPT_IN_SECTION: &str = "a script begins before the section above it has its end.";
pub const RUN_IN_SECTION: &str = "the run begins before the section above it has its end.";

/// A line between the session's lines and the events.
enum Line {
    Cell { id: u32, number: u32 },
    Local { task: u32, index: u32, number: u32 },
    Script { task: u32 },
    Section(Section),
    Step(Step),
    End,
    Run,
}

enum Part {
    Session,
    Scripts,
    Section,
    Events,
}

struct Reader {
    input: Input,
    part: Part,
}

/// The lines of a text: a last one without a newline counts, nothing behind a last newline does not.
pub fn lines(text: &[u8]) -> impl Iterator<Item = &[u8]> {
    text.split_inclusive(|&byte| byte == b'\n').map(|line| line.strip_suffix(b"\n").unwrap_or(line))
}

/// The run that a file says.
pub fn read(text: &[u8]) -> Result<Input, Fault> {
    let mut reader = Reader { input: Input::default(), part: Part::Session };
    for (number, line) in (1..).zip(lines(text)) {
        reader.line(line).map_err(|reason| Fault { line: number, reason })?;
    }
    Ok(reader.input)
}

/// The numbers of a line of this word.
fn said<const COUNT: usize>(line: &[u8], word: &str) -> Option<[u32; COUNT]> {
    if line.len() > LONGEST_LINE {
        return None;
    }
    numbers(line.strip_prefix(word.as_bytes())?)
}

fn parse(line: &[u8]) -> Option<Line> {
    if let Some(step) = parse_step(line) {
        return Some(Line::Step(step));
    }
    if let Some([id, options, timeout]) = said(line, "section") {
        return Some(Line::Section(Section { id, options, timeout, steps: Vec::new() }));
    }
    if let Some([id, number]) = said(line, "cell") {
        return Some(Line::Cell { id, number });
    }
    if let Some([task, index, number]) = said(line, "local") {
        return Some(Line::Local { task, index, number });
    }
    if let Some([task]) = said(line, "script") {
        return Some(Line::Script { task });
    }
    let end = said(line, "end").map(|[]| Line::End);
    end.or_else(|| said(line, "run").map(|[]| Line::Run))
}

fn parse_step(line: &[u8]) -> Option<Step> {
    let load = said(line, "load").map(|[cell, local]| Step::Load { cell, local });
    let store = || said(line, "store").map(|[local, cell]| Step::Store { local, cell });
    let set = || said(line, "set").map(|[local, number]| Step::Set { local, number });
    let add = || said(line, "add").map(|[local, other]| Step::Add { local, other });
    load.or_else(store).or_else(set).or_else(add)
}

/// The event that a line says, of no kind if it says none.
fn parse_event(line: &[u8]) -> Event {
    let turn = said(line, "turn").map(|[task]| Event::Turn(task));
    turn.or_else(|| parse_line(line).map(Event::Call)).unwrap_or(Event::Unknown)
}

impl Reader {
    fn line(&mut self, line: &[u8]) -> Result<(), &'static str> {
        match self.part {
            Part::Session => self.session_line(line),
            Part::Scripts => self.script_line(parse(line)),
            Part::Section => self.section_line(parse(line)),
            Part::Events => {
                self.input.events.push(parse_event(line));
                Ok(())
            }
        }
    }

    /// A bad line is skipped; the first line of the next part ends this one.
    fn session_line(&mut self, line: &[u8]) -> Result<(), &'static str> {
        let parsed = parse(line);
        if let Some(Line::Cell { .. } | Line::Local { .. } | Line::Script { .. } | Line::Run) = parsed {
            self.part = Part::Scripts;
            return self.script_line(parsed);
        }
        if let Some(call) = parse_line(line) {
            self.input.machine.call(&call);
        }
        Ok(())
    }

    fn script_line(&mut self, line: Option<Line>) -> Result<(), &'static str> {
        match line.ok_or(NO_LINE)? {
            Line::Cell { id, number } => {
                self.input.ids.push(id);
                self.input.data.cells.push(number);
            }
            Line::Local { task, index, number } => {
                let (task, index) = (task as usize, index as usize);
                if !(1..=MOST_TASKS).contains(&task) || index >= LOCALS {
                    return Err(LOCAL_OUT_OF_RANGE);
                }
                self.input.data.locals[task - 1][index] = number;
            }
            Line::Script { task } => self.input.scripts.push(Script { task, sections: Vec::new() }),
            Line::Section(section) => {
                let script = self.input.scripts.last_mut().ok_or(SECTION_WITHOUT_SCRIPT)?;
                script.sections.push(section);
                self.part = Part::Section;
            }
            Line::Step(_) => return Err(STEP_WITHOUT_SECTION),
            Line::End => return Err(END_WITHOUT_SECTION),
            Line::Run => self.part = Part::Events,
        }
        Ok(())
    }

    fn section_line(&mut self, line: Option<Line>) -> Result<(), &'static str> {
        let step = match line {
            Some(Line::End) => {
                self.part = Part::Scripts;
                return Ok(());
            }
            Some(Line::Script { .. }) => return Err(SCRIPT_IN_SECTION),
            Some(Line::Run) => return Err(RUN_IN_SECTION),
            Some(Line::Step(step)) => step,
            _ => Step::Unknown,
        };
        let sections = self.input.scripts.last_mut().and_then(|script| script.sections.last_mut());
        sections.expect("a section has begun").steps.push(step);
        Ok(())
    }
}
