//! The comparison of one call on lent memory, and what it says of a difference.

use std::fmt;

use crate::call::{Answer, Call, Manager};
use crate::fuzz::coverage::Coverage;
use crate::fuzz::lent::Lent;
use crate::history::{Broken, History};
use crate::layout::{word, word_name, LENGTH};
use crate::model::Machine;

/// Where in a comparison a call was made; the seed repeats it.
#[derive(Clone, Copy, Debug)]
pub struct Place {
    pub part: &'static str,
    pub seed: u64,
    pub step: u64,
}

/// The first call on which the subject is not as this project's own code, or after which a fact of the history does not hold.
#[derive(Debug)]
pub struct Difference {
    pub place: Place,
    pub call: Call,
    pub expected: Answer,
    pub found: Answer,
    /// How many slots an ident has to look at and did, where it was asked to count them.
    pub looked: Option<[u32; 2]>,
    /// What of the memory differs, if anything.
    pub memory: Option<String>,
    /// The tables before the call, when they had been damaged.
    pub damage: Option<String>,
    /// The fact that does not hold, where nothing differs.
    pub broken: Option<Broken>,
}

impl fmt::Display for Difference {
    fn fmt(&self, out: &mut fmt::Formatter) -> fmt::Result {
        let Place { part, seed, step } = self.place;
        let what = if self.broken.is_some() { "broken fact" } else { "difference" };
        writeln!(out, "{what} in {part}: seed {seed}, step {step}")?;
        if let Some(damage) = &self.damage {
            writeln!(out, "  damage:      {damage}")?;
        }
        writeln!(out, "  call:        {:?}", self.call)?;
        let [wanted, counted] = match self.looked {
            Some(numbers) => numbers.map(|number| format!(", slots looked at: {number}")),
            None => [String::new(), String::new()],
        };
        let answer = |answer: Answer| format!("{} {} {}", answer.status, answer.value, answer.next);
        writeln!(out, "  independent: {}{wanted}", answer(self.expected))?;
        writeln!(out, "  library:     {}{counted}", answer(self.found))?;
        let memory = self.memory.as_deref().unwrap_or("no byte differs");
        write!(out, "  tables:      {memory}")?;
        match &self.broken {
            Some(broken) => write!(out, "\n  history:     {broken}"),
            None => Ok(()),
        }
    }
}

/// A manager under comparison, and what has been seen of it.
pub struct Comparison<'a> {
    pub subject: &'a mut dyn Manager,
    pub coverage: Coverage,
    pub calls: u64,
    /// Says each call before it is made, to find one that does not come back.
    pub trace: bool,
}

impl<'a> Comparison<'a> {
    pub fn new(subject: &'a mut dyn Manager) -> Self {
        Comparison { subject, coverage: Coverage::default(), calls: 0, trace: false }
    }

    /// Makes one call of the subject, an ident by both functions, and compares its answer and every byte.
    pub fn step(
        &mut self,
        place: Place,
        call: &Call,
        lent: &mut Lent,
        expected: &Expected,
    ) -> Result<(), Box<Difference>> {
        self.say(place, call, "");
        let found = self.subject.call(lent.bytes_mut(), call);
        self.calls += 1;
        self.coverage.answered(call, expected.answer.status);
        expected.compare(place, call, lent, found, None)?;
        let Call::Ident { name } = *call else { return Ok(()) };
        let wanted = expected.before.map_or(0, |machine| machine.looked(name));
        self.say(place, call, ", counted");
        let (found, looked) = self.subject.ident_looked(lent.bytes_mut(), name);
        expected.compare(place, call, lent, found, Some([wanted, looked]))?;
        self.coverage.looked(expected.before, expected.bytes, name);
        Ok(())
    }

    /// Takes a call that was compared into the history, with the subject's own tables, and checks what has to hold of it.
    pub fn account(
        &mut self,
        history: &mut History,
        place: Place,
        call: &Call,
        answer: Answer,
        tables: &[u8],
    ) -> Result<(), Box<Difference>> {
        history.saw(call, answer, tables, &mut self.coverage.histories).map_err(|broken| {
            let (call, expected, found) = (call.clone(), answer, answer);
            let (looked, memory, damage, broken) = (None, None, None, Some(broken));
            Box::new(Difference { place, call, expected, found, looked, memory, damage, broken })
        })
    }

    fn say(&self, place: Place, call: &Call, how: &str) {
        if self.trace {
            eprintln!("{}, seed {}, step {}: {call:?}{how}", place.part, place.seed, place.step);
        }
    }
}

/// What a call on lent memory has to give.
pub struct Expected<'a> {
    /// The machine that the memory held, or nothing if that was none.
    pub before: Option<&'a Machine>,
    pub answer: Answer,
    pub bytes: &'a [u8],
}

impl Expected<'_> {
    fn compare(
        &self,
        place: Place,
        call: &Call,
        lent: &Lent,
        found: Answer,
        looked: Option<[u32; 2]>,
    ) -> Result<(), Box<Difference>> {
        let counted = looked.is_none_or(|[wanted, found]| wanted == found);
        if found == self.answer && counted && lent.bytes() == self.bytes && lent.guards_hold() {
            return Ok(());
        }
        let (call, expected) = (call.clone(), self.answer);
        let memory = memory_difference(lent, self.bytes);
        let (damage, broken) = (None, None);
        Err(Box::new(Difference { place, call, expected, found, looked, memory, damage, broken }))
    }
}

/// What of lent memory is not as expected, if anything.
pub fn memory_difference(lent: &Lent, expected: &[u8]) -> Option<String> {
    if !lent.guards_hold() {
        return Some("bytes outside the lent memory were written".into());
    }
    let byte = lent.bytes().iter().zip(expected).position(|(found, wanted)| found != wanted)?;
    if expected.len() != LENGTH {
        return Some(format!("byte {byte} was written"));
    }
    let (found, wanted) = (word(lent.bytes(), byte / 4), word(expected, byte / 4));
    let name = word_name(byte / 4);
    Some(format!("word {}, {name}: independent {wanted}, library {found}", byte / 4))
}
