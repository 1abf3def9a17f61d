//! The comparison of one save or load on lent memory, and of the calls that follow.

use crate::call::{Answer, Call};
use crate::fuzz::comparison::memory_difference;
use crate::fuzz::generate::Plan;
use crate::fuzz::lent::Lent;
use crate::fuzz::rng::Rng;
use crate::history::History;
use crate::layout::{self, Model};
use crate::state::seen::Seen;
use crate::state::{load_or_fault, Keeper, EDITION};

/// What differs, in words.
pub type Compared<T = ()> = Result<T, String>;

/// A keeper under comparison, and what has been seen of it.
pub struct Comparison<'a> {
    subject: &'a mut dyn Keeper,
    /// The edition of the files to be loaded, before any damage.
    pub edition: u32,
    pub seen: Seen,
    pub saves: u64,
    pub loads: u64,
    pub calls: u64,
}

impl<'a> Comparison<'a> {
    pub fn new(subject: &'a mut dyn Keeper) -> Self {
        Comparison { subject, edition: EDITION, seen: Seen::default(), saves: 0, loads: 0, calls: 0 }
    }

    /// One save; the answer, every byte of the buffer and every byte of the tables are compared.
    pub fn save(&mut self, part: &'static str, tables: &Lent, file: &mut Lent) -> Compared<Answer> {
        let before = tables.bytes().to_vec();
        let mut wanted = file.bytes().to_vec();
        let expected = Model.save(&before, &mut wanted);
        let found = self.subject.save(tables.bytes(), file.bytes_mut());
        self.saves += 1;
        self.seen.saved(part, expected.status);
        let told = |said: String| format!("save, {part}, room {}: {said}", wanted.len());
        same_answer(expected, found).map_err(told)?;
        same_tables(tables, &before).map_err(told)?;
        if !file.guards_hold() {
            return Err(told("bytes outside the buffer were written".into()));
        }
        same_file(file.bytes(), &wanted).map_err(told)?;
        Ok(expected)
    }

    /// One load; the answer, every byte of the tables and every byte of the file are compared.
    pub fn load(&mut self, part: &'static str, tables: &mut Lent, file: &[u8]) -> Compared<Answer> {
        let before = file.to_vec();
        let mut wanted = tables.bytes().to_vec();
        let (expected, fault) = load_or_fault(&mut wanted, file);
        let found = self.subject.load(tables.bytes_mut(), file);
        self.loads += 1;
        self.seen.loaded(self.edition, part, expected.status, fault);
        self.seen.refused_for_maxima(self.edition, fault, file);
        let told = |said: String| match fault {
            Some(fault) => format!("load, {part}, length {}, {fault}: {said}", before.len()),
            None => format!("load, {part}, length {}: {said}", before.len()),
        };
        same_answer(expected, found).map_err(told)?;
        same_tables(tables, &wanted).map_err(told)?;
        same_file(file, &before).map_err(told)?;
        Ok(expected)
    }

    /// Random calls on tables that were loaded, with which a history begins.
    pub fn go_on(
        &mut self,
        part: &'static str,
        rng: &mut Rng,
        plan: &Plan,
        tables: &mut Lent,
        steps: usize,
    ) -> Compared {
        let mut machine = layout::read(tables.bytes()).expect("loaded tables agree");
        let mut wanted = tables.bytes().to_vec();
        let mut history = History::begin(tables.bytes());
        for step in 0..steps {
            let call = plan.draw_call(rng, &machine);
            let expected = machine.call(&call);
            layout::write_into(&machine, &mut wanted);
            let found = self.subject.call(tables.bytes_mut(), &call);
            self.calls += 1;
            let told = |said: String| format!("load, {part}, then step {step}, {call:?}: {said}");
            same_answer(expected, found).map_err(told)?;
            same_tables(tables, &wanted).map_err(told)?;
            let held = history.saw(&call, found, tables.bytes(), &mut self.seen.histories);
            held.map_err(|broken| told(broken.to_string()))?;
            let Call::Ident { name } = call else { continue };
            let (found, looked) = self.subject.ident_looked(tables.bytes_mut(), name);
            same_answer(expected, found).map_err(told)?;
            same_count(machine.looked(name), looked).map_err(told)?;
            same_tables(tables, &wanted).map_err(told)?;
            self.seen.looked(expected, looked);
        }
        self.seen.went_on(part);
        Ok(())
    }
}

fn same_answer(expected: Answer, found: Answer) -> Compared {
    if expected == found {
        return Ok(());
    }
    let shown = |answer: Answer| format!("{} {} {}", answer.status, answer.value, answer.next);
    Err(format!("independent {}, library {}", shown(expected), shown(found)))
}

fn same_count(expected: u32, found: u32) -> Compared {
    match expected == found {
        true => Ok(()),
        false => Err(format!("slots looked at: independent {expected}, library {found}")),
    }
}

pub fn same_tables(tables: &Lent, wanted: &[u8]) -> Compared {
    if tables.bytes() == wanted && tables.guards_hold() {
        return Ok(());
    }
    let said = memory_difference(tables, wanted);
    Err(format!("tables: {}", said.as_deref().unwrap_or("another length")))
}

fn same_file(found: &[u8], wanted: &[u8]) -> Compared {
    match found.iter().zip(wanted).position(|(found, wanted)| found != wanted) {
        None => Ok(()),
        Some(at) => {
            Err(format!("byte {at} of the file: independent {}, library {}", wanted[at], found[at]))
        }
    }
}
