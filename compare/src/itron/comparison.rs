//! The comparison of one call on lent tables and a lent list.

use crate::call::{Answer, Call};
use crate::itron::facade::{list_agrees, serve};
use crate::itron::lent::{Lending, LentList};
use crate::itron::seen::Seen;
use crate::itron::{Given, Itron, Service};
use crate::layout::{self, Model};
use crate::state::comparison::{same_tables, Compared};
use crate::state::Keeper;
use crate::status::SUCCESSFUL;

/// A facade under comparison, and what has been seen of it.
pub struct Comparison<'a> {
    subject: &'a mut dyn Itron,
    pub seen: Seen,
    /// Calls with a list, Classic calls, and answers turned into codes.
    pub services: u64,
    pub calls: u64,
    pub codes: u64,
}

impl<'a> Comparison<'a> {
    pub fn new(subject: &'a mut dyn Itron) -> Self {
        Comparison { subject, seen: Seen::default(), services: 0, calls: 0, codes: 0 }
    }

    /// One call with the list; what it gives, every byte of the tables and every entry of the list are compared.
    pub fn serve(&mut self, lent: &mut Lending, service: &Service) -> Compared<Given> {
        let before = lent.machine();
        let held = lent.list.entries().to_vec();
        let (mut bytes, mut list) = (lent.tables.bytes().to_vec(), held.clone());
        let expected = match &before {
            Some(machine) if list_agrees(machine, &list) => {
                let mut machine = machine.clone();
                let given = serve(&mut machine, &mut list, service);
                layout::write_into(&machine, &mut bytes);
                given
            }
            _ => Given::disagree(service),
        };
        let found = self.subject.serve(lent.tables.bytes_mut(), lent.list.entries_mut(), service);
        self.services += 1;
        self.seen.saw_length(&bytes, &held, expected.code());
        self.seen.served(before.as_ref(), &held, service, expected);
        let told = |said: String| format!("{service:?}, the list being {}: {said}", shown(&held));
        if found != expected {
            return Err(told(format!("independent {expected:?}, library {found:?}")));
        }
        same_memory(lent, &bytes, &list).map_err(told)?;
        Ok(expected)
    }

    /// One Classic call, which knows nothing of the list.
    pub fn call(&mut self, lent: &mut Lending, call: &Call) -> Compared<Answer> {
        let held = lent.list.entries().to_vec();
        let mut bytes = lent.tables.bytes().to_vec();
        let expected = crate::call::Manager::call(&mut Model, &mut bytes, call);
        let found = self.subject.call(lent.tables.bytes_mut(), call);
        self.calls += 1;
        let told = |said: String| format!("{call:?}: {said}");
        if found != expected {
            return Err(told(format!("independent {expected:?}, library {found:?}")));
        }
        same_memory(lent, &bytes, &held).map_err(told)?;
        if let (Call::Task { .. }, SUCCESSFUL) = (call, expected.status) {
            let code = self.code(expected.value)?;
            self.seen.woke(code);
        }
        Ok(expected)
    }

    /// A state file loaded into the tables.
    pub fn load(&mut self, lent: &mut Lending, file: &[u8]) -> Compared<Answer> {
        let held = lent.list.entries().to_vec();
        let mut bytes = lent.tables.bytes().to_vec();
        let expected = Model.load(&mut bytes, file);
        let found = self.subject.load(lent.tables.bytes_mut(), file);
        if found != expected {
            return Err(format!("load: independent {expected:?}, library {found:?}"));
        }
        same_memory(lent, &bytes, &held).map_err(|said| format!("load: {said}"))?;
        Ok(expected)
    }

    /// The code of a task's answer.
    pub fn code(&mut self, answer: u32) -> Compared<i32> {
        let (expected, found) = (Model.code(answer), self.subject.code(answer));
        self.codes += 1;
        self.seen.turned(expected);
        if found != expected {
            return Err(format!("the code of answer {answer}: independent {expected}, library {found}"));
        }
        Ok(expected)
    }
}

/// The list without the zeros at its end, and its length where that is wrong.
fn shown(list: &[u32]) -> String {
    let end = list.iter().rposition(|&entry| entry != 0).map_or(0, |last| last + 1);
    let entries = format!("{:?}", &list[..end]);
    match list.len() {
        super::ENTRIES => entries,
        length => format!("{entries} of {length} entries"),
    }
}

fn same_memory(lent: &Lending, bytes: &[u8], list: &[u32]) -> Compared {
    same_tables(&lent.tables, bytes)?;
    same_list(&lent.list, list)
}

fn same_list(found: &LentList, wanted: &[u32]) -> Compared {
    if !found.guards_hold() {
        return Err("entries outside of the lent list were written".into());
    }
    let pairs = || found.entries().iter().zip(wanted);
    match pairs().position(|(found, wanted)| found != wanted) {
        None => Ok(()),
        Some(place) => Err(format!(
            "entry {place} of the list: independent {}, library {}",
            wanted[place],
            found.entries()[place]
        )),
    }
}
