//! Wrong variants of the Classic calls, and random parts of the comparison that have to find them.
#![allow(dead_code)]

use compare::call::{Answer, Call, Manager};
use compare::fuzz::comparison::{Comparison, Difference};
use compare::fuzz::{damage, sequence};
use compare::inplace::agreement::Tested;

/// Serves a call with one thing wrong.
pub type Serve = fn(tables: &mut [u8], call: &Call) -> Answer;

pub struct Wrong(pub Serve);

impl Manager for Wrong {
    fn call(&mut self, tables: &mut [u8], call: &Call) -> Answer {
        (self.0)(tables, call)
    }

    fn ident_looked(&mut self, tables: &mut [u8], name: u32) -> (Answer, u32) {
        let (_, looked) = Tested.ident_looked(tables, name);
        ((self.0)(tables, &Call::Ident { name }), looked)
    }
}

pub fn random_parts(subject: &mut dyn Manager) -> Result<(), Box<Difference>> {
    let mut comparison = Comparison::new(subject);
    (0..50).try_for_each(|seed| {
        let machine = sequence::run(&mut comparison, seed)?;
        sequence::run_chains(&mut comparison, seed)?;
        damage::at_random(&mut comparison, seed, &machine)
    })
}
