//! Calls and tables to compare on, drawn at random or one by one, and the comparison itself.

pub mod cases;
mod chains;
pub mod comparison;
pub mod coverage;
pub mod damage;
pub mod generate;
pub mod lent;
pub mod mutate;
pub mod rng;
pub mod sequence;
pub mod workload;
