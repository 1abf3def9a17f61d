//! An implementation of the semaphore manager written from the rules alone, and the means to compare the
//! library with it call by call, byte by byte.

pub mod call;
#[cfg(feature = "library")]
pub mod ffi;
pub mod fuzz;
pub mod history;
pub mod inplace;
pub mod itron;
pub mod layout;
pub mod model;
pub mod record;
pub mod sections;
pub mod session;
pub mod state;
pub mod status;
