//! DCFG texts from a seed, sound and faulty, and other JSON texts: what readers
//! of DCFG are compared on. The same kind and seed give the same text everywhere.

#![forbid(unsafe_code)]

mod any;
pub mod batch;
mod damage;
mod faults;
mod kind;
mod sound;
mod value;
mod writing;
mod wrong;

pub use faults::Fault;
pub use kind::{text, Kind};
