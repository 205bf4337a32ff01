//! What the suites share: the proved code behind safe functions, what it takes
//! and answers as numbers, which numbers each entry gives, the lent tables of a
//! replay, a suite's words, and what it counts.

#![deny(unsafe_code)]

pub mod answer;
pub mod counts;
pub mod entries;
pub mod order;
#[allow(unsafe_code)]
pub mod proved;
pub mod record;
pub mod replaying;
pub mod state;
pub mod suite;
