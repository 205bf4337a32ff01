//! Logs from a seed, sound and damaged, for comparing the proved code with the
//! second program: what the suites, the fuzzing and the benchmarks are fed. They
//! are of either byte order, and one can be turned into the other.

#![forbid(unsafe_code)]

pub mod calls;
pub mod generate;
pub mod inputs;
pub mod random;
pub mod turn;
