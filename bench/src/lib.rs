//! What the benchmarks share: logs, the limit, processes, measuring in rounds,
//! and the table.

pub mod limit;
pub mod log;
pub mod maker;
pub mod measure;
pub mod process;
pub mod table;

/// The error tells what went wrong.
pub type Fallible<T> = Result<T, String>;

pub const MIB: usize = 1 << 20;
/// The most bytes of each input, in MiB.
pub const SIZES: [usize; 3] = [1, 4, 16];
