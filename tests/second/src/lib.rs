//! A second, independent reading of trace logs after Paper 01: the header's
//! tests, the record reader, the record writer and the log writer, the walk from
//! record to record with the grammar, replay with its table, of a whole log or
//! of one that comes in reads, the hidden bytes and the scrubber, and the
//! comparison of two times. All that reads or writes a log takes its byte order.
//! Beside them, after Paper 02, the reader of DCFG texts over a reader of JSON
//! (CR 6), and the walk of a transition table (CR 7).
//!
//! Nothing here is quick or clever: each function follows one passage of the
//! paper and names it.

#![forbid(unsafe_code)]

pub mod compare;
pub mod dcfg;
pub mod header;
pub mod json;
pub mod log_writer;
pub mod order;
pub mod reader;
pub mod record;
pub mod replay;
pub mod scrub;
pub mod stream;
pub mod transitions;
pub mod walk;
pub mod writer;
