//! The second program against the sentences and the samples of Papers 01 and 02.

mod big_endian;
mod bytes;
mod compare;
mod dcfg;
mod log_writer;
mod reader;
mod replay;
mod scrub;
mod stream;
mod transitions;
mod walk;
mod writer;
