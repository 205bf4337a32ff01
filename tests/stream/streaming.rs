//! What the two that are compared have in common.

use second::stream::{Answer, Stream};

/// A stream that was started, of whatever making. Each call hands it the table.
pub trait Streaming {
    fn feed(&mut self, read: &[u8], table: &mut [u64]) -> Answer;
    fn end(&mut self, table: &mut [u64]) -> Answer;
    /// So many bytes of a skipped rest, of which more are to come.
    fn pass(&mut self, bytes: u64);
}

impl Streaming for Stream {
    fn feed(&mut self, read: &[u8], table: &mut [u64]) -> Answer {
        Stream::feed(self, read, table)
    }

    fn end(&mut self, table: &mut [u64]) -> Answer {
        Stream::end(self, table)
    }

    fn pass(&mut self, bytes: u64) {
        Stream::pass(self, bytes);
    }
}
