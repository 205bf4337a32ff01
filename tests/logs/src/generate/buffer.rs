//! A buffer in the making: records behind one another.

use super::bytes::encode;
use super::records::{any_record, function, leading_records};
use crate::random::Random;
use second::order::Order;
use second::record::{Record, ENTRY_ARGS};

/// A buffer in the making.
pub struct Buffer<'a> {
    pub random: &'a mut Random,
    pub order: Order,
    size: usize,
    pub bytes: Vec<u8>,
    /// Whether a CallArgument may stand next.
    run: bool,
}

impl<'a> Buffer<'a> {
    pub fn new(random: &'a mut Random, order: Order, size: usize) -> Buffer<'a> {
        Buffer {
            random,
            order,
            size,
            bytes: Vec::new(),
            run: false,
        }
    }

    pub fn room(&self) -> usize {
        self.size.saturating_sub(self.bytes.len())
    }

    pub fn put(&mut self, record: Record) {
        let bytes = encode(self.random, self.order, record);
        self.bytes.extend(bytes);
        self.run = match record {
            Record::Function { action, .. } => action == ENTRY_ARGS,
            Record::CallArgument { .. } => self.run,
            _ => false,
        };
    }

    /// A marker and its event.
    pub fn event(&mut self, length: usize) {
        let tsc = self.random.value();
        let size = length as u32;
        self.put(Record::CustomEvent { size, tsc });
        let bytes = self.random.bytes(length);
        self.bytes.extend(bytes);
    }

    /// An event after which exactly `left` bytes are left. Needs room for
    /// those and the marker.
    pub fn pad(&mut self, left: usize) {
        self.event(self.room() - 16 - left);
    }

    /// The three leading records.
    pub fn leading(&mut self, thread: u16) {
        for record in leading_records(self.random, thread) {
            self.put(record);
        }
    }

    /// Up to `most` body records that leave at least `keep` bytes.
    pub fn body(&mut self, most: u64, keep: usize) {
        for _ in 0..most {
            if self.room() >= keep + 16 {
                self.item(keep);
            } else if self.room() >= keep + 8 {
                let action = self.random.below(4) as u8;
                let record = function(self.random, action);
                self.put(record);
            } else {
                break;
            }
        }
    }

    /// One body record of at most 16 bytes, and its event.
    fn item(&mut self, keep: usize) {
        if self.run && !self.random.once_in(3) {
            let argument = self.random.value();
            return self.put(Record::CallArgument { argument });
        }
        let longest = self.room() - keep - 16;
        match any_record(self.random) {
            Record::CustomEvent { size, .. } => self.event((size as usize).min(longest)),
            record @ (Record::Function { .. }
            | Record::NewCpuId { .. }
            | Record::TscWrap { .. }) => self.put(record),
            _ => {
                let record = function(self.random, ENTRY_ARGS);
                self.put(record);
            }
        }
    }

    /// The buffer with any bytes up to its end, and cut there.
    pub fn rest(mut self) -> Vec<u8> {
        if self.random.once_in(4) {
            self.bytes.resize(self.size, 0);
        } else {
            let rest = self.random.bytes(self.room());
            self.bytes.extend(rest);
            self.bytes.truncate(self.size);
        }
        self.bytes
    }

    /// EndOfBuffer, and the skipped rest.
    pub fn close(mut self) -> Vec<u8> {
        self.put(Record::EndOfBuffer);
        self.rest()
    }
}
