//! What a stream keeps of its log, and what each byte does to it: paper 02, CR 1,
//! for when each test comes, and Paper 01, "The numbered refusals", for the tests
//! of a record in their order.

use crate::header::{LEAST_BUFFER, SIZE};
use crate::order::Order;
use crate::record::{decode, Record};
use crate::replay::{Answer, State};
use crate::walk::{after, thread_after, Stage};

/// The number and the place of a refusal.
pub type Fault = (u8, u64);

#[derive(Clone)]
pub struct Log {
    order: Order,
    /// The bytes taken.
    offset: u64,
    /// Those of the header.
    header: Vec<u8>,
    /// The bytes that are still to come in the buffer.
    left: u64,
    /// How many of these are of an event or of the skipped rest.
    passed: u64,
    /// The bytes of a record that isn't judged yet.
    record: Vec<u8>,
    stage: Stage,
    /// The first buffer's thread, once seen.
    thread: Option<u16>,
    /// The replay behind the last record that was judged.
    pub calls: State,
}

impl Log {
    pub fn start(order: Order) -> Log {
        Log {
            order,
            offset: 0,
            header: Vec::new(),
            left: 0,
            passed: 0,
            record: Vec::new(),
            stage: Stage::Between,
            thread: None,
            calls: State::default(),
        }
    }

    /// "A read that would take the offset past 2^64 - 1 is a new 20 at the offset
    /// before it".
    pub fn take(&mut self, read: &[u8]) -> Result<(), Fault> {
        if self.offset.checked_add(read.len() as u64).is_none() {
            return Err((20, self.offset));
        }
        read.iter().try_for_each(|byte| self.byte(*byte))
    }

    /// "An end before it [byte 32] is 1", and "a last buffer cut short gives 4 at
    /// the end": both have place 0.
    pub fn end(&self) -> Result<Answer, Fault> {
        if self.header.len() < SIZE {
            return Err((1, 0));
        }
        if self.left > 0 {
            return Err((4, 0));
        }
        Ok(self.calls.report())
    }

    pub fn pass(&mut self, bytes: u64) {
        assert!(bytes < self.passed, "no such event, no such rest");
        self.offset = self.offset.checked_add(bytes).expect("an offset");
        self.passed -= bytes;
        self.left -= bytes;
    }

    fn byte(&mut self, byte: u8) -> Result<(), Fault> {
        self.offset += 1;
        if self.header.len() < SIZE {
            self.header.push(byte);
            return self.tests_2_and_3();
        }
        if self.left == 0 {
            self.left = self.buffer_size()?;
        }
        self.left -= 1;
        if self.passed > 0 {
            self.passed -= 1;
        } else {
            self.record.push(byte);
            self.judge_if_in()?;
        }
        // 5 (no byte left), with the buffer's last byte.
        match self.left == 0 && self.stage != Stage::Between {
            true => Err((5, self.offset)),
            false => Ok(()),
        }
    }

    /// "Tests 2 and 3 come with byte 32".
    fn tests_2_and_3(&self) -> Result<(), Fault> {
        if self.header.len() < SIZE {
            return Ok(());
        }
        if self.order.number(&self.header[0..2]) != 1 {
            return Err((2, 0));
        }
        if self.order.number(&self.header[2..4]) != 1 {
            return Err((3, 0));
        }
        Ok(())
    }

    /// "Test 4's size part with the next": with a buffer's first byte.
    fn buffer_size(&self) -> Result<u64, Fault> {
        let size = self.order.number(&self.header[16..24]);
        match size < LEAST_BUFFER {
            true => Err((4, 0)),
            false => Ok(size),
        }
    }

    /// "A record is judged once its 8 or 16 bytes, or the buffer's last, are in."
    fn judge_if_in(&mut self) -> Result<(), Fault> {
        let taken = self.record.len() as u64;
        if taken < self.order.family(self.record[0]).size() && self.left > 0 {
            return Ok(());
        }
        let place = self.offset - taken;
        self.judge().map_err(|number| (number, place))?;
        self.record.clear();
        Ok(())
    }

    /// The tests of the record whose bytes are in: 6 or 19, 5 (the record), 7, 5
    /// (its event), 8, and those of the replay.
    fn judge(&mut self) -> Result<(), u8> {
        if let Some(number) = self.order.family(self.record[0]).strange() {
            return Err(number);
        }
        let record = decode(&self.record, self.order).ok_or(5)?;
        self.stage = after(self.stage, &record).ok_or(7)?;
        if record.event_size() > self.left {
            return Err(5);
        }
        self.thread = thread_after(self.thread, &record)?;
        self.calls.take(&record)?;
        self.passed = match record {
            Record::EndOfBuffer => self.left,
            _ => record.event_size(),
        };
        Ok(())
    }
}
