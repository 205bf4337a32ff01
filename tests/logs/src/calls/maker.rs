//! A log in the making: records are put behind one another, and buffers are
//! closed and opened where they must be.

use crate::generate::{self, encode, number};
use crate::random::Random;
use second::header;
use second::order::Order;
use second::record::{Record, ENTRY_ARGS};

/// The least buffer that has room for any body record: the leading records,
/// 16 bytes and EndOfBuffer.
pub const LEAST: usize = 80;

/// Function ids of 28 bits lie below this.
const IDS: u32 = 1 << 28;

/// A log in the making, with a view of what a replay would hold behind it.
pub struct Maker<'a> {
    pub random: &'a mut Random,
    order: Order,
    pub log: Vec<u8>,
    /// The size of each buffer; none where one buffer takes all records.
    size: Option<usize>,
    /// Where the last buffer starts.
    pub start: usize,
    thread: u16,
    pub clock: u64,
    /// How far the clock of a next buffer may lie ahead.
    pub drift: u64,
    /// The ids of the open calls.
    pub stack: Vec<u32>,
    /// The ids to choose from.
    pub ids: Vec<u32>,
    /// The last fresh id, and the step to the next.
    series: (u32, u32),
    /// Whether a CallArgument may stand next.
    run: bool,
}

impl<'a> Maker<'a> {
    pub fn new(random: &'a mut Random, order: Order, size: Option<usize>) -> Maker<'a> {
        let (any, any_odd) = (random.number() as u32, random.number() as u32 | 1);
        let last = random.one_of(&[0, IDS - 1, IDS - 2, IDS - 700, any]);
        // An odd step meets every id before it meets one again.
        let step = random.one_of(&[1, IDS - 1, 17, any_odd]);
        let mut maker = Maker {
            order,
            log: generate::header(random, order, 0),
            size,
            start: 0,
            thread: random.number() as u16,
            clock: random.below(1 << 48),
            drift: 0,
            stack: Vec::new(),
            ids: Vec::new(),
            series: (last, step),
            run: false,
            random,
        };
        maker.open();
        maker
    }

    /// The same with this many ids to choose from.
    pub fn with_ids(
        random: &'a mut Random,
        order: Order,
        size: Option<usize>,
        ids: usize,
    ) -> Maker<'a> {
        let mut maker = Maker::new(random, order, size);
        for _ in 0..ids {
            maker.fresh();
        }
        maker
    }

    fn room(&self) -> usize {
        match self.size {
            Some(size) => self.start + size - self.log.len(),
            None => usize::MAX,
        }
    }

    /// A record, in a next buffer where this one has no room for it.
    fn put(&mut self, record: Record) {
        let bytes = encode(self.random, self.order, record);
        if self.room() < bytes.len() + 16 {
            self.turn();
        }
        self.log.extend(bytes);
        self.run = match record {
            Record::Function { action, .. } => action == ENTRY_ARGS,
            Record::CallArgument { .. } => self.run,
            _ => false,
        };
    }

    /// The three leading records.
    fn open(&mut self) {
        self.start = self.log.len();
        self.clock = self.clock.saturating_add(self.random.below(self.drift + 1));
        let leading = [
            Record::NewBuffer {
                thread: self.thread,
            },
            Record::WallTime {
                seconds: self.random.value(),
                micros: self.random.below(1_000_000) as u32,
            },
            self.new_cpu(),
        ];
        for record in leading {
            let bytes = encode(self.random, self.order, record);
            self.log.extend(bytes);
        }
        self.run = false;
    }

    /// A NewCPUId that leaves the clock as it is.
    fn new_cpu(&mut self) -> Record {
        Record::NewCpuId {
            cpu: self.random.below(8) as u16,
            tsc: self.clock,
        }
    }

    /// EndOfBuffer and the skipped rest.
    fn close(&mut self) {
        let end = encode(self.random, self.order, Record::EndOfBuffer);
        self.log.extend(end);
        let rest = match self.size {
            Some(_) => self.room(),
            None => self.random.index(40),
        };
        match self.random.below(3) {
            0 => self.log.resize(self.log.len() + rest, 0),
            1 => {
                let bytes = self.random.bytes(rest);
                self.log.extend(bytes);
            }
            _ => {
                // The buffer's own bytes once more, body first.
                let own = self.log[self.start..].to_vec();
                let again = own.iter().cycle().skip(48);
                self.log.extend(again.take(rest));
            }
        }
    }

    /// Whether a buffer may be closed long before it is full.
    pub fn turns(&self) -> bool {
        self.size.is_some_and(|size| size <= 4096)
    }

    /// Closes the buffer and opens a next one. Does nothing where one buffer
    /// takes all records.
    pub fn turn(&mut self) {
        if self.size.is_some() {
            self.close();
            self.open();
        }
    }

    pub fn finish(mut self) -> Vec<u8> {
        self.close();
        self.cut()
    }

    /// The log as it is, without EndOfBuffer.
    pub fn cut(mut self) -> Vec<u8> {
        let following = self.log.len() - header::SIZE;
        let size = self.size.unwrap_or(following) as u64;
        self.log[16..24].copy_from_slice(&number(self.order, size, 8));
        self.log
    }

    /// An id that wasn't chosen before.
    pub fn fresh(&mut self) -> u32 {
        let (last, step) = self.series;
        let id = last.wrapping_add(step) % IDS;
        self.series.0 = id;
        self.ids.push(id);
        id
    }

    pub fn known(&mut self) -> u32 {
        self.ids[self.random.index(self.ids.len())]
    }

    pub fn delta(&mut self) -> u32 {
        match self.random.below(8) {
            0 | 1 => 0,
            2 | 3 => self.random.below(4) as u32,
            4..=6 => self.random.below(1000) as u32,
            _ => self.random.number() as u32,
        }
    }

    pub fn function(&mut self, action: u8, id: u32, delta: u32) {
        self.put(Record::Function { action, id, delta });
        self.clock = self.clock.saturating_add(u64::from(delta));
    }

    /// Up to so many arguments, where a run goes on and the buffer has room.
    pub fn arguments(&mut self, most: u64) {
        for _ in 0..most {
            if self.run && self.room() >= 32 {
                let argument = self.random.value();
                self.put(Record::CallArgument { argument });
            }
        }
    }

    /// Sets the clock by a record of the body or by a next buffer's NewCPUId.
    pub fn set_clock(&mut self, tsc: u64) {
        self.clock = tsc;
        match self.random.below(3) {
            0 if self.turns() => return self.turn(),
            1 => self.put(Record::TscWrap { tsc }),
            _ => {
                let record = self.new_cpu();
                self.put(record);
            }
        }
        // Room for the record may have been in a next buffer only.
        self.clock = tsc;
    }

    /// A marker and its event.
    pub fn event(&mut self) {
        if self.room() < 32 {
            self.turn();
        }
        let longest = match self.random.below(8) {
            0 => 0,
            1 => 300,
            _ => 30,
        };
        let length = self.random.index(longest + 1).min(self.room() - 32);
        let tsc = self.random.value();
        let size = length as u32;
        self.put(Record::CustomEvent { size, tsc });
        let bytes = self.random.bytes(length);
        self.log.extend(bytes);
    }
}
