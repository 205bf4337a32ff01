//! Logs made record by record for the replay, and what it answers.

use crate::bytes;
use second::order::Order::Little;
use second::replay::{replay, Answer, TABLE};

/// A log in the making: buffers of one size.
pub struct Log {
    pub bytes: Vec<u8>,
    size: usize,
    start: usize,
}

impl Log {
    /// A header, and a buffer's leading records with this clock.
    pub fn new(size: usize, clock: u64) -> Log {
        let bytes = bytes::header(size as u64);
        let start = bytes.len();
        Log { bytes, size, start }.open(clock)
    }

    pub fn metadata(mut self, kind: u8, data: &[u8]) -> Log {
        self.bytes.extend(bytes::metadata(kind, data));
        self
    }

    pub fn open(self, clock: u64) -> Log {
        self.metadata(0, &[7, 0]).metadata(4, &[]).cpu(clock)
    }

    pub fn cpu(self, clock: u64) -> Log {
        let data = [&[3, 0], &clock.to_le_bytes()[..]].concat();
        self.metadata(2, &data)
    }

    pub fn wrap(self, clock: u64) -> Log {
        self.metadata(3, &clock.to_le_bytes())
    }

    /// An event of two bytes, with any absolute_tsc.
    pub fn event(self) -> Log {
        let mut log = self.metadata(5, &[2, 0, 0, 0, 9, 9, 9, 9, 9, 9, 9, 9]);
        log.bytes.extend([0x50, 0x52]);
        log
    }

    pub fn argument(self) -> Log {
        self.metadata(6, &[0xFF; 8])
    }

    pub fn function(mut self, action: u32, id: u32, delta: u32) -> Log {
        let word = id << 4 | action << 1;
        self.bytes.extend(word.to_le_bytes());
        self.bytes.extend(delta.to_le_bytes());
        self
    }

    pub fn entry(self, id: u32, delta: u32) -> Log {
        self.function(0, id, delta)
    }

    pub fn exit(self, id: u32, delta: u32) -> Log {
        self.function(1, id, delta)
    }

    pub fn tail_exit(self, id: u32, delta: u32) -> Log {
        self.function(2, id, delta)
    }

    pub fn entry_args(self, id: u32, delta: u32) -> Log {
        self.function(3, id, delta)
    }

    /// This many entries of each id from `first` on, with `ids` ids.
    pub fn entries(mut self, times: u32, first: u32, ids: u32) -> Log {
        for id in first..first + ids {
            for _ in 0..times {
                self = self.entry(id, 0);
            }
        }
        self
    }

    /// EndOfBuffer and the skipped rest, which looks like entries.
    pub fn close(self) -> Log {
        let mut log = self.metadata(1, &[]);
        let end = log.start + log.size;
        assert!(log.bytes.len() <= end, "the buffer is full");
        log.bytes.resize(end, 0x50);
        log.start = end;
        log
    }

    /// The next buffer.
    pub fn turn(self, clock: u64) -> Log {
        self.close().open(clock)
    }

    /// The place of the next record.
    pub fn place(&self) -> u64 {
        self.bytes.len() as u64
    }

    pub fn answer(self) -> Answer {
        run(&self.close().bytes).0
    }

    /// The rows, which must be all that the table holds.
    pub fn rows(self) -> Vec<[u64; 6]> {
        let (answer, rows) = run(&self.close().bytes);
        assert!(matches!(answer, Answer::Report { .. }), "{answer:?}");
        rows
    }
}

/// A number that no row holds.
pub const OLD: u64 = 0xABCD_EF01_2345_6789;

/// The answer and the rows. Tells whether the table is written as far as it
/// must be, and no further.
pub fn run(log: &[u8]) -> (Answer, Vec<[u64; 6]>) {
    let mut table = vec![OLD; TABLE + 3];
    let answer = replay(log, Little, &mut table);
    assert_eq!(table[TABLE..], [OLD; 3]);
    let rows = match answer {
        Answer::Report { rows, .. } => rows as usize,
        Answer::Refused { .. } => 0,
    };
    assert!(table[rows * 6..TABLE].iter().all(|number| *number == 0));
    let rows = table[..rows * 6].chunks(6);
    let rows = rows.map(|row| row.try_into().expect("six numbers"));
    (answer, rows.collect())
}

pub fn refused(number: u8, place: u64) -> Answer {
    Answer::Refused { number, place }
}

pub fn report(rows: u64, buffers: u64, records: u64, open: u64) -> Answer {
    Answer::Report {
        rows,
        buffers,
        records,
        open,
    }
}
