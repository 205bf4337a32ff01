//! When each record of a log is judged, and what the log is refused for and when:
//! told from the whole log and its replay, by paper 02, CR 1.

use second::header::{self, SIZE};
use second::order::Order;
use second::record::{decode, Record};
use second::replay::{self, Answer, TABLE};
use second::walk::{self, Step};
use second::writer;

/// Bytes behind a cut log that are enough for any record to end.
const BEHIND: u64 = 65_536;

pub struct Times {
    order: Order,
    /// For each record in turn the number of bytes that it is judged with, and how
    /// much of the body is made by then.
    judged: Vec<(u64, usize)>,
    /// The records that move the clock or the stack.
    body: Vec<u8>,
    /// The refusal with the number of bytes that it comes with.
    fault: Option<(u64, Answer)>,
    end: End,
}

/// What the end is answered with, where no refusal comes before.
#[derive(Debug, Clone, Copy, PartialEq, Eq)]
pub enum End {
    /// The log passes tests 1 to 4, but for 1's upper limit: what its replay
    /// answers.
    Whole(Answer),
    /// It fails 1, 2, 3, or 4 by its buffer_size.
    Header(u8),
    /// It fails 4 by its length alone.
    Length,
}

impl Times {
    pub fn of(log: &[u8], order: Order) -> Times {
        let failed = |bytes, number| Times {
            order,
            judged: Vec::new(),
            body: Vec::new(),
            fault: Some((bytes, refused(number))),
            end: End::Header(number),
        };
        let number = header::unlimited(log, order).err();
        // A bare header passes test 4.
        let size = match log.get(..SIZE).map(|bare| header::unlimited(bare, order)) {
            None => return failed(u64::MAX, 1),
            Some(Err(number)) => return failed(32, number),
            Some(Ok(header)) => header.buffer_size,
        };
        match number {
            None => Times::walked(log, order, size),
            Some(number) if size < 64 => failed(33, number),
            Some(_) => Times::cut(log, order, size),
        }
    }

    /// Those of a log that passes tests 1 to 4.
    fn walked(log: &[u8], order: Order, size: u64) -> Times {
        let answer = replay::unlimited(log, order, &mut vec![0; TABLE]);
        let refused = match answer {
            Answer::Refused { number, place } => Some((number, place)),
            Answer::Report { .. } => None,
        };
        let stop = refused.map_or(u64::MAX, |(_, place)| place);
        let mut times = Times {
            order,
            judged: Vec::new(),
            body: Vec::new(),
            fault: refused.map(|(number, place)| (bytes(log, order, size, number, place), answer)),
            end: End::Whole(answer),
        };
        let header = header::unlimited(log, order).expect("it passes");
        let mut position = walk::start(&header, order);
        while let Step::Found { record, next } = walk::next(log, position) {
            if position.place >= stop {
                break;
            }
            times.judge(position.place + record.size(), &record);
            position = next;
        }
        times
    }

    /// A record that is judged with so many bytes.
    fn judge(&mut self, bytes: u64, record: &Record) {
        match record {
            Record::Function { .. } | Record::NewCpuId { .. } | Record::TscWrap { .. } => {
                self.body.extend(writer::bytes(record, self.order, &[]));
            }
            _ => {}
        }
        self.judged.push((bytes, self.body.len()));
    }

    /// Those of a log that fails 4 by its length alone: of one that starts with it
    /// and passes.
    fn cut(log: &[u8], order: Order, size: u64) -> Times {
        let following = (log.len() - SIZE) as u64;
        let mut longer = log.to_vec();
        let mut times = if following > size {
            let whole = following.next_multiple_of(size);
            longer.resize(SIZE + whole as usize, 0);
            Times::walked(&longer, order, size)
        } else {
            // All of the log lies in one buffer, which may be a huge one.
            let least = size.min(following + BEHIND);
            longer[16..24].copy_from_slice(&order.bytes(least, 8));
            longer.resize(SIZE + least as usize, 0);
            let mut times = Times::walked(&longer, order, least);
            times.keep_event(&longer, size);
            times
        };
        times.end = End::Length;
        times
    }

    /// An event that fits a buffer of this size is no fault, where it is one in the
    /// smaller buffer.
    fn keep_event(&mut self, log: &[u8], size: u64) {
        let Some((bytes, Answer::Refused { number: 5, place })) = self.fault else {
            return;
        };
        let record = log
            .get(place as usize..)
            .and_then(|at| decode(at, self.order));
        if let Some(record @ Record::CustomEvent { .. }) = record {
            if bytes - SIZE as u64 + record.event_size() <= size {
                self.judge(bytes, &record);
                self.fault = None;
            }
        }
    }

    pub fn end(&self) -> End {
        self.end
    }

    /// The refusal that has come with so many bytes.
    pub fn fault(&self, taken: u64) -> Option<Answer> {
        let (bytes, answer) = self.fault?;
        (bytes <= taken).then_some(answer)
    }

    /// How many records are judged with so many bytes.
    pub fn judged(&self, taken: u64) -> usize {
        self.judged.partition_point(|(bytes, _)| *bytes <= taken)
    }

    /// The table behind so many records: that of a log of one buffer that holds
    /// what they have made of the body.
    pub fn table(&self, records: usize) -> Vec<u64> {
        let made = self.judged[..records].last().map_or(0, |(_, made)| *made);
        let log = one_buffer(self.order, &self.body[..made]);
        let mut table = vec![0; TABLE];
        let answer = replay::unlimited(&log, self.order, &mut table);
        assert!(matches!(answer, Answer::Report { .. }), "{answer:?}");
        table
    }
}

fn refused(number: u8) -> Answer {
    Answer::Refused { number, place: 0 }
}

/// The number of bytes that a refusal at a record comes with: "a record is judged
/// once its 8 or 16 bytes, or the buffer's last, are in".
fn bytes(log: &[u8], order: Order, size: u64, number: u8, place: u64) -> u64 {
    let within = (place - SIZE as u64) % size;
    // No record at a buffer's start runs past its end: there 5 is that no byte is
    // left in the one before.
    if number == 5 && within == 0 {
        return place;
    }
    let family = order.family(log[place as usize]);
    place + family.size().min(size - within)
}

/// A log of one buffer with this body.
fn one_buffer(order: Order, body: &[u8]) -> Vec<u8> {
    let written = |record| writer::bytes(&record, order, &[]);
    let [seconds, tsc] = [0; 2];
    let (micros, cpu, thread) = (0, 0, 7);
    let size = 64 + body.len() as u64;
    [
        [order.bytes(1, 2), order.bytes(1, 2), vec![0; 12]].concat(),
        [order.bytes(size, 8), vec![0; 8]].concat(),
        written(Record::NewBuffer { thread }),
        written(Record::WallTime { seconds, micros }),
        written(Record::NewCpuId { cpu, tsc }),
        body.to_vec(),
        written(Record::EndOfBuffer),
    ]
    .concat()
}
