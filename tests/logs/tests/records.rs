//! What the second program's writer and reader make of any record and any
//! bytes: Paper 01, "Writer and comparison".

use logs::generate::any_record;
use logs::random::Random;
use second::order::Order;
use second::reader::{self, Read};
use second::record::Record;
use second::writer::write;

#[test]
fn read_back_and_written_again() {
    let mut random = Random::new(0xB00C);
    for _ in 0..20_000 {
        let record = any_record(&mut random);
        let order = random.one_of(&Order::ALL);
        let mut event = vec![0; random.index(40)];
        random.fill(&mut event);
        let mut out = vec![0; 70];
        random.fill(&mut out);
        let before = out.clone();
        let size = write(&record, order, &event, &mut out).unwrap();
        assert_eq!(out[size..], before[size..]);
        let (expected, given): (Record, &[u8]) = match record {
            Record::CustomEvent { tsc, .. } => {
                let size = event.len() as u32;
                (Record::CustomEvent { size, tsc }, &event)
            }
            other => (other, &[]),
        };
        let next = size as u64;
        let found = Read::Found {
            record: expected,
            next,
        };
        assert_eq!(reader::read(&out, order, next, 0), found);
        assert_eq!(reader::event(&out, order, next, 0), given);
        // Every byte counts but the reserved ones, which are zero.
        let mut again = out.clone();
        assert_eq!(write(&expected, order, given, &mut again), Ok(size));
        assert_eq!(again, out);
    }
}

/// The offset at which a record's reserved or unused bytes start.
fn reserved_from(record: &Record) -> usize {
    match record {
        Record::Function { .. } => 8,
        Record::NewBuffer { .. } => 3,
        Record::EndOfBuffer => 1,
        Record::NewCpuId { .. } => 11,
        Record::TscWrap { .. } | Record::CallArgument { .. } => 9,
        Record::WallTime { .. } | Record::CustomEvent { .. } => 13,
    }
}

#[test]
fn old_bytes_with_reserved_ones_zero() {
    let mut random = Random::new(0x01D);
    for _ in 0..20_000 {
        let mut log = vec![0; 60];
        random.fill(&mut log);
        let order = random.one_of(&Order::ALL);
        let (kind, action, size) = (
            random.below(8) as u8,
            random.below(4) as u8,
            random.below(45) as u8,
        );
        log[0] = match (kind, order) {
            (7, Order::Little) => log[0] & 0xF0 | action << 1,
            (7, Order::Big) => log[0] & 0x0F | action << 4,
            (_, Order::Little) => kind * 2 + 1,
            (_, Order::Big) => 0x80 + kind,
        };
        match (kind, order) {
            (5, Order::Little) => log[1..5].copy_from_slice(&[size, 0, 0, 0]),
            (5, Order::Big) => log[1..5].copy_from_slice(&[0, 0, 0, size]),
            _ => {}
        }
        let Read::Found { record, next } = reader::read(&log, order, 60, 0) else {
            panic!("a known record with room for its event");
        };
        let mut again = [7; 60];
        let event = reader::event(&log, order, 60, 0);
        assert_eq!(write(&record, order, event, &mut again), Ok(next as usize));
        let mut expected = log.clone();
        expected[reserved_from(&record)..record.size() as usize].fill(0);
        expected[next as usize..].fill(7);
        assert_eq!(again[..], expected);
    }
}
