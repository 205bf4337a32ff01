//! The record reader: Paper 01, "Bytes of a log".

use crate::bytes::{event_marker, log, sample_b, END};
use second::order::Order::Little;
use second::reader::{self, Read};
use second::record::Record;

#[test]
fn the_reader_takes_any_end_and_place() {
    let log = sample_b();
    let five = |end, place| {
        assert_eq!(
            reader::read(&log, Little, end, place),
            Read::Refused { number: 5, place }
        );
        assert!(reader::event(&log, Little, end, place).is_empty());
    };
    for (end, place) in [(129, 32), (128, 128), (128, 129), (0, 0), (96, 96)] {
        five(end, place);
    }
    for (end, place) in [(u64::MAX, 0), (u64::MAX, u64::MAX), (128, u64::MAX)] {
        five(end, place);
    }
    // The end may lie anywhere up to the log's length.
    five(47, 32);
    assert_eq!(
        reader::read(&log, Little, 48, 32),
        Read::Found {
            record: Record::NewBuffer { thread: 7 },
            next: 48,
        }
    );
}

#[test]
fn an_event_is_the_logs_own_part() {
    let log = log(128, &[&event_marker(4), b"tick", &END]);
    let event = reader::event(&log, Little, 160, 80);
    assert_eq!(event, b"tick");
    assert!(std::ptr::eq(event, &log[96..100]));
    assert_eq!(reader::event(&log, Little, 100, 80), b"tick");
    assert!(reader::event(&log, Little, 99, 80).is_empty());
    assert!(reader::event(&log, Little, 160, 64).is_empty());
    assert!(reader::event(&log, Little, 160, 1000).is_empty());
}

#[test]
fn six_and_nineteen_show_in_the_first_byte() {
    for first in 0..=255u8 {
        let number = match (first % 2, first / 2) {
            (0, above) if above % 8 > 3 => Some(6),
            (1, kind) if kind > 6 => Some(19),
            _ => None,
        };
        let strange = match reader::read(&[first; 16], Little, 16, 0) {
            Read::Refused { number, place: 0 } => Some(number).filter(|number| *number != 5),
            _ => None,
        };
        assert_eq!(strange, number);
    }
}
