//! Logs of both byte orders: paper 02, CR 4, with B in its big-endian form byte
//! by byte.

use crate::bytes::{sample_b, DIRT};
use second::header::{check, Header};
use second::log_writer::{add, close, open, start, Opening, Start};
use second::order::Order::{self, Big, Little};
use second::reader::{self, Read};
use second::record::Record;
use second::replay::{lines, replay, Answer, TABLE};
use second::scrub::{hidden, scrub};
use second::walk::{walk, Outcome};
use second::writer::{bytes, write, LEAST_BAD_ID};
use std::path::Path;

const D: u8 = DIRT;

/// B in its big-endian form, with dirt wherever a byte is hidden.
#[rustfmt::skip]
const B: [u8; 128] = [
    // Version, type, bitfield; frequency; buffer_size; reserved.
    0x00, 0x01, 0x00, 0x01, 0xC0, 0x00, 0x00, 0x00, 0x00, 0x00, 0x00, 0x00, 0x3B, 0x9A, 0xCA, 0x00,
    0x00, 0x00, 0x00, 0x00, 0x00, 0x00, 0x00, 0x60, D, D, D, D, D, D, D, D,
    // NewBuffer of thread 7, WallTimeMarker at 0, NewCPUId 0 at 1000.
    0x80, 0x00, 0x07, D, D, D, D, D, D, D, D, D, D, D, D, D,
    0x84, 0, 0, 0, 0, 0, 0, 0, 0, 0, 0, 0, 0, D, D, D,
    0x82, 0x00, 0x00, 0x00, 0x00, 0x00, 0x00, 0x00, 0x00, 0x03, 0xE8, D, D, D, D, D,
    // Entry of 5, Exit of 5.
    0x00, 0x00, 0x00, 0x05, 0x00, 0x00, 0x00, 0x0A, 0x10, 0x00, 0x00, 0x05, 0x00, 0x00, 0x00, 0x1E,
    // EndOfBuffer and the skipped rest.
    0x81, D, D, D, D, D, D, D, D, D, D, D, D, D, D, D,
    D, D, D, D, D, D, D, D, D, D, D, D, D, D, D, D,
];

fn clean() -> Vec<u8> {
    B.map(|byte| if byte == DIRT { 0 } else { byte }).to_vec()
}

fn sample(name: &str) -> Vec<u8> {
    let folder = Path::new(env!("CARGO_MANIFEST_DIR")).join("../../samples");
    std::fs::read(folder.join(name)).expect("a sample")
}

#[test]
fn b_has_the_report_of_b() {
    assert_eq!(sample("b-big-endian.fdr"), clean());
    let text = "rows 1 buffers 1 records 6 open 0\n5 1 1 0 0 30\n";
    assert_eq!(lines(&B, Big), text);
    assert_eq!(lines(&sample("b.fdr"), Little), text);
    let header = Header {
        constant_tsc: true,
        nonstop_tsc: true,
        frequency: 1_000_000_000,
        buffer_size: 96,
    };
    assert_eq!(check(&B, Big), Ok(header));
    assert_eq!(walk(&B, Big), walk(&sample_b(), Little));
    let (one, other) = (&mut [1; TABLE], &mut [2; TABLE]);
    replay(&B, Big, one);
    replay(&sample_b(), Little, other);
    assert_eq!(one, other);
}

#[test]
fn a_log_read_in_the_other_order_is_2_at_0() {
    let (number, place) = (2, 0);
    for (mut log, order) in [(B.to_vec(), Little), (sample_b(), Big)] {
        let before = log.clone();
        assert_eq!(check(&log, order), Err(2));
        assert_eq!(walk(&log, order).1, Outcome::Refused { number, place });
        assert_eq!(lines(&log, order), "refused 2 at 0\n");
        let answer = replay(&log, order, &mut [1; TABLE]);
        assert_eq!(answer, Answer::Refused { number, place });
        assert_eq!(scrub(&mut log, order), Err((2, 0)));
        assert_eq!(log, before);
        // A bare header as well.
        assert_eq!(check(&log[..32], order), Err(2));
    }
}

#[test]
fn hidden_bytes_lie_at_the_same_offsets() {
    assert_eq!(hidden(&B, Big), hidden(&sample_b(), Little));
    let mut log = B.to_vec();
    assert_eq!(scrub(&mut log, Big), Ok(()));
    assert_eq!(log, clean());
}

/// "The header's bitfield has constant_tsc as its top bit, nonstop_tsc as the
/// next."
#[test]
fn flags_of_the_header() {
    let flags = |at: usize, byte| {
        let mut log = B[..32].to_vec();
        log[4..8].fill(0);
        log[at] = byte;
        let header = check(&log, Big).expect("a good header");
        (header.constant_tsc, header.nonstop_tsc)
    };
    assert_eq!(flags(4, 0x80), (true, false));
    assert_eq!(flags(4, 0x40), (false, true));
    assert_eq!(flags(4, 0xC0), (true, true));
    assert_eq!(flags(4, 0x3F), (false, false));
    assert_eq!(flags(5, 0xFF), (false, false));
    assert_eq!(flags(7, 0xFF), (false, false));
}

#[test]
fn header_tests_come_in_order() {
    let mut log = B.to_vec();
    log[23] = 95;
    assert_eq!(check(&log, Big), Err(4));
    log[2] = 1;
    assert_eq!(check(&log, Big), Err(3));
    log[0] = 1;
    assert_eq!(check(&log, Big), Err(2));
    assert_eq!(check(&log[..31], Big), Err(1));
}

/// The first byte is 0aaaiiii or 1kkkkkkk, and 6 and 19 show in it.
#[test]
fn the_first_byte() {
    for first in 0..=255u8 {
        let expected = match first {
            0x00..=0x3F => Some(8),
            // At 0x85 an event of size 0.
            0x80..=0x86 => Some(16),
            _ => None,
        };
        let mut log = [0; 16];
        log[0] = first;
        let number = if first < 0x80 { 6 } else { 19 };
        match (reader::read(&log, Big, 16, 0), expected) {
            (Read::Found { next, .. }, Some(size)) => assert_eq!(next, size),
            (found, None) => {
                assert_eq!(found, Read::Refused { number, place: 0 });
                assert_eq!(reader::read(&log, Big, 1, 0), found);
            }
            other => panic!("{first:#x}: {other:?}"),
        }
    }
}

/// "Function id is the low 28 bits of the first 32-bit number, the action the
/// three bits between."
#[test]
fn a_function_record() {
    let read = |bytes: [u8; 8]| match reader::read(&bytes, Big, 8, 0) {
        Read::Found { record, next: 8 } => record,
        other => panic!("{other:?}"),
    };
    let function = |action, id, delta| Record::Function { action, id, delta };
    let cases = [
        ([0x00, 0, 0, 0x05, 0, 0, 0, 0x0A], function(0, 5, 10)),
        ([0x10, 0, 0, 0x05, 0, 0, 0, 0x1E], function(1, 5, 30)),
        (
            [0x21, 0x23, 0x45, 0x67, 0x89, 0xAB, 0xCD, 0xEF],
            function(2, 0x0123_4567, 0x89AB_CDEF),
        ),
        (
            [0x3F, 0xFF, 0xFF, 0xFF, 0xFF, 0xFF, 0xFF, 0xFF],
            function(3, LEAST_BAD_ID - 1, u32::MAX),
        ),
    ];
    for (written, record) in cases {
        assert_eq!(read(written), record);
        assert_eq!(bytes(&record, Big, &[]), written);
    }
}

#[test]
fn fields_in_the_table_s_order() {
    let marker = Record::CustomEvent {
        size: 2,
        tsc: 0x0102_0304_0506_0708,
    };
    let cases: [(Record, &[u8], &[u8]); 7] = [
        (Record::NewBuffer { thread: 0x0102 }, &[0x80, 1, 2], &[]),
        (Record::EndOfBuffer, &[0x81], &[]),
        (
            Record::NewCpuId {
                cpu: 0x0102,
                tsc: 0x0304_0506_0708_090A,
            },
            &[0x82, 1, 2, 3, 4, 5, 6, 7, 8, 9, 10],
            &[],
        ),
        (
            Record::TscWrap {
                tsc: 0x0102_0304_0506_0708,
            },
            &[0x83, 1, 2, 3, 4, 5, 6, 7, 8],
            &[],
        ),
        (
            Record::WallTime {
                seconds: 0x0102_0304_0506_0708,
                micros: 0x090A_0B0C,
            },
            &[0x84, 1, 2, 3, 4, 5, 6, 7, 8, 9, 10, 11, 12],
            &[],
        ),
        (
            marker,
            &[0x85, 0, 0, 0, 2, 1, 2, 3, 4, 5, 6, 7, 8],
            &[0xEE, 0xFF],
        ),
        (
            Record::CallArgument {
                argument: 0x0102_0304_0506_0708,
            },
            &[0x86, 1, 2, 3, 4, 5, 6, 7, 8],
            &[],
        ),
    ];
    for (record, fields, event) in cases {
        let mut expected = fields.to_vec();
        expected.resize(16, 0);
        expected.extend(event);
        let mut out = [7; 20];
        let size = expected.len();
        assert_eq!(write(&record, Big, event, &mut out), Ok(size));
        assert_eq!(out[..size], expected);
        assert!(out[size..].iter().all(|byte| *byte == 7));
        let next = size as u64;
        assert_eq!(
            reader::read(&out, Big, next, 0),
            Read::Found { record, next }
        );
        assert_eq!(reader::event(&out, Big, next, 0), event);
    }
}

#[test]
fn an_event_s_size() {
    // A marker at 80; the buffer ends at 128.
    let log = |size: [u8; 4]| {
        let mut log = B.to_vec();
        log[80] = 0x85;
        log[81..85].copy_from_slice(&size);
        log[112..].fill(0);
        log[112] = 0x81;
        walk(&log, Big).1
    };
    assert_eq!(log([0, 0, 0, 16]), Outcome::Done);
    let refused = |place| Outcome::Refused { number: 5, place };
    assert_eq!(log([0, 0, 0, 32]), refused(128));
    assert_eq!(log([0, 0, 0, 33]), refused(80));
    assert_eq!(log([16, 0, 0, 0]), refused(80));
}

/// The writer's state keeps the order, and the writer writes in it.
#[test]
fn the_log_writer_writes_b() {
    let opening = Opening {
        seconds: 0,
        micros: 0,
        cpu: 0,
        tsc: 1000,
    };
    let function = |action, delta| Record::Function {
        action,
        id: 5,
        delta,
    };
    let out = &mut [0xEE; 140];
    let begin = |order: Order| Start {
        order,
        frequency: 1_000_000_000,
        constant_tsc: true,
        nonstop_tsc: true,
        size: 96,
        thread: 7,
    };
    let begun = start(&begin(Big), out).unwrap();
    let opened = open(begun, &opening, out).unwrap();
    let entered = add(opened, &function(0, 10), &[], out).unwrap();
    let left = add(entered, &function(1, 30), &[], out).unwrap();
    let closed = close(left, out).unwrap();
    assert_eq!(out[..128], clean());
    assert_eq!(out[128..], [0xEE; 12]);
    for state in [begun, opened, entered, left, closed] {
        assert_eq!(state.order, Big);
    }
    let flags = |constant_tsc, nonstop_tsc| {
        let given = Start {
            constant_tsc,
            nonstop_tsc,
            ..begin(Big)
        };
        let mut header = [0; 32];
        start(&given, &mut header).unwrap();
        header[4..8].to_vec()
    };
    assert_eq!(flags(true, false), [0x80, 0, 0, 0]);
    assert_eq!(flags(false, true), [0x40, 0, 0, 0]);
    assert_eq!(flags(false, false), [0, 0, 0, 0]);
}

/// A state holds its order: one handed in with the other is written in that.
#[test]
fn a_state_with_the_other_order() {
    let given = Start {
        order: Big,
        frequency: 1,
        constant_tsc: false,
        nonstop_tsc: false,
        size: 96,
        thread: 0x0102,
    };
    let opening = Opening {
        seconds: 0,
        micros: 0,
        cpu: 0x0102,
        tsc: 1,
    };
    let out = &mut [0; 128];
    let mut state = start(&given, out).unwrap();
    assert_eq!(out[..4], [0, 1, 0, 1]);
    state.order = Little;
    let opened = open(state, &opening, out).unwrap();
    assert_eq!(opened.order, Little);
    assert_eq!(out[32..35], [1, 2, 1]);
    assert_eq!(out[64..67], [5, 2, 1]);
}
