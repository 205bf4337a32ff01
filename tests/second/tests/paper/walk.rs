//! The header's tests and the walk: the samples of Paper 01, "Sample logs",
//! and the edges that the sentences of "Bytes of a log" name.

use crate::bytes::{argument, buffer, event, event_marker, header, log, metadata};
use crate::bytes::{sample_b, DIRT, END, ENTRY, ENTRY_ARGS, EXIT, TAIL_EXIT};
use second::header::{check, Header};
use second::order::Order::Little;
use second::record::Record;
use second::walk::{self, Outcome, Position, Stage, Step};

fn outcome(log: &[u8]) -> Outcome {
    walk::walk(log, Little).1
}

fn refused(number: u8, place: u64) -> Outcome {
    Outcome::Refused { number, place }
}

#[test]
fn sample_b_has_six_records() {
    let log = sample_b();
    assert_eq!(log.len(), 128);
    assert_eq!(
        check(&log, Little),
        Ok(Header {
            constant_tsc: true,
            nonstop_tsc: true,
            frequency: 1_000_000_000,
            buffer_size: 96,
        })
    );
    let (items, outcome) = walk::walk(&log, Little);
    assert_eq!(outcome, Outcome::Done);
    let places: Vec<u64> = items.iter().map(|item| item.place).collect();
    assert_eq!(places, [32, 48, 64, 80, 88, 96]);
    let records: Vec<Record> = items.iter().map(|item| item.record).collect();
    let expected = [
        Record::NewBuffer { thread: 7 },
        Record::WallTime {
            seconds: 0,
            micros: 0,
        },
        Record::NewCpuId { cpu: 0, tsc: 1000 },
        Record::Function {
            action: 0,
            id: 5,
            delta: 10,
        },
        Record::Function {
            action: 1,
            id: 5,
            delta: 30,
        },
        Record::EndOfBuffer,
    ];
    assert_eq!(records, expected);
    assert_eq!(items[5].next_place, 128);
}

#[test]
fn positions_of_sample_b() {
    let log = sample_b();
    let mut position = walk::start(&check(&log, Little).unwrap(), Little);
    let mut stages = Vec::new();
    while let Step::Found { next, .. } = walk::next(&log, position) {
        assert_eq!((next.end, next.size, next.thread), (128, 96, Some(7)));
        stages.push(next.stage);
        position = next;
    }
    let expected = [
        Stage::WallTime,
        Stage::Cpu,
        Stage::Body,
        Stage::Body,
        Stage::Body,
        Stage::Between,
    ];
    assert_eq!(stages, expected);
    assert_eq!(position.place, 128);
    assert_eq!(walk::next(&log, position), Step::Over);
}

#[test]
fn a_bare_header_passes_whatever_its_size_says() {
    for size in [0, 63, 64, u64::MAX] {
        let (items, outcome) = walk::walk(&header(size), Little);
        assert!(items.is_empty());
        assert_eq!(outcome, Outcome::Done);
    }
}

#[test]
fn lengths() {
    assert_eq!(outcome(&[]), refused(1, 0));
    assert_eq!(outcome(&header(64)[..31]), refused(1, 0));
    let mut longest = log(16_777_184, &[&END]);
    assert_eq!(longest.len(), 16_777_216);
    assert_eq!(outcome(&longest), Outcome::Done);
    longest.push(0);
    assert_eq!(outcome(&longest), refused(1, 0));
}

#[test]
fn header_tests_come_in_order() {
    let mut log = sample_b();
    log[16] = 95;
    assert_eq!(check(&log, Little), Err(4));
    log[3] = 1;
    assert_eq!(check(&log, Little), Err(3));
    log[1] = 1;
    assert_eq!(check(&log, Little), Err(2));
    assert_eq!(check(&log[..31], Little), Err(1));
}

#[test]
fn least_buffer_size() {
    assert_eq!(outcome(&log(64, &[&END])), Outcome::Done);
    let (items, _) = walk::walk(&log(64, &[&END]), Little);
    assert_eq!(items.len(), 4);
    assert_eq!(outcome(&log(63, &[])), refused(4, 0));
}

#[test]
fn arguments_stand_only_in_a_run() {
    let argument = argument();
    let take = |body: &[&[u8]]| outcome(&log(160, body));
    assert_eq!(take(&[&ENTRY, &argument, &END]), refused(7, 88));
    assert_eq!(take(&[&EXIT, &argument, &END]), refused(7, 88));
    assert_eq!(take(&[&TAIL_EXIT, &argument, &END]), refused(7, 88));
    assert_eq!(take(&[&argument, &END]), refused(7, 80));
    assert_eq!(take(&[&ENTRY_ARGS, &argument, &END]), Outcome::Done);
    assert_eq!(take(&[&ENTRY_ARGS, &END]), Outcome::Done);
    let two: [&[u8]; 4] = [&ENTRY_ARGS, &argument, &argument, &END];
    assert_eq!(take(&two), Outcome::Done);
    let broken: [&[u8]; 5] = [&ENTRY_ARGS, &argument, &EXIT, &argument, &END];
    assert_eq!(take(&broken), refused(7, 112));
    let event: [&[u8]; 4] = [&ENTRY_ARGS, &event_marker(0), &argument, &END];
    assert_eq!(take(&event), refused(7, 104));
}

#[test]
fn leading_records_stand_only_in_front() {
    for thread in [7, 8] {
        let log = log(128, &[&metadata(0, &[thread, 0]), &END]);
        assert_eq!(outcome(&log), refused(7, 80));
    }
    assert_eq!(
        outcome(&log(128, &[&metadata(4, &[]), &END])),
        refused(7, 80)
    );
    let mut log = sample_b();
    log[32] = 9;
    assert_eq!(outcome(&log), refused(7, 32));
    let mut log = sample_b();
    log[48] = 5;
    assert_eq!(outcome(&log), refused(7, 48));
    let mut log = sample_b();
    log[64] = 3;
    assert_eq!(outcome(&log), refused(7, 64));
}

#[test]
fn an_event_at_the_end() {
    // The marker lies at place 80 and the buffer ends at 160.
    assert_eq!(outcome(&log(128, &[&event_marker(64)])), refused(5, 160));
    assert_eq!(outcome(&log(128, &[&event_marker(65)])), refused(5, 80));
    let far = event_marker(u32::MAX);
    assert_eq!(outcome(&log(128, &[&far])), refused(5, 80));
    let fits = [event(48), END.to_vec()].concat();
    assert_eq!(outcome(&log(128, &[&fits])), Outcome::Done);
}

#[test]
fn a_record_past_the_end() {
    // Behind the event, 15 bytes are left, and then 7.
    let body = [event(33), END.to_vec()].concat();
    assert_eq!(outcome(&log(112, &[&body[..64]])), refused(5, 129));
    let body = [event(41), ENTRY[..7].to_vec()].concat();
    assert_eq!(outcome(&log(112, &[&body])), refused(5, 137));
}

#[test]
fn an_unknown_record_with_one_byte_left() {
    let body = [event(47), vec![0x08]].concat();
    assert_eq!(outcome(&log(112, &[&body])), refused(6, 143));
    let body = [event(47), vec![0x0F]].concat();
    assert_eq!(outcome(&log(112, &[&body])), refused(19, 143));
    let body = [event(47), vec![0x0D]].concat();
    assert_eq!(outcome(&log(112, &[&body])), refused(5, 143));
}

#[test]
fn the_record_comes_before_the_grammar_and_that_before_its_event() {
    // A CallArgument that doesn't fit is 5, one that fits is 7.
    let body = [event(33), argument()].concat();
    assert_eq!(outcome(&log(112, &[&body[..64]])), refused(5, 129));
    // An event in place of NewBuffer is 7, whatever its size.
    let mut log = sample_b();
    log[32..48].copy_from_slice(&event_marker(u32::MAX));
    assert_eq!(outcome(&log), refused(7, 32));
}

#[test]
fn one_thread_in_a_log() {
    let one = buffer(64, 7, &[&END]);
    let two = buffer(64, 8, &[&END]);
    let same = [header(64), one.clone(), one.clone()].concat();
    assert_eq!(outcome(&same), Outcome::Done);
    let other = [header(64), one.clone(), two, one].concat();
    assert_eq!(outcome(&other), refused(8, 96));
}

#[test]
fn hidden_bytes_cause_no_refusal() {
    for byte in [0, 0xFF] {
        let mut log = sample_b();
        for hidden in log.iter_mut().filter(|byte| **byte == DIRT) {
            *hidden = byte;
        }
        assert_eq!(walk::walk(&log, Little), walk::walk(&sample_b(), Little));
    }
}

#[test]
fn a_step_takes_any_position() {
    let log = sample_b();
    let position = Position {
        order: Little,
        place: 128,
        end: u64::MAX,
        size: u64::MAX,
        stage: Stage::Between,
        thread: None,
    };
    assert_eq!(walk::next(&log, position), Step::Over);
    let place = 32;
    // The last two sums are 2^64 and more.
    for size in [0, 15, 97, u64::MAX - 31, u64::MAX] {
        let odd = Position {
            place,
            size,
            ..position
        };
        assert_eq!(walk::next(&log, odd), Step::Refused { number: 5, place });
    }
    let body = Position {
        stage: Stage::Body,
        ..position
    };
    let refused = Step::Refused {
        number: 5,
        place: 128,
    };
    assert_eq!(walk::next(&log, body), refused);
}
