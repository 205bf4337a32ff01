//! With which byte each refusal comes.

use super::fed::{refused, report, told, Fed};
use crate::bytes::{
    event, event_marker, header, leading, log, metadata, sample_b, END, ENTRY, EXIT,
};
use crate::replay::log::Log;
use second::stream::Answer::{self, More};

/// The log is refused so with this many bytes, whether or not they are cut before
/// the last one; without it there is no refusal but the end's.
fn refused_with(bytes: usize, log: &[u8], answer: Answer) {
    assert_eq!(told(&log[..bytes]).0, answer, "in one read");
    assert_eq!(told(log).0, answer, "with what follows");
    let mut fed = Fed::with(&log[..bytes - 1]);
    let end = match bytes - 1 {
        ..32 => refused(1, 0),
        32 => report(0, 0, 0, 0),
        _ => refused(4, 0),
    };
    assert_eq!(fed.clone().end(), end, "one byte early");
    assert_eq!(fed.feed(&log[bytes - 1..bytes]), answer, "cut");
    assert!(fed.is_clear());
}

#[test]
fn the_header_with_its_last_byte() {
    let mut log = sample_b();
    log[2] = 2;
    refused_with(32, &log, refused(3, 0));
    log[1] = 2;
    refused_with(32, &log, refused(2, 0));
    assert_eq!(Fed::with(&log[..31]).end(), refused(1, 0));
}

#[test]
fn the_size_with_the_first_byte_behind_the_header() {
    let mut log = sample_b();
    log[16] = 63;
    refused_with(33, &log, refused(4, 0));
    assert_eq!(Fed::with(&log[..32]).end(), report(0, 0, 0, 0));
    // Before that byte is judged: it is of kind 127.
    log[32] = 0xFF;
    refused_with(33, &log, refused(4, 0));
}

#[test]
fn a_record_with_its_last_byte() {
    // Exit lies at 88: an open call of 6 isn't there.
    let mut other = sample_b();
    other[88] = 0x62;
    refused_with(96, &other, refused(10, 88));
    // NewBuffer where WallTimeMarker must stand.
    other[48] = 1;
    refused_with(64, &other, refused(7, 48));
    // A second buffer of another thread.
    let two = [log(64, &[&END]), leading(8)].concat();
    refused_with(112, &two, refused(8, 96));
    // A function record where a buffer starts.
    let bare = [header(64), ENTRY.to_vec()].concat();
    refused_with(40, &bare, refused(7, 32));
}

/// One byte tells that an action or a kind is strange; its record's last is waited
/// for all the same.
#[test]
fn a_strange_first_byte_with_the_last_of_its_family() {
    for action in 4..8 {
        let strange = [action * 2, 0, 0, 0, 0, 0, 0, 0];
        refused_with(88, &log(96, &[&strange, &END]), refused(6, 80));
    }
    for kind in [7, 8, 64, 127] {
        let mut strange = END;
        strange[0] = kind << 1 | 1;
        refused_with(96, &log(96, &[&strange, &END]), refused(19, 80));
        // At a buffer's start, where only NewBuffer may stand.
        refused_with(
            48,
            &[header(96), strange.to_vec()].concat(),
            refused(19, 32),
        );
    }
}

#[test]
fn a_record_past_the_end_with_the_last_byte_of_the_buffer() {
    // One to seven bytes are left for any record, eight to fifteen for metadata.
    let cut = |left: usize, record: &[u8]| log(64 + left, &[&ENTRY, &EXIT, &record[..left]]);
    for left in 1..8 {
        refused_with(96 + left, &cut(left, &EXIT), refused(5, 96));
        refused_with(96 + left, &cut(left, &[8; 8]), refused(6, 96));
    }
    for left in 1..16 {
        refused_with(96 + left, &cut(left, &END), refused(5, 96));
        refused_with(96 + left, &cut(left, &[0xFF; 16]), refused(19, 96));
    }
    // NewBuffer may not stand there, but runs past the end first.
    refused_with(107, &cut(11, &metadata(0, &[7, 0])), refused(5, 96));
}

#[test]
fn no_byte_left_with_the_last_byte_of_the_buffer() {
    let full = log(64, &[&ENTRY, &EXIT]);
    refused_with(96, &full, refused(5, 96));
    // Also where another buffer follows.
    refused_with(96, &[&full[..], &leading(7)].concat(), refused(5, 96));
    // What the last record is refused for comes first.
    refused_with(
        96,
        &log(64, &[&ENTRY, &[0x62, 0, 0, 0, 0, 0, 0, 0]]),
        refused(10, 88),
    );
    refused_with(96, &log(64, &[&metadata(0, &[7, 0])]), refused(7, 80));
    // EndOfBuffer as the last record is none.
    assert_eq!(told(&log(64, &[&END])), (More, report(0, 1, 4, 0)));
}

#[test]
fn an_event_to_the_end_with_its_last_byte() {
    for length in [1, 2, 15, 16, 17, 100] {
        let size = 64 + length as usize;
        let end = 32 + size;
        refused_with(end, &log(size, &[&event(length)]), refused(5, end as u64));
    }
    // Of an empty one the marker's last byte is the buffer's.
    refused_with(96, &log(64, &[&event(0)]), refused(5, 96));
}

#[test]
fn an_event_past_the_end_with_its_marker() {
    for over in [1, 2, 1 << 20, u32::MAX - 4] {
        let log = log(64 + 4, &[&event_marker(4 + over), &[0; 4]]);
        refused_with(96, &log, refused(5, 80));
    }
    // By the grammar first: an event where WallTimeMarker must stand.
    let log = [header(64), metadata(0, &[7, 0]), event_marker(1000)].concat();
    refused_with(64, &log, refused(7, 48));
}

#[test]
fn an_event_holds_no_records() {
    // Bytes of kind 127, and of Exits without a call.
    for byte in [0xFF, 0x52, 0] {
        let body = [&event_marker(40)[..], &[byte; 40], &ENTRY, &EXIT, &END].concat();
        let log = log(200, &[&body]);
        for cut in 96..136 {
            let mut fed = Fed::with(&log[..cut]);
            assert!(fed.is_clear());
            assert_eq!(fed.clone().end(), refused(4, 0));
            assert_eq!(fed.feed(&log[cut..]), More);
            assert_eq!(fed.end(), report(1, 1, 7, 0));
        }
    }
}

#[test]
fn a_skipped_rest_holds_no_records() {
    let mut log = log(300, &[&ENTRY, &END]);
    log[104..].fill(0xFF);
    for cut in 104..332 {
        let mut fed = Fed::with(&log[..cut]);
        assert_eq!(fed.rows(), [[5, 1, 0, 0, 0, 0]]);
        assert_eq!(fed.clone().end(), refused(4, 0));
        assert_eq!(fed.feed(&log[cut..]), More);
        assert_eq!(fed.end(), report(1, 1, 5, 1));
    }
}

#[test]
fn the_replay_with_the_last_byte_of_its_record() {
    let clock = Log::new(200, u64::MAX).entry(1, 1).close().bytes;
    refused_with(88, &clock, refused(9, 80));
    let deep = Log::new(4000, 1).entries(257, 1, 1).close().bytes;
    refused_with(80 + 257 * 8, &deep, refused(11, 80 + 256 * 8));
    let wide = (0..1025).fold(Log::new(20_000, 1), |log, id| log.entry(id, 0).exit(id, 0));
    refused_with(
        80 + 1024 * 16 + 8,
        &wide.close().bytes,
        refused(12, 80 + 1024 * 16),
    );
    let sum = Log::new(200, 0).entry(1, 0).entry(1, 0);
    let sum = sum.cpu(1 << 63).exit(1, 0).exit(1, 0).close().bytes;
    refused_with(128, &sum, refused(13, 120));
}
