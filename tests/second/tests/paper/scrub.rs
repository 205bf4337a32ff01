//! The hidden bytes of Paper 01, "Bytes of a log", by the places at which each
//! sentence puts them, and the scrubber.

use crate::bytes::{argument, buffer, event, header, log, metadata, sample_b};
use crate::bytes::{DIRT, END, ENTRY, ENTRY_ARGS, EXIT};
use second::order::Order::Little;
use second::replay::{replay, Answer, TABLE};
use second::scrub::{hidden, scrub, Kind, Part};
use std::ops::Range;
use std::path::Path;

fn part(kind: Kind, bytes: Range<usize>) -> Part {
    Part { kind, bytes }
}

/// The parts in front of the first buffer's body.
fn before_body() -> Vec<Part> {
    vec![
        part(Kind::Header, 24..32),
        part(Kind::NewBuffer, 35..48),
        part(Kind::WallTime, 61..64),
        part(Kind::NewCpuId, 75..80),
    ]
}

/// Expects these parts behind the leading records of a log, which hold all of
/// its dirt, and that scrubbing takes away just that.
fn expect(mut log: Vec<u8>, behind: &[Part]) {
    let parts = [&before_body()[..], behind].concat();
    assert_eq!(hidden(&log, Little), parts);
    let places: Vec<usize> = parts.into_iter().flat_map(|part| part.bytes).collect();
    let dirty = (0..log.len()).filter(|place| log[*place] == DIRT);
    assert_eq!(dirty.collect::<Vec<usize>>(), places);
    let mut clean = log.clone();
    for byte in &mut clean {
        *byte = if *byte == DIRT { 0 } else { *byte };
    }
    assert_eq!(scrub(&mut log, Little), Ok(()));
    assert!(log == clean);
}

/// Expects this refusal, and the log as it was.
fn refused(log: &[u8], number: u8, place: u64) {
    let mut after = log.to_vec();
    assert_eq!(scrub(&mut after, Little), Err((number, place)));
    assert!(after == log);
}

#[test]
fn sample_b_byte_by_byte() {
    let mut log = sample_b();
    assert_eq!(scrub(&mut log, Little), Ok(()));
    let path = Path::new(env!("CARGO_MANIFEST_DIR")).join("../../samples/b.fdr");
    let clean = std::fs::read(path).expect("sample B is there");
    // Its skipped rest and its reserved bytes are zeros in the file.
    assert!(log == clean);
    let end = [part(Kind::EndOfBuffer, 97..112), part(Kind::Rest, 112..128)];
    expect(sample_b(), &end);
}

#[test]
fn each_record() {
    let cpu = metadata(2, &[1; 10]);
    let wrap = metadata(3, &[1; 8]);
    let (argument, event) = (argument(), event(5));
    let body: [&[u8]; 8] = [
        &cpu,
        &wrap,
        &ENTRY_ARGS,
        &argument,
        &argument,
        &event,
        &EXIT,
        &END,
    ];
    let parts = [
        part(Kind::NewCpuId, 91..96),
        part(Kind::TscWrap, 105..112),
        part(Kind::Argument, 121..129),
        part(Kind::CallArgument, 129..136),
        part(Kind::Argument, 137..145),
        part(Kind::CallArgument, 145..152),
        part(Kind::CustomEvent, 165..168),
        part(Kind::Event, 168..173),
        part(Kind::EndOfBuffer, 182..197),
    ];
    expect(log(165, &body), &parts);
}

#[test]
fn an_event_of_size_0_has_no_bytes() {
    let event = event(0);
    let parts = [
        part(Kind::CustomEvent, 93..96),
        part(Kind::EndOfBuffer, 97..112),
    ];
    expect(log(80, &[&event, &END]), &parts);
}

#[test]
fn an_event_whose_bytes_look_like_records() {
    let mut inside = log(112, &[&event(16), &END]);
    inside[96..112].copy_from_slice(&END);
    inside[128..144].copy_from_slice(&[3; 16]);
    assert_eq!(scrub(&mut inside, Little), Ok(()));
    assert_eq!(
        inside[80..96],
        metadata(5, &[16, 0, 0, 0, 9, 9, 9, 9, 9, 9, 9, 9, 0, 0, 0])
    );
    assert_eq!(inside[96..112], [0; 16]);
    assert_eq!(inside[112..144], [[3].as_slice(), &[0; 31]].concat());
}

#[test]
fn rests_of_several_buffers() {
    let full = buffer(88, 7, &[&ENTRY, &[0x50; 8], &[0x50; 8], &END]);
    assert_eq!(full.len(), 88);
    let short = buffer(88, 7, &[&END]);
    let one = buffer(88, 7, &[&ENTRY, &EXIT, &END]);
    let log = [header(88), full, short, one].concat();
    let parts = [
        part(Kind::EndOfBuffer, 105..120),
        part(Kind::NewBuffer, 123..136),
        part(Kind::WallTime, 149..152),
        part(Kind::NewCpuId, 163..168),
        part(Kind::EndOfBuffer, 169..184),
        part(Kind::Rest, 184..208),
        part(Kind::NewBuffer, 211..224),
        part(Kind::WallTime, 237..240),
        part(Kind::NewCpuId, 251..256),
        part(Kind::EndOfBuffer, 273..288),
        part(Kind::Rest, 288..296),
    ];
    expect(log, &parts);
}

#[test]
fn a_bare_header() {
    for size in [0, 63, 64, u64::MAX] {
        let mut log = header(size);
        assert_eq!(hidden(&log, Little), [part(Kind::Header, 24..32)]);
        assert_eq!(scrub(&mut log, Little), Ok(()));
        assert_eq!(log[..24], header(size)[..24]);
        assert_eq!(log[24..], [0; 8]);
    }
}

#[test]
fn refusals_1_to_4_change_nothing() {
    refused(&[], 1, 0);
    refused(&sample_b()[..31], 1, 0);
    let mut log = sample_b();
    log[16] = 95;
    refused(&log, 4, 0);
    log[3] = 1;
    refused(&log, 3, 0);
    log[1] = 1;
    refused(&log, 2, 0);
    let mut longest = self::log(16_777_184, &[&END]);
    assert_eq!(scrub(&mut longest.clone(), Little), Ok(()));
    longest.push(0);
    refused(&longest, 1, 0);
}

#[test]
fn refusals_5_to_8_and_19_change_nothing() {
    // No byte is left, where another buffer follows.
    let open = [
        header(64),
        buffer(64, 7, &[&ENTRY, &EXIT]),
        buffer(64, 7, &[&END]),
    ]
    .concat();
    refused(&open, 5, 96);
    // A record, and an event, one byte past the end.
    refused(&log(71, &[&ENTRY, &END]), 5, 88);
    refused(&log(96, &[&event(33)]), 5, 80);
    // An event up to the end.
    refused(&log(96, &[&event(32)]), 5, 128);
    refused(&log(96, &[&ENTRY, &[0x58; 8], &END]), 6, 88);
    refused(&log(96, &[&ENTRY, &[15; 8], &END]), 19, 88);
    refused(&log(104, &[&ENTRY, &argument(), &END]), 7, 88);
    let other = [header(64), buffer(64, 7, &[&END]), buffer(64, 8, &[&END])].concat();
    refused(&other, 8, 96);
}

#[test]
fn a_refused_record_and_what_follows_it_have_no_hidden_bytes() {
    let strange = log(112, &[&event(4), &[15; 16], &END]);
    let parts = [part(Kind::CustomEvent, 93..96), part(Kind::Event, 96..100)];
    assert_eq!(
        hidden(&strange, Little),
        [&before_body()[..], &parts].concat()
    );
    let other = [header(64), buffer(64, 7, &[&END]), buffer(64, 8, &[&END])].concat();
    let end = [part(Kind::EndOfBuffer, 81..96)];
    assert_eq!(hidden(&other, Little), [&before_body()[..], &end].concat());
    // The header's tests leave the header's own bytes.
    assert_eq!(
        hidden(&sample_b()[..127], Little),
        [part(Kind::Header, 24..32)]
    );
    assert_eq!(
        hidden(&sample_b()[..30], Little),
        [part(Kind::Header, 24..30)]
    );
    assert_eq!(hidden(&sample_b()[..24], Little), []);
}

#[test]
fn what_replay_refuses_by_9_to_13_is_scrubbed() {
    let top = metadata(3, &[0xFF; 8]);
    let mut deep = vec![ENTRY; 257].concat();
    deep.extend(END);
    let wide: Vec<u8> = (0..1025u32)
        .flat_map(|id| [id << 4, 0, id << 4 | 2, 0])
        .flat_map(u32::to_le_bytes)
        .chain(END)
        .collect();
    let zero = metadata(3, &[0; 8]);
    let entry = [0x50, 0, 0, 0, 0, 0, 0, 0];
    let exit = [0x52, 0, 0, 0, 0, 0, 0, 0];
    let call = [&zero[..], &entry, &top, &exit].concat();
    let logs = [
        (9, log(96, &[&top, &ENTRY, &END])),
        (10, log(72, &[&EXIT, &END])),
        (11, log(48 + deep.len(), &[&deep])),
        (12, log(48 + wide.len(), &[&wide])),
        (13, log(64 + 2 * call.len(), &[&call, &call, &END])),
    ];
    for (number, mut log) in logs {
        let answer = replay(&log, Little, &mut [1; TABLE]);
        assert!(matches!(answer, Answer::Refused { number: found, .. } if found == number));
        assert_eq!(scrub(&mut log, Little), Ok(()));
        assert!(!log.contains(&DIRT));
        assert_eq!(replay(&log, Little, &mut [2; TABLE]), answer);
    }
}
