//! The log writer: Paper 01, "Writer and comparison". Which states accepted
//! calls return is searched through for small outputs.

use second::log_writer::{add, close, is_body, is_returned, open, start};
use second::log_writer::{Opening, Start, State, GREATEST_BUFFER as GREATEST};
use second::order::Order::{self, Big, Little};
use second::record::Record;
use second::walk::{walk, Outcome, Stage};
use second::writer::LEAST_BAD_ID;
use std::collections::HashSet;

const STAGES: [Stage; 5] = [
    Stage::Between,
    Stage::WallTime,
    Stage::Cpu,
    Stage::Body,
    Stage::Arguments,
];

const OPENING: Opening = Opening {
    seconds: 0,
    micros: 0,
    cpu: 0,
    tsc: 1000,
};

const ARGUMENT: Record = Record::CallArgument { argument: 9 };

fn begin(order: Order, size: u64, thread: u16) -> Start {
    Start {
        order,
        frequency: 1_000_000_000,
        constant_tsc: true,
        nonstop_tsc: true,
        size,
        thread,
    }
}

fn function(action: u8, id: u32, delta: u32) -> Record {
    Record::Function { action, id, delta }
}

fn event(size: u32) -> Record {
    Record::CustomEvent { size, tsc: 1 }
}

/// What tells states of one order, size and thread apart.
fn key(state: &State) -> (u64, u64, usize) {
    (state.place, state.end, state.stage as usize)
}

/// A record of every kind but an event, with actions 0 to 4.
fn records() -> Vec<Record> {
    let mut records: Vec<Record> = (0..5).map(|action| function(action, 1, 1)).collect();
    records.extend(OPENING.records(7));
    records.extend([Record::EndOfBuffer, ARGUMENT, Record::TscWrap { tsc: 1 }]);
    records
}

/// What every call answers in this state, with events of every length up to
/// one that no buffer has room for.
fn answers(state: State, out: &mut [u8]) -> Vec<Result<State, u8>> {
    let mut answers = vec![open(state, &OPENING, out), close(state, out)];
    for record in records() {
        answers.push(add(state, &record, &[], out));
    }
    let longest = state.end.saturating_sub(state.place) as usize + 1;
    let bytes = vec![0; longest];
    for length in 0..=longest {
        answers.push(add(state, &event(length as u32), &bytes[..length], out));
    }
    answers
}

/// Every state that accepted calls return from a start with this order, size
/// and thread, which they keep, on an output of this length.
fn returned(order: Order, size: u64, thread: u16, length: usize) -> HashSet<(u64, u64, usize)> {
    let out = &mut vec![0; length];
    let mut seen = HashSet::new();
    let mut next: Vec<State> = start(&begin(order, size, thread), out)
        .into_iter()
        .collect();
    while let Some(state) = next.pop() {
        assert_eq!(
            (state.order, state.size, state.thread),
            (order, size, thread)
        );
        if seen.insert(key(&state)) {
            next.extend(answers(state, out).into_iter().flatten());
        }
    }
    seen
}

/// Compares the decision with the search, for every place, end and stage up to
/// some past the output.
fn compare(order: Order, size: u64, thread: u16, length: usize) -> usize {
    let returned = returned(order, size, thread, length);
    let past = length as u64 + 20;
    let mut decided = 0;
    for end in 0..past {
        for place in 0..past {
            for stage in STAGES {
                let state = State {
                    order,
                    size,
                    thread,
                    place,
                    end,
                    stage,
                };
                if is_returned(&state, length as u64) {
                    assert!(returned.contains(&key(&state)), "{state:?} in {length}");
                    decided += 1;
                }
            }
        }
    }
    assert_eq!(decided, returned.len(), "size {size}, length {length}");
    decided
}

#[test]
fn returned_states_of_small_buffers() {
    let mut states = 0;
    for length in 0..=300 {
        for size in 60..=100 {
            states += compare(Order::ALL[length % 2], size, 7, length);
        }
    }
    println!("{states} states");
    assert!(states > 100_000);
}

#[test]
fn returned_states_of_larger_buffers() {
    for size in [101, 112, 128, 134, 135, 200, 260, 268, 269] {
        for length in (32..=300).step_by(9).chain([166, 167, 299, 300]) {
            assert!(compare(Order::ALL[length % 2], size, 65_535, length) > 0);
        }
    }
}

#[test]
fn sizes_without_a_state() {
    for size in [0, 1, 62, 63, GREATEST + 1, 1 << 32, u64::MAX - 31, u64::MAX] {
        for length in [0, 31, 32, 96, 300] {
            assert_eq!(compare(Big, size, 0, length), 0);
        }
    }
}

#[test]
fn states_far_away() {
    let edges = [u64::MAX, u64::MAX - 1, u64::MAX - 63, 1 << 63, 1 << 32, 0];
    for place in edges {
        for end in edges {
            for size in edges.into_iter().chain([64, GREATEST]) {
                for stage in STAGES {
                    let state = State {
                        order: Little,
                        size,
                        thread: 0,
                        place,
                        end,
                        stage,
                    };
                    assert!(!is_returned(&state, u64::MAX), "{state:?}");
                }
            }
        }
    }
}

#[test]
fn states_at_the_greatest_length() {
    let state = |size, place, end, stage| State {
        order: Big,
        size,
        thread: 0,
        place,
        end,
        stage,
    };
    let top = 16_777_216;
    for length in [top, top + 1, u64::MAX] {
        let one = |place, end, stage| is_returned(&state(GREATEST, place, end, stage), length);
        assert!(one(32, 32, Stage::Between) && one(top, top, Stage::Between));
        assert!(one(80, top, Stage::Body) && one(top - 16, top, Stage::Arguments));
        assert!(!one(top - 15, top, Stage::Body));
        // A second buffer would pass 16,777,216 bytes.
        assert!(!one(top + 48, top + GREATEST, Stage::Body));
        let half = |place, size| is_returned(&state(size, place, place, Stage::Between), length);
        assert!(half(top, GREATEST / 2) && !half(top + 2, GREATEST / 2 + 1));
    }
    assert!(!is_returned(
        &state(GREATEST, top, top, Stage::Between),
        top - 1
    ));
    assert!(is_returned(
        &state(GREATEST, 32, 32, Stage::Between),
        top - 1
    ));
}

/// Sample B: Paper 01, "Sample logs".
#[test]
fn sample_b() {
    let out = &mut [0xEE; 140];
    let mut state = start(&begin(Little, 96, 7), out).unwrap();
    state = open(state, &OPENING, out).unwrap();
    state = add(state, &function(0, 5, 10), &[], out).unwrap();
    state = add(state, &function(1, 5, 30), &[], out).unwrap();
    state = close(state, out).unwrap();
    assert_eq!(key(&state), (128, 128, 0));
    let path = concat!(env!("CARGO_MANIFEST_DIR"), "/../../samples/b.fdr");
    assert_eq!(out[..128], std::fs::read(path).unwrap());
    assert_eq!(out[128..], [0xEE; 12]);
}

#[test]
fn starting() {
    let out = &mut [7; 33];
    assert_eq!(start(&begin(Little, 63, 0), &mut out[..31]), Err(16));
    assert_eq!(start(&begin(Little, GREATEST + 1, 0), out), Err(16));
    assert_eq!(start(&begin(Little, 64, 0), &mut out[..31]), Err(15));
    assert_eq!(out, &[7; 33]);
    assert!(start(&begin(Little, GREATEST, 0), &mut out[..32]).is_ok());
    let given = Start {
        frequency: 0x0807_0605_0403_0201,
        constant_tsc: false,
        ..begin(Little, 64, 9)
    };
    let state = start(&given, out).unwrap();
    assert_eq!(
        (state.size, state.thread, key(&state)),
        (64, 9, (32, 32, 0))
    );
    let fields = [1, 0, 1, 0, 2, 0, 0, 0, 1, 2, 3, 4, 5, 6, 7, 8, 64];
    assert_eq!(out[..17], fields);
    assert_eq!(out[17..], [[0; 15].as_slice(), &[7]].concat());
}

#[test]
fn the_order_of_tests() {
    let out = &mut [0; 96];
    let begun = start(&begin(Little, 64, 0), out).unwrap();
    let opened = open(begun, &OPENING, out).unwrap();
    let written = *out;
    let large = |action| function(action, LEAST_BAD_ID, 0);
    assert_eq!(open(opened, &OPENING, out), Err(7));
    assert_eq!(add(begun, &large(0), &[], out), Err(7));
    assert_eq!(close(begun, out), Err(7));
    assert_eq!(add(opened, &large(4), &[], out), Err(7));
    assert_eq!(add(opened, &ARGUMENT, &[], out), Err(7));
    assert_eq!(add(opened, &large(3), &[], out), Err(16));
    assert_eq!(
        add(opened, &function(3, LEAST_BAD_ID - 1, 0), &[], out),
        Err(15)
    );
    assert_eq!(add(opened, &event(0), &[], out), Err(15));
    assert_eq!(add(opened, &event(1), &[], out), Err(7));
    assert_eq!(open(begun, &OPENING, &mut out[..95]), Err(15));
    assert_eq!(add(opened, &event(0), &[], &mut out[..95]), Err(7));
    assert_eq!(*out, written);
    let closed = close(opened, out).unwrap();
    assert_eq!(open(closed, &OPENING, out), Err(15));
}

/// 16 bytes for EndOfBuffer remain behind every record and its event.
#[test]
fn room_for_the_end() {
    let out = &mut [0xFF; 32 + 103];
    let state = start(&begin(Little, 103, 0), out).unwrap();
    let state = open(state, &OPENING, out).unwrap();
    assert_eq!(add(state, &event(24), &[5; 24], out), Err(15));
    let full = add(state, &event(23), &[5; 23], out).unwrap();
    assert_eq!(key(&full), (119, 135, Stage::Body as usize));
    assert!(records()
        .iter()
        .all(|record| add(full, record, &[], out).is_err()));
    close(full, out).unwrap();
    let (items, outcome) = walk(out, Little);
    assert_eq!((items.len(), outcome), (5, Outcome::Done));
}

/// "An event, whose size is the length of the bytes given; anything else is 7."
#[test]
fn the_size_of_an_event() {
    let out = &mut [0; 200];
    let state = start(&begin(Little, 128, 0), out).unwrap();
    let state = open(state, &OPENING, out).unwrap();
    let before = *out;
    for size in [0, 1, 3, 9, 258, u32::MAX] {
        assert_eq!(add(state, &event(size), &[0xAA, 0xBB], out), Err(7));
    }
    assert_eq!(*out, before);
    let behind = add(state, &event(2), &[0xAA, 0xBB], out).unwrap();
    assert_eq!(key(&behind), (98, 160, Stage::Body as usize));
    assert_eq!(out[80..85], [11, 2, 0, 0, 0]);
    assert_eq!(out[96..98], [0xAA, 0xBB]);
    // No size says 2^32 bytes.
    assert!(!is_body(&event(0), 1 << 32) && !is_body(&event(u32::MAX), 1 << 32));
    assert!(is_body(&event(u32::MAX), (1 << 32) - 1));
}

/// A record that is no event is taken whatever bytes come with it.
#[test]
fn bytes_beside_no_event() {
    let out = &mut [0xFF; 200];
    let state = start(&begin(Little, 128, 0), out).unwrap();
    let state = open(state, &OPENING, out).unwrap();
    for record in records() {
        let (one, other) = (&mut out.clone(), &mut out.clone());
        let alone = add(state, &record, &[], one);
        assert_eq!(add(state, &record, &[0xAA; 300], other), alone);
        assert_eq!(one, other);
    }
    let behind = add(state, &Record::TscWrap { tsc: 1 }, &[0xAA; 300], out).unwrap();
    assert_eq!(key(&behind), (96, 160, Stage::Body as usize));
    assert_eq!(out[96..], [0xFF; 104]);
}

#[test]
fn runs_of_arguments() {
    let out = &mut [0; 400];
    let state = start(&begin(Little, 300, 0), out).unwrap();
    let mut state = open(state, &OPENING, out).unwrap();
    for (record, taken) in [
        (function(0, 1, 0), false),
        (function(3, 1, 0), true),
        (ARGUMENT, true),
        (event(0), false),
        (function(3, 1, 0), true),
        (function(1, 1, 0), false),
        (function(2, 1, 0), false),
        (Record::NewCpuId { cpu: 0, tsc: 0 }, false),
        (Record::TscWrap { tsc: 0 }, false),
    ] {
        state = add(state, &record, &[], out).unwrap();
        let expected = if taken { None } else { Some(7) };
        assert_eq!(add(state, &ARGUMENT, &[], out).err(), expected);
    }
}
