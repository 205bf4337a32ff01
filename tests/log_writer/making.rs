//! Calls, good and bad, made at random.

use crate::call::Call;
use crate::plan::Kind;
use harness::order;
use harness::record::{Fields, ARGUMENT, EVENT, FUNCTION};
use harness::state::{Opening, Start};
use logs::random::Random;
use second::log_writer::State;
use second::order::Order;
use second::walk::Stage;

/// The least room in which most events are shorter, so that more of them fit.
const WIDE: u64 = 100_000;

pub fn start(random: &mut Random, order: Order, size: u64) -> Call {
    let flag = |random: &mut Random| match random.below(3) {
        0 => random.value(),
        _ => random.below(2),
    };
    Call::Start(Start {
        order: order::named(random, order),
        frequency: random.value(),
        constant_tsc: flag(random),
        nonstop_tsc: flag(random),
        size,
        thread: random.value(),
    })
}

pub fn open(random: &mut Random) -> Call {
    Call::Open(Opening {
        seconds: random.value(),
        micros: random.value(),
        cpu: random.value(),
        tsc: random.value(),
    })
}

/// A call in this state: mostly one that may be accepted.
pub fn call(random: &mut Random, kind: Kind, state: &State) -> Call {
    let between = state.stage == Stage::Between;
    if random.once_in(12) {
        return any(random, state);
    }
    if between {
        return open(random);
    }
    let filled = left(state) < 8;
    let close = match kind {
        Kind::Full => filled && random.once_in(3),
        Kind::Large => random.once_in(5),
        _ => random.once_in(if filled { 2 } else { 9 }),
    };
    match close {
        true => Call::Close,
        false => add(random, state),
    }
}

/// Any of the three calls, in any state.
pub fn any(random: &mut Random, state: &State) -> Call {
    match random.below(4) {
        0 => open(random),
        1 => Call::Close,
        _ => add(random, state),
    }
}

/// The bytes left for a record and its event.
fn left(state: &State) -> u64 {
    state.end.saturating_sub(state.place).saturating_sub(16)
}

fn add(random: &mut Random, state: &State) -> Call {
    let kind = match left(state) {
        WIDE.. if random.once_in(4) => EVENT,
        _ => kind(random, state.stage == Stage::Arguments),
    };
    let length = match kind {
        EVENT => event_length(random, left(state)),
        // Bytes given with any other record are left aside.
        _ if random.once_in(5) => 1 + random.index(40),
        _ => 0,
    };
    record(random, kind, length)
}

/// A record of this kind with any fields, and this many bytes. The size that an
/// event's record carries is at times another than their number.
pub fn record(random: &mut Random, kind: u64, length: usize) -> Call {
    let mut fields = Fields::any(random, kind);
    let given = length as u64;
    match (kind, random.below(20)) {
        (EVENT, 0) => fields.values[0] = given.wrapping_sub(1),
        (EVENT, 1) => fields.values[0] = given + 1,
        (EVENT, 2) => fields.values[0] = given ^ 1 << random.below(32),
        // The size has 32 bits: this is the length again.
        (EVENT, 3) => fields.values[0] = given + (1 << 32),
        (EVENT, 5..) => fields.values[0] = given,
        _ => {}
    }
    let event = random.bytes(length);
    Call::Add { fields, event }
}

/// Any kind of record, and mostly one that may stand in a body.
pub fn kind(random: &mut Random, arguments: bool) -> u64 {
    match random.below(20) {
        0 => random.below(7),
        1 => 2,
        2 => 3,
        3..=5 => EVENT,
        6..=10 if arguments => ARGUMENT,
        6 => ARGUMENT,
        _ => FUNCTION,
    }
}

/// A length for an event where so many bytes are left for it and its marker:
/// at times up to their end, one byte longer, or into the room of EndOfBuffer.
fn event_length(random: &mut Random, left: u64) -> usize {
    let room = left.saturating_sub(16);
    let length = match random.below(9) {
        2.. if room >= WIDE => random.below(room + 1) >> random.below(20),
        0 => room,
        1 => room + 1,
        2 => random.below(room + 1),
        3 => left,
        4 => left + random.below(40),
        5 => 0,
        6 => 1,
        _ => random.below(room.min(40) + 1),
    };
    length as usize
}
