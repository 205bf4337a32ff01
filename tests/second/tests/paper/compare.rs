//! The two samples of Paper 01, "Sample logs", that concern the comparison, and
//! the edges that the sentences of "Writer and comparison" and of refusals 17
//! and 18 name.

use second::compare::{compare, Side};

const LOWER: u32 = 0;
const EQUAL: u32 = 1;
const HIGHER: u32 = 2;
const MAX: u64 = u64::MAX;

/// A side with one measured call.
fn side(ticks: u64, frequency: u64) -> Side {
    Side {
        frequency,
        constant_tsc: 1,
        closed: 1,
        backward: 0,
        ticks,
    }
}

/// Sound but for these numbers of calls.
fn calls(closed: u64, backward: u64) -> Side {
    Side {
        closed,
        backward,
        ..side(1, 1)
    }
}

/// Sound but for this flag.
fn flag(constant_tsc: u64) -> Side {
    Side {
        constant_tsc,
        ..side(1, 1)
    }
}

/// The answer, and the mirrored one to the exchanged sides.
fn answers(a: Side, b: Side, expected: u32) {
    assert_eq!(compare(a, b), expected, "{a:?} {b:?}");
    let mirrored = match expected {
        LOWER => HIGHER,
        HIGHER => LOWER,
        other => other,
    };
    assert_eq!(compare(b, a), mirrored, "{b:?} {a:?}");
}

#[test]
fn ten_nanoseconds_are_lower_than_twenty() {
    answers(side(30, 3_000_000_000), side(20, 1_000_000_000), LOWER);
}

#[test]
fn the_greatest_numbers_are_equal() {
    answers(side(MAX, MAX), side(MAX, MAX), EQUAL);
}

#[test]
fn a_side_without_unit_is_17() {
    answers(side(1, 0), side(1, 1), 17);
    answers(side(0, 0), side(0, 0), 17);
    answers(flag(0), side(1, 1), 17);
    answers(flag(0), flag(0), 17);
    answers(side(1, 0), flag(0), 17);
}

#[test]
fn any_flag_but_0_is_set() {
    for set in [1, 2, 256, 1 << 32, 1 << 63, MAX] {
        answers(flag(set), flag(1), EQUAL);
        answers(flag(set), flag(set), EQUAL);
    }
}

#[test]
fn a_side_without_measured_call_is_18() {
    for (closed, backward) in [(0, 0), (1, 1), (MAX, MAX), (0, 1), (1, 2), (0, MAX)] {
        answers(calls(closed, backward), side(1, 1), 18);
        answers(calls(closed, backward), calls(closed, backward), 18);
    }
    for (closed, backward) in [(1, 0), (2, 1), (MAX, MAX - 1), (MAX, 0)] {
        answers(calls(closed, backward), side(1, 1), EQUAL);
    }
}

#[test]
fn refusal_17_is_tested_first() {
    answers(side(1, 0), calls(0, 0), 17);
    answers(flag(0), calls(0, 0), 17);
    let both = Side {
        frequency: 0,
        ..calls(0, 0)
    };
    answers(both, side(1, 1), 17);
    answers(both, calls(0, 0), 17);
}

#[test]
fn no_ticks_compare_as_any_number() {
    answers(side(0, 1), side(0, 1), EQUAL);
    answers(side(0, 1), side(0, MAX), EQUAL);
    answers(side(0, 1), side(1, 1), LOWER);
    answers(side(0, MAX), side(1, MAX), LOWER);
}

#[test]
fn products_are_whole() {
    // 2^64 against 0, 1 and 2^64.
    let high = side(1 << 32, 1);
    answers(high, side(0, 1 << 32), HIGHER);
    answers(high, side(1, 1 << 32), HIGHER);
    answers(high, side(1 << 63, 1 << 31), EQUAL);
    // (2^64 - 2)^2 is one more than (2^64 - 3)(2^64 - 1).
    answers(side(MAX - 1, MAX), side(MAX - 2, MAX - 1), HIGHER);
    answers(side(MAX, MAX), side(MAX - 1, MAX - 1), EQUAL);
}

#[test]
fn nothing_is_rounded() {
    answers(side(1, 3), side(1, 2), LOWER);
    answers(side(1, 3), side(MAX / 3, MAX), EQUAL);
    answers(side(1, 3), side(MAX / 3 + 1, MAX), LOWER);
    answers(side(1 << 53, 1), side((1 << 53) + 1, 1), LOWER);
}
