//! The comparison of two times, each the ticks of a row over the frequency of
//! its log. Paper 01, "Writer and comparison" and "The numbered refusals", 17
//! and 18.

use std::cmp::Ordering;

pub const LOWER: u32 = 0;
pub const EQUAL: u32 = 1;
pub const HIGHER: u32 = 2;
/// Refusal 17: a side has frequency 0 or constant_tsc 0.
pub const NO_UNIT: u32 = 17;
/// Refusal 18: a side has no measured call.
pub const NO_MEASURED_CALL: u32 = 18;

/// What the comparison takes from each side.
#[derive(Debug, Clone, Copy, PartialEq, Eq)]
pub struct Side {
    pub frequency: u64,
    /// 0, or any other number where the flag is set.
    pub constant_tsc: u64,
    pub closed: u64,
    pub backward: u64,
    pub ticks: u64,
}

impl Side {
    fn has_unit(&self) -> bool {
        self.frequency != 0 && self.constant_tsc != 0
    }

    fn has_measured_call(&self) -> bool {
        self.closed > self.backward
    }
}

/// Tests 17, then 18, then compares the whole numbers ticksA times frequencyB
/// and ticksB times frequencyA.
#[inline]
pub fn compare(a: Side, b: Side) -> u32 {
    if !a.has_unit() || !b.has_unit() {
        return NO_UNIT;
    }
    if !a.has_measured_call() || !b.has_measured_call() {
        return NO_MEASURED_CALL;
    }
    let left = u128::from(a.ticks) * u128::from(b.frequency);
    let right = u128::from(b.ticks) * u128::from(a.frequency);
    match left.cmp(&right) {
        Ordering::Less => LOWER,
        Ordering::Equal => EQUAL,
        Ordering::Greater => HIGHER,
    }
}
