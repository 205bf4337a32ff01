//! Products of two 64-bit numbers, and how two of them lie to each other.

pub fn product(one: u64, other: u64) -> u128 {
    u128::from(one) * u128::from(other)
}

pub fn high(product: u128) -> u64 {
    (product >> 64) as u64
}

pub fn low(product: u128) -> u64 {
    product as u64
}

/// They differ, and only in their high 64 bits.
pub fn high_only(left: u128, right: u128) -> bool {
    left != right && low(left) == low(right)
}

/// They differ, and only in their low 64 bits; the high ones are not all 0.
pub fn low_only(left: u128, right: u128) -> bool {
    left != right && high(left) == high(right) && high(left) != 0
}

/// The sum of the middle products of 32-bit halves passes 2^64 - 1.
pub fn carries(one: u64, other: u64) -> bool {
    let halves = |number: u64| (number >> 32, number & u64::from(u32::MAX));
    let ((high_one, low_one), (high_other, low_other)) = (halves(one), halves(other));
    let carried = (low_one * low_other) >> 32;
    let first = high_one * low_other + carried;
    first.checked_add(low_one * high_other).is_none()
}
