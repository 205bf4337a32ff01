//! Any JSON value, for what is skipped: odd numbers, strings and nesting.

use crate::value::{Form, Value};
use logs::random::Random;

/// Numbers and words at the edges of the grammar.
const PLAIN: [&str; 24] = [
    "null",
    "true",
    "false",
    "0",
    "-0",
    "1",
    "-1",
    "0.0",
    "-0.5",
    "1.50",
    "1e5",
    "1E+5",
    "1e-05",
    "0e0",
    "-0E-0",
    "12.5e300",
    "1e999",
    "18446744073709551615",
    "18446744073709551616",
    "123456789012345678901234567890",
    "-9223372036854775809",
    "0.1e1",
    "2147483648",
    "10",
];

/// Characters at the edges of UTF-8 and of what must be escaped.
const ODD: [u32; 24] = [
    0x00, 0x08, 0x09, 0x0A, 0x1F, 0x20, 0x22, 0x2F, 0x5C, 0x7F, 0x80, 0xE4, 0x7FF, 0x800, 0xD7FF,
    0xD800, 0xDBFF, 0xDC00, 0xDFFF, 0xE000, 0xFEFF, 0xFFFF, 0x1F600, 0x10FFFF,
];

pub fn string(random: &mut Random) -> Vec<u32> {
    let length = random.index(6);
    let character = |random: &mut Random| match random.below(3) {
        0 => random.one_of(&ODD),
        _ => u32::from(random.one_of(b"abcxyzABC019_ [{")),
    };
    (0..length).map(|_| character(random)).collect()
}

/// A value nested at most `depth` deep.
pub fn value(random: &mut Random, depth: usize) -> Value {
    let choice = match depth {
        0 => random.below(4),
        _ => random.below(7),
    };
    let form = match choice {
        0 | 1 => Form::Raw(random.one_of(&PLAIN).to_string()),
        2 => Form::Text(string(random)),
        3 => Form::Integer(random.value()),
        4 => Form::Raw("[".repeat(depth) + &"]".repeat(depth)),
        5 => {
            let count = random.index(4);
            Form::Array((0..count).map(|_| value(random, depth - 1)).collect())
        }
        _ => object(random, depth),
    };
    Value::skipped(form)
}

/// An object whose keys differ.
fn object(random: &mut Random, depth: usize) -> Form {
    let mut members: Vec<(Vec<u32>, Value)> = Vec::new();
    for _ in 0..random.index(4) {
        let key = string(random);
        if !members.iter().any(|(other, _)| other == &key) {
            members.push((key, value(random, depth - 1)));
        }
    }
    Form::Object(members)
}

/// A value that may stand where one is skipped.
pub fn skipped(random: &mut Random) -> Value {
    let depth = random.one_of(&[0, 1, 2, 3, 32]);
    value(random, depth)
}
