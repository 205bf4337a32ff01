//! The kinds of values that a DCFG wants, and what is skipped.

use super::faults;
use super::judge::Judge;
use crate::json::{Key, Kind};
use std::collections::HashSet;

/// How deep a skipped value may nest.
const DEEPEST: usize = 32;
/// The greatest id.
const GREATEST_ID: u64 = 2_147_483_647;

impl<'a> Judge<'a> {
    /// A value with no wanted kind, or not of it: nested at most 32 deep.
    pub(super) fn skip(&mut self, value: usize) {
        let outer = &self.values[value];
        for inner in &self.values[value..outer.behind] {
            let opens = matches!(inner.kind, Kind::Array(_) | Kind::Object(_));
            if opens && inner.depth - outer.depth >= DEEPEST {
                self.faults.add(inner.start, faults::DEEPER);
            }
        }
    }

    pub(super) fn wrong_kind(&mut self, value: usize) {
        self.skip(value);
        if let Some(last) = self.values[value].last {
            self.faults.add(last, faults::WRONG_KIND);
        }
    }

    pub(super) fn object(&mut self, value: usize) -> &'a [Key] {
        let values = self.values;
        match &values[value].kind {
            Kind::Object(keys) => keys,
            _ => {
                self.wrong_kind(value);
                &[]
            }
        }
    }

    pub(super) fn array(&mut self, value: usize) -> &'a [usize] {
        let values = self.values;
        match &values[value].kind {
            Kind::Array(within) => within,
            _ => {
                self.wrong_kind(value);
                &[]
            }
        }
    }

    pub(super) fn string(&mut self, value: usize) -> Option<&'a [u32]> {
        let values = self.values;
        match &values[value].kind {
            Kind::Text(characters) => Some(characters),
            _ => {
                self.wrong_kind(value);
                None
            }
        }
    }

    /// "An integer runs from 0 to 2^64 - 1 without fraction or exponent, else its
    /// value is of the wrong kind": a JSON number, or a "0x" string.
    pub(super) fn integer(&mut self, value: usize) -> Option<u64> {
        let read = &self.values[value];
        let number = match (&read.kind, read.last) {
            (Kind::Number, Some(last)) => decimal(&self.text[read.start..=last]),
            (Kind::Text(characters), _) => hexadecimal(characters),
            _ => None,
        };
        if number.is_none() {
            self.wrong_kind(value);
        }
        number
    }

    pub(super) fn id(&mut self, value: usize) -> Option<u64> {
        let id = self.integer(value)?;
        if !(1..=GREATEST_ID).contains(&id) {
            let last = self.values[value].last?;
            self.faults.add(last, faults::OUTSIDE);
        }
        Some(id)
    }

    /// An id of the table whose ids were met.
    pub(super) fn own_id(&mut self, value: usize, met: &mut HashSet<u64>) -> Option<u64> {
        let id = self.id(value)?;
        if !met.insert(id) {
            let last = self.values[value].last?;
            self.faults.add(last, faults::OWN_ID_REPEATED);
        }
        Some(id)
    }
}

/// A number of digits alone.
fn decimal(digits: &[u8]) -> Option<u64> {
    let mut number: u64 = 0;
    for byte in digits {
        let digit = char::from(*byte).to_digit(10)?;
        number = number.checked_mul(10)?.checked_add(u64::from(digit))?;
    }
    Some(number)
}

/// "0x" and "one or more digits of either case".
fn hexadecimal(characters: &[u32]) -> Option<u64> {
    let digits = match characters {
        [0x30, 0x78, digits @ ..] if !digits.is_empty() => digits,
        _ => return None,
    };
    let mut number: u64 = 0;
    for character in digits {
        let digit = char::from_u32(*character)?.to_digit(16)?;
        number = number.checked_mul(16)?.checked_add(u64::from(digit))?;
    }
    Some(number)
}
