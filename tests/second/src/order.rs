//! The byte order of a log, which the caller names, and what depends on it:
//! numbers, and the bits that tell records and flags apart. Paper 01, "Bytes of
//! a log", and paper 02, CR 4.

use crate::record::Family;

#[derive(Debug, Clone, Copy, PartialEq, Eq)]
pub enum Order {
    Little,
    Big,
}

impl Order {
    pub const ALL: [Order; 2] = [Order::Little, Order::Big];

    pub fn other(self) -> Order {
        match self {
            Order::Little => Order::Big,
            Order::Big => Order::Little,
        }
    }

    /// The number in these bytes.
    pub fn number(self, bytes: &[u8]) -> u64 {
        let with = |value: u64, byte: &u8| (value << 8) | u64::from(*byte);
        match self {
            Order::Little => bytes.iter().rev().fold(0, with),
            Order::Big => bytes.iter().fold(0, with),
        }
    }

    /// A number in so many bytes, at most eight.
    pub fn bytes(self, number: u64, width: usize) -> Vec<u8> {
        match self {
            Order::Little => number.to_le_bytes()[..width].to_vec(),
            Order::Big => number.to_be_bytes()[8 - width..].to_vec(),
        }
    }

    /// The family that a record's first byte tells. Little-endian: "low bit 0: a
    /// function record", with the action in the three bits above it, and "low
    /// bit 1: a metadata record, kind in the upper seven bits". Big-endian: "the
    /// discriminant is the first byte's top bit", the action is "the three bits
    /// between" it and the id, and "a metadata kind is the low seven bits of the
    /// first byte".
    pub fn family(self, first: u8) -> Family {
        match self {
            Order::Little if first & 1 == 0 => Family::Function(first >> 1 & 0b111),
            Order::Little => Family::Metadata(first >> 1),
            Order::Big if first & 0x80 == 0 => Family::Function(first >> 4),
            Order::Big => Family::Metadata(first & 0x7F),
        }
    }

    /// The first byte of a metadata record of this kind, which is below 128.
    pub fn first_byte(self, kind: u8) -> u8 {
        match self {
            Order::Little => kind << 1 | 1,
            Order::Big => 0x80 | kind,
        }
    }

    /// The function id in a function record's first number: "bits 4 to 31", or
    /// "the low 28 bits of the first 32-bit number".
    pub fn id(self, first: u64) -> u32 {
        match self {
            Order::Little => (first >> 4) as u32,
            Order::Big => (first & 0x0FFF_FFFF) as u32,
        }
    }

    /// A function record's first number, for an action below 8 and an id of 28
    /// bits.
    pub fn first_number(self, action: u8, id: u32) -> u64 {
        match self {
            Order::Little => u64::from(action) << 1 | u64::from(id) << 4,
            Order::Big => u64::from(action) << 28 | u64::from(id),
        }
    }

    /// The bits of the header's bitfield that are constant_tsc and nonstop_tsc:
    /// "bit 0" and "bit 1", or "its top bit" and "the next".
    pub fn flags(self) -> [u64; 2] {
        match self {
            Order::Little => [1, 1 << 1],
            Order::Big => [1 << 31, 1 << 30],
        }
    }
}
