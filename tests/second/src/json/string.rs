//! Strings. RFC 8259, section 7, and 8.1 for their bytes.

/// A string's decoded characters and the place behind its closing quote, or the
/// place of the byte that can't stand there. A surrogate that is escaped alone
/// is a character of its own.
pub fn read(text: &[u8], at: usize) -> Result<(Vec<u32>, usize), usize> {
    if text.get(at) != Some(&b'"') {
        return Err(at);
    }
    let mut characters = Vec::new();
    let mut at = at + 1;
    loop {
        match text.get(at) {
            Some(b'"') => return Ok((characters, at + 1)),
            Some(b'\\') => {
                let (unit, behind) = escaped(text, at + 1)?;
                put(&mut characters, unit);
                at = behind;
            }
            _ => {
                let (character, behind) = plain(text, at)?;
                characters.push(character);
                at = behind;
            }
        }
    }
}

/// An escaped low surrogate right behind an escaped high one makes one character
/// with it. No surrogate stands in a string but by an escape.
fn put(characters: &mut Vec<u32>, unit: u32) {
    let last = characters.last().copied();
    match (last, unit) {
        (Some(high @ 0xD800..=0xDBFF), 0xDC00..=0xDFFF) => {
            characters.pop();
            characters.push(0x10000 + (high - 0xD800) * 0x400 + (unit - 0xDC00));
        }
        _ => characters.push(unit),
    }
}

/// What stands behind a backslash.
fn escaped(text: &[u8], at: usize) -> Result<(u32, usize), usize> {
    let character = match text.get(at) {
        Some(byte @ (b'"' | b'\\' | b'/')) => u32::from(*byte),
        Some(b'b') => 0x08,
        Some(b'f') => 0x0C,
        Some(b'n') => 0x0A,
        Some(b'r') => 0x0D,
        Some(b't') => 0x09,
        Some(b'u') => return hexadecimal(text, at + 1),
        _ => return Err(at),
    };
    Ok((character, at + 1))
}

/// Four digits of either case.
fn hexadecimal(text: &[u8], start: usize) -> Result<(u32, usize), usize> {
    let mut unit = 0;
    for at in start..start + 4 {
        let digit = text.get(at).and_then(|byte| char::from(*byte).to_digit(16));
        unit = unit * 16 + digit.ok_or(at)?;
    }
    Ok((unit, start + 4))
}

/// A character that isn't escaped: UTF-8 by RFC 3629, section 4, and no control
/// character.
fn plain(text: &[u8], at: usize) -> Result<(u32, usize), usize> {
    let first = *text.get(at).ok_or(at)?;
    // How many bytes follow, and between which the first of these lies.
    let (more, low, high) = match first {
        0x20..=0x7F => (0, 0, 0),
        0xC2..=0xDF => (1, 0x80, 0xBF),
        0xE0 => (2, 0xA0, 0xBF),
        0xE1..=0xEC | 0xEE..=0xEF => (2, 0x80, 0xBF),
        0xED => (2, 0x80, 0x9F),
        0xF0 => (3, 0x90, 0xBF),
        0xF1..=0xF3 => (3, 0x80, 0xBF),
        0xF4 => (3, 0x80, 0x8F),
        _ => return Err(at),
    };
    let mut character = match more {
        0 => u32::from(first),
        _ => u32::from(first) & (0x3F >> more),
    };
    for index in 1..=more {
        let place = at + index;
        let (low, high) = if index == 1 {
            (low, high)
        } else {
            (0x80, 0xBF)
        };
        let byte = *text.get(place).ok_or(place)?;
        if byte < low || byte > high {
            return Err(place);
        }
        character = character * 64 + u32::from(byte & 0x3F);
    }
    Ok((character, at + 1 + more))
}
