//! Blanks, words and numbers. RFC 8259, sections 2, 3 and 6. Each gives the
//! place behind it, or the place of the byte that can't stand there.

/// "Insignificant whitespace": space, tab, line feed, carriage return.
pub fn blanks(text: &[u8], mut at: usize) -> usize {
    while matches!(text.get(at), Some(b' ' | b'\t' | b'\n' | b'\r')) {
        at += 1;
    }
    at
}

pub fn word(text: &[u8], at: usize, word: &[u8]) -> Result<usize, usize> {
    for (index, letter) in word.iter().enumerate() {
        if text.get(at + index) != Some(letter) {
            return Err(at + index);
        }
    }
    Ok(at + word.len())
}

/// "number = [ minus ] int [ frac ] [ exp ]"
pub fn number(text: &[u8], mut at: usize) -> Result<usize, usize> {
    if text.get(at) == Some(&b'-') {
        at += 1;
    }
    // "Leading zeros are not allowed": behind a zero no digit follows.
    at = match text.get(at) {
        Some(b'0') => at + 1,
        _ => digits(text, at)?,
    };
    if text.get(at) == Some(&b'.') {
        at = digits(text, at + 1)?;
    }
    if matches!(text.get(at), Some(b'e' | b'E')) {
        at += 1;
        if matches!(text.get(at), Some(b'+' | b'-')) {
            at += 1;
        }
        at = digits(text, at)?;
    }
    Ok(at)
}

/// One digit or more.
fn digits(text: &[u8], mut at: usize) -> Result<usize, usize> {
    let start = at;
    while text.get(at).is_some_and(u8::is_ascii_digit) {
        at += 1;
    }
    match at {
        _ if at == start => Err(at),
        _ => Ok(at),
    }
}
