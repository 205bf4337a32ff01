//! Texts damaged as bytes: changed, cut, doubled, not UTF-8, too long.

use logs::random::Random;

/// Bytes that mean something to a reader of JSON.
const MEANING: &[u8] =
    b"[]{}:,\"\\ \n0123456789-+.eEutrfanlxX/\x00\x1F\x7F\x80\xBF\xC3\xE0\xED\xF4\xFF";

/// Sequences that aren't UTF-8, and some that are.
const SEQUENCES: [&[u8]; 24] = [
    b"\x80",
    b"\xBF",
    b"\xC0\x80",
    b"\xC1\xBF",
    b"\xC3",
    b"\xC3\"",
    b"\xE0\x80\x80",
    b"\xE0\x9F\xBF",
    b"\xE1\x80",
    b"\xED\xA0\x80",
    b"\xED\xBF\xBF",
    b"\xED\x9F\xBF",
    b"\xF0\x80\x80\x80",
    b"\xF0\x8F\xBF\xBF",
    b"\xF0\x90\x80\x80",
    b"\xF1\x80\x80",
    b"\xF4\x8F\xBF\xBF",
    b"\xF4\x90\x80\x80",
    b"\xF5\x80\x80\x80",
    b"\xFE",
    b"\xFF",
    b"\xEF\xBB\xBF",
    b"\xC2\x80",
    b"\xEE\x80\x80",
];

pub fn changed(random: &mut Random, text: &mut [u8]) {
    for _ in 0..1 + random.index(3) {
        let place = random.index(text.len());
        text[place] = match random.below(4) {
            0 => text[place] ^ (1 << random.below(8)),
            1 => random.number() as u8,
            _ => random.one_of(MEANING),
        };
    }
}

pub fn cut(random: &mut Random, text: &mut Vec<u8>) {
    text.truncate(random.index(text.len()));
}

/// A byte put in, or taken out.
pub fn inserted(random: &mut Random, text: &mut Vec<u8>) {
    let place = random.index(text.len());
    match random.below(2) {
        0 => text.insert(place, random.one_of(MEANING)),
        _ => {
            text.remove(place);
        }
    }
}

/// A part of the text stands twice, or is taken out.
pub fn doubled(random: &mut Random, text: &mut Vec<u8>) {
    let start = random.index(text.len());
    let length = random.one_of(&[1, 2, 5, 20, 100]);
    let end = (start + length).min(text.len());
    let part = text[start..end].to_vec();
    match random.below(3) {
        0 => {
            text.drain(start..end);
        }
        1 => {
            text.splice(start..start, part);
        }
        _ => {
            let place = random.index(text.len());
            text.splice(place..place, part);
        }
    }
}

/// Bytes that aren't UTF-8, within a string if there is one.
pub fn not_utf8(random: &mut Random, text: &mut Vec<u8>) {
    let quotes: Vec<usize> = (0..text.len())
        .filter(|place| text[*place] == b'"')
        .collect();
    let place = match quotes.len() {
        0 => random.index(text.len()),
        count => quotes[random.index(count)] + random.index(2),
    };
    let sequence = random.one_of(&SEQUENCES);
    text.splice(place..place, sequence.iter().copied());
}

/// Blanks up to this length.
pub fn padded(random: &mut Random, text: &mut Vec<u8>, length: usize) {
    let missing = length.saturating_sub(text.len());
    let blanks = vec![random.one_of(b" \n"); missing];
    match random.below(2) {
        0 => text.extend(blanks),
        _ => {
            text.splice(0..0, blanks);
        }
    }
}
