//! Hidden bytes overwritten at random.

use logs::random::Random;
use second::scrub::Part;

/// Which of the hidden bytes are overwritten.
#[derive(Debug, Clone, Copy, PartialEq, Eq)]
pub enum Way {
    All,
    /// Each part or not.
    Some,
    /// Those of one kind.
    OneKind,
    /// A single byte.
    One,
}

impl Way {
    pub const ALL: [Way; 4] = [Way::All, Way::Some, Way::OneKind, Way::One];
}

/// The log with bytes of these parts overwritten, of which there must be one.
pub fn overwrite(random: &mut Random, log: &[u8], parts: &[Part]) -> (Vec<u8>, Way) {
    let mut other = log.to_vec();
    let way = random.one_of(&[Way::All, Way::All, Way::Some, Way::OneKind, Way::One]);
    let kind = parts[random.index(parts.len())].kind;
    if way == Way::One {
        another(random, &mut other, parts);
        return (other, way);
    }
    let like = random.below(5);
    for part in parts {
        let chosen = match way {
            Way::Some => random.once_in(2),
            Way::OneKind => part.kind == kind,
            _ => true,
        };
        if chosen {
            fill(random, &mut other[part.bytes.clone()], like);
        }
    }
    (other, way)
}

/// Any bytes, bytes that look like records, or all the same.
fn fill(random: &mut Random, bytes: &mut [u8], like: u64) {
    match like {
        0 => bytes.fill(random.one_of(&[0, 1, 3, 0xFF])),
        1 => {
            random.fill(bytes);
            for byte in bytes {
                *byte &= 0x0F;
            }
        }
        _ => random.fill(bytes),
    }
}

/// Another value in a single byte, mostly at the edge of a part.
fn another(random: &mut Random, log: &mut [u8], parts: &[Part]) {
    let bytes = parts[random.index(parts.len())].bytes.clone();
    let any = bytes.start + random.index(bytes.len());
    let place = random.one_of(&[bytes.start, bytes.end - 1, any]);
    log[place] ^= 1 + random.below(255) as u8;
}

/// The parts up to this place.
pub fn before(parts: &[Part], place: u64) -> Vec<Part> {
    let place = place as usize;
    let mut before = Vec::new();
    for part in parts.iter().filter(|part| part.bytes.start < place) {
        before.push(Part {
            kind: part.kind,
            bytes: part.bytes.start..part.bytes.end.min(place),
        });
    }
    before
}
