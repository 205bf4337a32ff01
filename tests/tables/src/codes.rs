//! Codes of which none begins another.

use logs::random::Random;

/// The most characters of a code.
pub const LONGEST: usize = 32;

/// The characters, as the numbers of a table.
pub const ZERO: u64 = 48;
pub const ONE: u64 = 49;

/// How codes come from each other.
#[derive(Debug, Clone, Copy, PartialEq, Eq)]
pub enum Growth {
    /// Any code is split into two that it begins.
    Anywhere,
    /// The last one is: the last two of 33 have 32 characters.
    AtTheEnd,
}

/// At least one code and at most `most`, from the empty one. Some are left out,
/// so that there are bits which match none.
pub fn codes(random: &mut Random, most: usize, growth: Growth) -> Vec<Vec<u64>> {
    let mut codes = vec![Vec::new()];
    while codes.len() < most {
        let at = match growth {
            Growth::Anywhere => random.index(codes.len()),
            Growth::AtTheEnd => codes.len() - 1,
        };
        if codes[at].len() == LONGEST {
            break;
        }
        let mut other = codes[at].clone();
        codes[at].push(ZERO);
        other.push(ONE);
        codes.push(other);
    }
    let out = random.index(codes.len()) / (1 + random.index(4));
    for _ in 0..out {
        codes.swap_remove(random.index(codes.len()));
    }
    codes
}
