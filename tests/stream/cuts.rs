//! Ways to cut a log into reads.

use logs::random::Random;

/// The bytes of one of the bench's transfers.
const TRANSFER: usize = 65_536;
/// The longest logs that come byte by byte, in small reads, and in transfers.
const LONGEST: [usize; 3] = [1500, 12_000, 1 << 21];

#[derive(Debug, Clone, Copy, PartialEq, Eq)]
pub enum Way {
    /// All in one read.
    One,
    /// A byte at a time.
    Bytes,
    /// Up to 20 bytes at a time, at times none.
    Small,
    /// A few reads of any length, at times empty ones.
    Few,
    /// Transfers, and what is left.
    Transfers,
}

impl Way {
    pub const ALL: [Way; 5] = [Way::One, Way::Bytes, Way::Small, Way::Few, Way::Transfers];

    /// A way for a log of this length.
    pub fn of(random: &mut Random, length: usize) -> Way {
        let [bytes, small, transfers] = LONGEST;
        match random.below(8) {
            0 => Way::One,
            1 if length <= bytes => Way::Bytes,
            2..=4 if length <= small => Way::Small,
            1..=6 if length > TRANSFER && length <= transfers => Way::Transfers,
            _ => Way::Few,
        }
    }

    pub fn reads<'a>(self, random: &mut Random, log: &'a [u8]) -> Vec<&'a [u8]> {
        match self {
            Way::One => vec![log],
            Way::Bytes => log.chunks(1).collect(),
            Way::Small => pieces(log, || random.index(21)),
            Way::Few => few(random, log),
            Way::Transfers => log.chunks(TRANSFER).collect(),
        }
    }
}

/// Reads of these lengths, as far as the log goes.
fn pieces(log: &[u8], mut length: impl FnMut() -> usize) -> Vec<&[u8]> {
    let mut reads = Vec::new();
    let mut rest = log;
    while !rest.is_empty() {
        let (read, behind) = rest.split_at(length().min(rest.len()));
        reads.push(read);
        rest = behind;
    }
    reads
}

/// Up to seven reads, cut anywhere; one cut in four is at the one before, so that
/// a read is empty.
fn few<'a>(random: &mut Random, log: &'a [u8]) -> Vec<&'a [u8]> {
    let mut cuts = vec![0, log.len()];
    for _ in 0..random.index(7) {
        let cut = match random.below(4) {
            0 => cuts[random.index(cuts.len())],
            1 => random.index(log.len().min(120) + 1),
            _ => random.index(log.len() + 1),
        };
        cuts.push(cut);
    }
    cuts.sort();
    cuts.windows(2).map(|ends| &log[ends[0]..ends[1]]).collect()
}
