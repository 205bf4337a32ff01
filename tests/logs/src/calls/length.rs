//! Logs of a given length, and long ones.

use super::damage::{mutated, truncated, ungrammatical};
use super::maker::{Maker, LEAST};
use crate::random::Random;
use second::header;
use second::order::Order;
use second::replay::DEEPEST;

/// A well-formed log of exactly this length with calls up to its end. It has
/// one buffer, or more of them where the length allows it.
pub fn of_length(length: usize, seed: u64, order: Order) -> Vec<u8> {
    let random = &mut Random::new(seed);
    let following = length - header::SIZE;
    let parts = [1, 2, 4, 8, 16, 32];
    let buffers = parts[random.index(parts.len())];
    let fits = following.is_multiple_of(buffers) && following / buffers >= LEAST;
    let size = if fits { following / buffers } else { following };
    filled(random, order, size, length)
}

/// Whole buffers of this size with calls in them, up to this length, which
/// must be their end.
fn filled(random: &mut Random, order: Order, size: usize, length: usize) -> Vec<u8> {
    let ids = random.one_of(&[2, 3, 20, 200]);
    let deepest = random.one_of(&[10, 60, DEEPEST]);
    let mut maker = Maker::with_ids(random, order, Some(size), ids);
    while maker.log.len() < length {
        maker.act(deepest);
    }
    let mut log = maker.finish();
    log.truncate(length);
    log
}

pub fn large(random: &mut Random, order: Order) -> Vec<u8> {
    let most = random.one_of(&[1 << 14, 1 << 17, 1 << 20]);
    let size = 1000 + random.index(most / 3);
    let buffers = 1 + random.index(most / size);
    let log = filled(random, order, size, header::SIZE + size * buffers);
    match random.below(6) {
        0 => mutated(random, order, log),
        1 => ungrammatical(random, order, log),
        2 => truncated(random, order, log),
        _ => log,
    }
}

/// The greatest length is 32 more than 32 times 524,287.
pub fn limit(random: &mut Random, order: Order, seed: u64) -> Vec<u8> {
    let following = header::LONGEST - header::SIZE;
    let (size, length) = match seed % 5 {
        0 => (following, header::LONGEST),
        1 => (following / 32, header::LONGEST),
        2 => (following + 1, header::LONGEST + 1),
        3 => (4096, following / 4096 * 4096 + header::SIZE),
        _ => (LEAST, following / LEAST * LEAST + header::SIZE),
    };
    let mut log = filled(random, order, size, length);
    if seed % 10 == 8 {
        // The last buffer names another thread.
        log[length - size + 1] ^= 1;
    }
    log
}
