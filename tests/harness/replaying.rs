//! The proved replay, with lent tables that hold other numbers before.

use crate::answer;
use crate::proved;
use logs::random::Random;
use second::order::Order;
use second::replay::{replay, Answer, TABLE};

/// The longest table that is lent.
pub const LONGEST: usize = TABLE + 240;
/// Numbers behind the longest table.
const BEHIND: usize = 16;

/// The numbers of an answer, then two that are past its end.
const ALL: [u64; 7] = [0, 1, 2, 3, 4, 5, u64::MAX];
/// Those that are asked for every log.
const FIRST: [u64; 2] = [0, 1];

/// What a replay must answer, and the numbers that it must write: the first of
/// the table, or none.
#[derive(PartialEq)]
pub struct Expected {
    pub answer: Answer,
    written: Vec<u64>,
}

impl Expected {
    /// What the second program gives, with a table of this length.
    pub fn of(log: &[u8], order: Order, length: usize) -> Expected {
        let mut table = vec![1; length];
        let answer = replay(log, order, &mut table);
        // "After 14 the counts are zero and the table is untouched."
        let written = if length < TABLE { 0 } else { TABLE };
        table.truncate(written);
        Expected {
            answer,
            written: table,
        }
    }
}

/// A table to lend.
pub struct Lent {
    /// What it holds before each call: no zeros.
    before: Vec<u64>,
    table: Vec<u64>,
}

impl Lent {
    /// Tables of different seeds hold different numbers.
    pub fn new(seed: u64) -> Lent {
        let random = &mut Random::new(seed);
        let before: Vec<u64> = (0..LONGEST + BEHIND).map(|_| random.number() | 1).collect();
        Lent {
            table: before.clone(),
            before,
        }
    }

    /// Replays a log of this order that must be answered so, with a table of this
    /// length: all numbers of the answer, or the first two. The text tells of a
    /// difference.
    pub fn compare(
        &mut self,
        log: &[u8],
        order: u32,
        length: usize,
        whole: bool,
        expected: &Expected,
    ) -> Result<(), String> {
        let list = answer::replayed(&expected.answer);
        let asked = if whole { &ALL[..] } else { &FIRST };
        for which in asked {
            self.table.copy_from_slice(&self.before);
            let lent = &mut self.table[..length];
            answer::same(&list, [*which], |which| {
                proved::replay(log, order, lent, which)
            })?;
            self.compare_table(&expected.written)?;
        }
        Ok(())
    }

    fn compare_table(&self, written: &[u64]) -> Result<(), String> {
        let (own, behind) = self.table.split_at(written.len());
        if behind != &self.before[written.len()..] {
            return Err("a number is changed that must not be touched".to_string());
        }
        if own == written {
            return Ok(());
        }
        let differs = |index: &usize| own[*index] != written[*index];
        let index = (0..own.len()).find(differs).unwrap_or(0);
        Err(format!(
            "number {index} of the table is {}, expected {}",
            own[index], written[index]
        ))
    }
}

/// A length for a table that is lent: one that is refused, or mostly the least
/// that is taken.
pub fn length(random: &mut Random, short: bool) -> usize {
    let any = random.index(TABLE);
    match random.below(3) {
        _ if short => random.one_of(&[0, 1, TABLE - 1, TABLE - 1, any]),
        0 => TABLE + random.index(LONGEST - TABLE + 1),
        _ => TABLE,
    }
}
