//! One log through the proved scrubber.

use harness::answer;
use harness::order;
use harness::proved;
use logs::random::Random;
use second::order::Order;
use second::scrub::{Kind, Part};

/// Bytes on either side of a log, which must stay as they are.
const AROUND: usize = 24;
const GUARD: u8 = 0xA7;

/// What a scrubber must answer, and what the log must hold then.
pub struct Scrubbed<'a> {
    pub answer: Result<(), (u8, u64)>,
    pub after: &'a [u8],
    /// The hidden bytes, to tell where a difference lies.
    pub hidden: &'a [Part],
}

impl Scrubbed<'_> {
    /// Scrubs a copy of the log in this order: first as a C program does, then for single
    /// numbers of the answer, one or all, on the same bytes. The text tells of
    /// a difference, without any of the log's bytes.
    pub fn compare(&self, log: &[u8], order: Order, random: &mut Random) -> Result<(), String> {
        let mut lent = vec![GUARD; log.len() + 2 * AROUND];
        let own = AROUND..AROUND + log.len();
        lent[own.clone()].copy_from_slice(log);
        let list = answer::scrubbed(&self.answer);
        let order = order::named(random, order);
        let (number, place) = proved::scrub(&mut lent[own.clone()], order);
        if [u64::from(number), place] != list {
            return Err(format!("scrubber: {number} at {place}, expected {list:?}"));
        }
        self.compare_bytes(&lent)?;
        let mut asked: Vec<u64> = answer::all(&list).collect();
        if !random.once_in(4) {
            asked = vec![random.one_of(&asked)];
        }
        for which in asked {
            let log = &mut lent[own.clone()];
            let ask = |which| proved::scrub_number(log, order, which);
            answer::same(&list, [which], ask).map_err(|text| format!("scrubber: {text}"))?;
            self.compare_bytes(&lent)?;
        }
        Ok(())
    }

    fn compare_bytes(&self, lent: &[u8]) -> Result<(), String> {
        let (before, rest) = lent.split_at(AROUND);
        let (log, behind) = rest.split_at(self.after.len());
        if before.iter().chain(behind).any(|byte| *byte != GUARD) {
            return Err("scrubber: a byte outside the log has changed".to_string());
        }
        if log == self.after {
            return Ok(());
        }
        let differs = |place: &usize| log[*place] != self.after[*place];
        let place = (0..log.len()).find(differs).unwrap_or(0);
        let whose = match kind_at(self.hidden, place) {
            Some(kind) => format!("hidden, {kind:?}"),
            None => "not hidden".to_string(),
        };
        Err(format!(
            "scrubber: another byte than expected at {place} ({whose})"
        ))
    }
}

fn kind_at(hidden: &[Part], place: usize) -> Option<Kind> {
    let part = hidden.iter().find(|part| part.bytes.contains(&place))?;
    Some(part.kind)
}
