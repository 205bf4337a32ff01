//! What is checked of one log: the scrubber against the second one; demand 3
//! where the log is well-formed; the clause for refused logs; and the same log
//! in the other byte order.

use crate::counts::Counts;
use crate::overwriting::{before, overwrite};
use crate::scrubbing::Scrubbed;
use harness::order;
use harness::replaying::{self, Expected, Lent};
use logs::random::Random;
use logs::turn::turned;
use second::order::Order;
use second::replay::{Answer, TABLE};
use second::scrub::{hidden, scrub, Part};

/// One in this many pairs is replayed with tables that are too short.
const SHORT: u64 = 20;

pub struct Checks {
    /// Tables that hold different numbers before.
    lent: [Lent; 2],
    pub counts: Counts,
}

impl Checks {
    pub fn new() -> Checks {
        Checks {
            lent: [Lent::new(1), Lent::new(2)],
            counts: Counts::new(),
        }
    }

    /// All of them; the text tells of a difference.
    pub fn run(&mut self, log: &[u8], order: Order, random: &mut Random) -> Result<(), String> {
        let hidden = hidden(log, order);
        let number = self.scrubbed(log, order, &hidden, random)?;
        if (1..=4).contains(&number) {
            return Ok(());
        }
        let replayed = &Expected::of(log, order, TABLE);
        if number == 0 {
            self.overwritten(log, order, &hidden, replayed, random)?;
        }
        if let Answer::Refused { place, .. } = replayed.answer {
            // "For a log refused by 5 to 13, overwriting the hidden bytes that
            // lie before the refused place gives the same replay refusal and
            // place."
            let (other, _) = overwrite(random, log, &before(&hidden, place));
            let answer = self.replayed([log, &other], order, replayed, random)?;
            self.counts.refused([log, &other], order, &answer);
        }
        Ok(())
    }

    /// The proved scrubber and the second one: number, place and all bytes.
    /// So too in the other order, whose hidden bytes lie at the same offsets.
    /// Gives the number.
    fn scrubbed(
        &mut self,
        log: &[u8],
        order: Order,
        hidden: &[Part],
        random: &mut Random,
    ) -> Result<u8, String> {
        let mut after = log.to_vec();
        let answer = scrub(&mut after, order);
        let expected = Scrubbed {
            answer,
            after: &after,
            hidden,
        };
        expected.compare(log, order, random)?;
        let number = answer.err().map_or(0, |(number, _)| number);
        self.counts.scrubbed(number, log, order, hidden);
        if random.once_in(2) {
            let alike = turned_alike(log, order, &expected, random);
            alike.map_err(|text| format!("{text}, in the turned log"))?;
            self.counts.turned(number, order);
        }
        Ok(number)
    }

    /// Demand 3, on a well-formed log: the same replay and the same scrubbed
    /// copy for the log and for another that differs in hidden bytes only.
    fn overwritten(
        &mut self,
        log: &[u8],
        order: Order,
        parts: &[Part],
        replayed: &Expected,
        random: &mut Random,
    ) -> Result<(), String> {
        let (other, way) = overwrite(random, log, parts);
        if hidden(&other, order) != parts {
            return Err("second program: other hidden places in the overwritten log".to_string());
        }
        let answer = self.replayed([log, &other], order, replayed, random)?;
        let mut after = log.to_vec();
        for part in parts {
            after[part.bytes.clone()].fill(0);
        }
        let expected = Scrubbed {
            answer: Ok(()),
            after: &after,
            hidden: parts,
        };
        expected.compare(log, order, random)?;
        let named = |text| format!("{text}, in the overwritten log");
        expected.compare(&other, order, random).map_err(named)?;
        self.counts.pair([log, &other], order, parts, &answer, way);
        Ok(())
    }

    /// Replays the log as it was and the overwritten one, at times with tables
    /// that are too short. Gives the answer to both.
    fn replayed(
        &mut self,
        logs: [&[u8]; 2],
        order: Order,
        expected: &Expected,
        random: &mut Random,
    ) -> Result<Answer, String> {
        let (short, whole) = (random.once_in(SHORT), random.once_in(4));
        let refused = short.then(|| Expected::of(logs[0], order, 0));
        let expected = refused.as_ref().unwrap_or(expected);
        let names = ["as it was", "overwritten"];
        for ((lent, log), name) in self.lent.iter_mut().zip(logs).zip(names) {
            let length = replaying::length(random, short);
            let number = order::named(random, order);
            lent.compare(log, number, length, whole, expected)
                .map_err(|text| format!("replay, log {name}, table of {length}: {text}"))?;
        }
        Ok(expected.answer)
    }
}

/// Scrubs the log in the other order: the same answer, and the scrubbed bytes
/// in that order. "Hidden bytes lie at the same offsets."
fn turned_alike(
    log: &[u8],
    order: Order,
    expected: &Scrubbed,
    random: &mut Random,
) -> Result<(), String> {
    let other = turned(log, order);
    if hidden(&other, order.other()) != expected.hidden {
        return Err("second program: other hidden places".to_string());
    }
    let after = turned(expected.after, order);
    let same = Scrubbed {
        after: &after,
        ..*expected
    };
    same.compare(&other, order.other(), random)
}
