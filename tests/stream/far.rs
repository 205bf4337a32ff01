//! Logs around 2^64 - 1 bytes long: two buffers, the first with a skipped rest that
//! nobody makes or reads.

use crate::cuts::Way;
use crate::driver::Call;
use crate::times::Times;
use logs::inputs::Input;
use logs::random::Random;
use second::header::{self, SIZE};
use second::order::Order;
use second::record::Record;
use second::replay::Answer;
use second::walk;

/// The bytes of the rest that are made: also the room that the second buffer has
/// behind what comes of it.
const REST: u64 = 3000;

/// The lengths are fewer bytes than this from 2^64 - 1.
const AROUND: u64 = 20;

pub struct Far {
    pub order: Order,
    /// The log as it is fed.
    log: Vec<u8>,
    /// Where in it the others are to be passed, and how many they are.
    place: usize,
    bytes: u64,
    pub times: Times,
}

impl Far {
    /// Made of this log, where it has two buffers and the first one is good.
    pub fn of(random: &mut Random, input: &Input) -> Option<Far> {
        let (log, order) = (input.log(), input.order);
        let size = header::check(&log, order).ok()?.buffer_size;
        let second = log.get(SIZE + size as usize..SIZE + 2 * size as usize)?;
        let is_end = |item: &&walk::Item| item.record == Record::EndOfBuffer;
        let items = walk::walk(&log, order).0;
        let rest = items.iter().find(is_end)?.place + 16;
        let mut near = log[..SIZE + size as usize].to_vec();
        near.resize(near.len() + REST as usize, 0xFF);
        // At times the first buffer is all there is.
        near.extend(&second[..random.index(second.len()).saturating_sub(20)]);
        near[16..24].copy_from_slice(&order.bytes(size + REST, 8));
        let times = Times::of(&near, order);
        // An event that this second buffer has no room for, and that one has.
        if let Some(Answer::Refused { number: 5, .. }) = times.fault(u64::MAX) {
            return None;
        }
        let bytes = u64::MAX - near.len() as u64 - random.below(AROUND) + random.below(AROUND);
        near[16..24].copy_from_slice(&order.bytes(size + REST + bytes, 8));
        Some(Far {
            order,
            log: near,
            place: rest as usize + random.index((REST - AROUND) as usize),
            bytes,
            times,
        })
    }

    /// The calls up to the end, with the reads cut in some way.
    pub fn calls(&self, random: &mut Random) -> Vec<Call<'_>> {
        let (before, behind) = self.log.split_at(self.place);
        let way = random.one_of(&[Way::One, Way::Small, Way::Few]);
        let reads = [Way::Few.reads(random, before), way.reads(random, behind)];
        let [mut calls, last] =
            reads.map(|reads| reads.into_iter().map(Call::Feed).collect::<Vec<_>>());
        calls.push(Call::Pass(self.bytes));
        calls.extend(last);
        calls
    }
}
