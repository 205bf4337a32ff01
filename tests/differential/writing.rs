//! One record through the two record writers. "The record writer tests 6, 16,
//! 15": it is the one of the writers that gives 6.

use crate::counts::Counts;
use harness::answer;
use harness::order;
use harness::proved;
use harness::record::{Fields, EVENT, FUNCTION};
use logs::inputs::halved;
use logs::random::Random;
use second::order::Order;
use second::writer::write;

/// Bytes on either side of the output.
const AROUND: usize = 8;
/// The longest output.
const LONGEST: usize = 60;
/// The longest event.
const EVENT_LENGTH: usize = 40;

/// As many records, with any values; the text tells of a difference.
pub fn run(records: u64, seed: u64, counts: &mut Counts) -> Result<(), String> {
    for index in 0..records {
        let own = seed.wrapping_add(index);
        let random = &mut Random::new(own);
        let kind = random.below(12).min(FUNCTION);
        let fields = Fields::any(random, kind);
        let (_, order) = halved(index);
        let number = compare(random, &fields, order).map_err(|text| {
            let case = format!("own seed {own:#018x}, {order:?}, {fields:?}");
            format!("difference: record writer, {case}\n  {text}")
        })?;
        counts.written(fields.name(), order, number);
    }
    Ok(())
}

/// Writes the record with any event and any room; the refusal's number or 0.
fn compare(random: &mut Random, fields: &Fields, order: Order) -> Result<usize, String> {
    let length = random.index(EVENT_LENGTH);
    let event = random.bytes(length);
    let record = fields.record();
    let needed = record.size() as usize + if fields.kind == EVENT { length } else { 0 };
    let room = match random.below(4) {
        0 => needed - 1,
        1 => needed,
        _ => random.index(LONGEST + 1),
    };
    let named = order::named(random, order);
    let before = random.bytes(room + 2 * AROUND);
    let own = AROUND..AROUND + room;
    let mut expected = before.clone();
    let answer = write(&record, order, &event, &mut expected[own.clone()]);
    let list = answer::written(&answer);
    for which in answer::all(&list) {
        let mut lent = before.clone();
        let out = &mut lent[own.clone()];
        answer::same(&list, [which], |which| {
            proved::write(fields, named, &event, out, which)
        })?;
        if lent != expected {
            return Err(format!("{lent:?}, expected {expected:?}"));
        }
    }
    Ok(usize::from(answer.err().unwrap_or(0)))
}
