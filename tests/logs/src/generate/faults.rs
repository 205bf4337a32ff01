//! One fault in an otherwise well-formed log.

use super::buffer::Buffer;
use super::bytes::{any_bytes, first_byte, header};
use super::records::{any_record, function, leading_records};
use super::sound::{amount, good_buffer, plan, Plan};
use super::Kind;
use crate::random::Random;
use second::order::Order;
use second::record::Record;

/// A log with the fault of its kind in one of its buffers.
pub fn one_fault(random: &mut Random, order: Order, kind: Kind) -> Vec<u8> {
    let plan = plan(random, 128, 1);
    let at = random.index(plan.buffers);
    let mut log = header(random, order, plan.size as u64);
    for index in 0..plan.buffers {
        let buffer = if index == at {
            faulty_buffer(random, order, kind, &plan)
        } else {
            good_buffer(random, order, plan.size, plan.thread)
        };
        log.extend(buffer);
    }
    log
}

/// The room that a fault needs behind the body before it.
const FAULT: usize = 48;

fn faulty_buffer(random: &mut Random, order: Order, kind: Kind, plan: &Plan) -> Vec<u8> {
    let most = amount(random);
    let mut buffer = Buffer::new(random, order, plan.size);
    if kind == Kind::LeadingFault {
        leading_fault(&mut buffer, plan.thread);
    } else {
        buffer.leading(plan.thread);
        buffer.body(most, FAULT);
    }
    match kind {
        Kind::LeadingInBody => leading_in_body(&mut buffer, plan.thread),
        Kind::LooseArgument => loose_argument(&mut buffer),
        Kind::StrangeAction => strange(&mut buffer, 0),
        Kind::StrangeKind => strange(&mut buffer, 1),
        Kind::RecordPastEnd => record_past_end(&mut buffer),
        Kind::EventPastEnd => event_past_end(&mut buffer),
        Kind::NoEndOfBuffer => return no_end(buffer),
        _ => buffer.body(most, 16),
    }
    if buffer.room() >= 16 {
        return buffer.close();
    }
    buffer.rest()
}

fn leading_fault(buffer: &mut Buffer, thread: u16) {
    let random = &mut *buffer.random;
    let mut records = leading_records(random, thread);
    let at = random.index(3);
    match random.below(4) {
        0 => {
            records.remove(at);
        }
        1 => records.swap(at, (at + 1) % 3),
        2 => records[at] = any_record(random),
        _ => records.insert(at, any_record(random)),
    }
    for record in records {
        buffer.put(record);
    }
}

fn leading_in_body(buffer: &mut Buffer, thread: u16) {
    let random = &mut *buffer.random;
    let own = leading_records(random, thread);
    let other = leading_records(random, !thread);
    let record = random.one_of(&[own[0], own[1], other[0]]);
    buffer.put(record);
}

/// A CallArgument behind a record that ends any run.
fn loose_argument(buffer: &mut Buffer) {
    let argument = buffer.random.value();
    let tsc = buffer.random.value();
    match buffer.random.below(6) {
        0 => buffer.put(Record::TscWrap { tsc }),
        1 => buffer.put(Record::NewCpuId { cpu: 1, tsc }),
        2 => buffer.event(0),
        _ => {
            let action = buffer.random.below(3) as u8;
            let record = function(buffer.random, action);
            buffer.put(record);
        }
    }
    buffer.put(Record::CallArgument { argument });
}

/// A record with an unknown action (0) or kind (1); at times with only a few
/// bytes left for it.
fn strange(buffer: &mut Buffer, family: u8) {
    if buffer.random.once_in(3) {
        let left = 1 + buffer.random.index(16);
        buffer.pad(left);
    }
    let mut bytes = buffer.random.bytes(16);
    let first = if family == 0 {
        (bytes[0] & 0xF0) | ((4 + buffer.random.below(4) as u8) << 1)
    } else {
        let kind = match buffer.random.below(3) {
            0 => 7,
            _ => 7 + buffer.random.below(121) as u8,
        };
        (kind << 1) | 1
    };
    bytes[0] = first_byte(buffer.order, first);
    buffer.bytes.extend(bytes);
}

/// A record for which up to one byte too few is left.
fn record_past_end(buffer: &mut Buffer) {
    let record = any_record(buffer.random);
    let size = record.size() as usize;
    let left = match buffer.random.below(3) {
        0 => size - 1,
        _ => 1 + buffer.random.index(size - 1),
    };
    buffer.pad(left);
    buffer.put(record);
}

/// An event up to the buffer's end, one byte past it, or far past it.
fn event_past_end(buffer: &mut Buffer) {
    let room = (buffer.room() - 16) as u32;
    let size = match buffer.random.below(5) {
        0 => room,
        1 | 2 => room + 1,
        3 => room + buffer.random.below(1000) as u32,
        _ => room.saturating_add(buffer.random.number() as u32),
    };
    buffer.put(Record::CustomEvent { size, tsc: 1 });
    let bytes = any_bytes(buffer.random, buffer.order, buffer.room());
    buffer.bytes.extend(bytes);
}

fn no_end(mut buffer: Buffer) -> Vec<u8> {
    if buffer.random.once_in(2) {
        buffer.pad(0);
    } else {
        buffer.body(20_000, 0);
    }
    buffer.rest()
}
