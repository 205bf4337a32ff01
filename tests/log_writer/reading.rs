//! What a session wrote, read back.

use harness::answer;
use harness::order;
use harness::proved;
use harness::state::At;
use second::header::{self, Header};
use second::log_writer::Start;
use second::record::Record;
use second::scrub::{hidden, Kind};
use second::walk::{self, walk, Outcome, Step};

type Accepted = (Record, Vec<u8>);

/// What the header must say.
fn header_of(start: &Start) -> Header {
    Header {
        constant_tsc: start.constant_tsc,
        nonstop_tsc: start.nonstop_tsc,
        frequency: start.frequency,
        buffer_size: start.size,
    }
}

/// The second program's walk meets the accepted records and events, and no
/// refusal; hidden bytes other than events and arguments are zero.
pub fn by_second(log: &[u8], start: &Start, accepted: &[Accepted]) -> Result<(), String> {
    let header = header::check(log, start.order);
    if header != Ok(header_of(start)) {
        return Err(format!("the header is read as {header:?}"));
    }
    let (items, outcome) = walk(log, start.order);
    if outcome != Outcome::Done || items.len() != accepted.len() {
        let count = items.len();
        return Err(format!("{count} records are read, then {outcome:?}"));
    }
    for (item, (record, event)) in items.iter().zip(accepted) {
        let place = item.place as usize;
        let from = place + record.size() as usize;
        if item.record != *record || !log[from..].starts_with(event) {
            return Err(format!("{:?} is read at {place}", item.record));
        }
    }
    let shown = [Kind::Argument, Kind::Event];
    for part in hidden(log, start.order) {
        if !shown.contains(&part.kind) && log[part.bytes.clone()].iter().any(|byte| *byte != 0) {
            return Err(format!("{part:?} isn't zero"));
        }
    }
    Ok(())
}

/// The proved reader meets the same, step by step.
pub fn by_proved(log: &[u8], start: &Start, accepted: &[Accepted]) -> Result<(), String> {
    let header = header_of(start);
    let order = order::number(start.order);
    let list = answer::header(&Ok(header));
    same("header", &list, |which| proved::header(log, order, which))?;
    let mut position = walk::start(&header, start.order);
    for (record, event) in accepted {
        let Step::Found { next, .. } = walk::next(log, position) else {
            return Err(format!("no step from {position:?}"));
        };
        let (at, place) = (At::from(&position), position.place);
        let record = *record;
        let list = answer::step(&Step::Found { record, next });
        let name = format!("record at {place}");
        same(&name, &list, |which| proved::next(log, &at, which))?;
        let ask = |which| proved::event(log, order, next.end, place, which);
        answer::same_event(event, ask)
            .map_err(|text| format!("proved reader, event at {place}: {text}"))?;
        position = next;
    }
    let (at, list) = (At::from(&position), answer::step(&Step::Over));
    same("end", &list, |which| proved::next(log, &at, which))
}

/// All numbers of one answer.
fn same(name: &str, list: &[u64], ask: impl Fn(u64) -> u64) -> Result<(), String> {
    answer::same(list, answer::all(list), ask)
        .map_err(|text| format!("proved reader, {name}: {text}"))
}
