//! Faults, each put into a table or a walk that has none.

use crate::codes::{LONGEST, ONE, ZERO};
use crate::draft::{Draft, Row};
use crate::{Case, Kind};
use logs::random::Random;

/// Two or three of the kinds that have a fault.
pub fn some(random: &mut Random) -> Vec<Kind> {
    let faults = &Kind::ALL[Kind::ShortList as usize..Kind::Faults as usize];
    (0..2 + random.below(2))
        .map(|_| random.one_of(faults))
        .collect()
}

/// Puts in what can be put into rows, bits and the wanted number.
pub fn in_draft(random: &mut Random, kind: Kind, draft: &mut Draft) {
    let place = random.index(draft.rows.len());
    let row = &mut draft.rows[place];
    match kind {
        Kind::NothingWanted => nothing_wanted(random, draft),
        Kind::TooLong => too_long(random, &mut row.code),
        Kind::Character => wrong_character(random, &mut row.code),
        Kind::EmptyList => row.list.clear(),
        Kind::Clash => clash(random, place, &mut draft.rows),
        Kind::NoRow => no_row(random, draft),
        Kind::BitsOut => bits_out(random, draft),
        Kind::WrongBits => wrong_bits(random, &mut draft.bits),
        Kind::Past => past(random, draft),
        Kind::LeftOver => left_over(random, &mut draft.bits),
        _ => {}
    }
}

/// Puts in what needs the table's numbers or the list's length.
pub fn in_case(random: &mut Random, kind: Kind, case: &mut Case) {
    match kind {
        Kind::ShortList => short_list(random, case),
        Kind::Cut => case.table.truncate(random.index(case.table.len())),
        Kind::Length => length(random, &mut case.table),
        Kind::Changed => changed(random, &mut case.table),
        _ => {}
    }
}

fn nothing_wanted(random: &mut Random, draft: &mut Draft) {
    draft.wanted = 0;
    draft.route.clear();
    if random.once_in(2) {
        draft.bits.clear();
    }
    if random.once_in(2) {
        draft.start = draft.unknown(random);
    }
}

fn too_long(random: &mut Random, code: &mut Vec<u64>) {
    let length = LONGEST + 1 + random.one_of(&[0, 0, 0, 1, 31, 32, 100]);
    while code.len() < length {
        code.push(random.one_of(&[ZERO, ONE]));
    }
}

fn wrong_character(random: &mut Random, code: &mut Vec<u64>) {
    if code.is_empty() {
        code.push(ZERO);
    }
    let place = random.index(code.len());
    let low = random.below(48);
    let above = 50 + random.number() % (u64::MAX - 50);
    let wide = random.one_of(&[ZERO, ONE]) + (1 << (8 + random.below(56)));
    code[place] = random.one_of(&[0, 1, ZERO - 1, ONE + 1, u64::MAX, low, above, wide]);
}

/// Another row for the edge of that row.
fn clash(random: &mut Random, place: usize, rows: &mut Vec<Row>) {
    let mut row = rows[place].clone();
    match random.below(3) {
        0 => {}
        1 => row.code.truncate(random.index(row.code.len() + 1)),
        _ => {
            let room = LONGEST.saturating_sub(row.code.len());
            let more = random.index(room + 1);
            let characters = (0..more).map(|_| random.one_of(&[ZERO, ONE]));
            row.code.extend(characters);
        }
    }
    let at = random.one_of(&[0, place, place + 1, rows.len()]);
    rows.insert(at, row);
}

/// The walk comes to an edge that has no row, with more wanted.
fn no_row(random: &mut Random, draft: &mut Draft) {
    let unknown = draft.unknown(random);
    draft.wanted += 1 + random.below(3);
    match draft.route.last() {
        Some(place) if !random.once_in(4) => {
            if let Some(last) = draft.rows[*place].list.last_mut() {
                *last = unknown;
            }
        }
        _ => draft.start = unknown,
    }
}

/// Fewer bits, where there are any.
fn bits_out(random: &mut Random, draft: &mut Draft) {
    let last = draft.bits.len().saturating_sub(1);
    let any = random.index(last + 1);
    let length = random.one_of(&[0, last, any]);
    draft.bits.truncate(length);
}

fn wrong_bits(random: &mut Random, bits: &mut [u8]) {
    if bits.is_empty() {
        return;
    }
    for _ in 0..1 + random.below(2) {
        let place = random.index(bits.len());
        let flipped = bits[place] ^ 1;
        let any = random.below(256) as u8;
        bits[place] = random.one_of(&[flipped, flipped, flipped, any, 0, 1, b'2']);
    }
}

/// A wanted number inside the list of a row on the way, where one has two edges.
fn past(random: &mut Random, draft: &mut Draft) {
    let mut before = 0;
    let mut inside = Vec::new();
    for place in &draft.route {
        let length = draft.rows[*place].list.len() as u64;
        inside.extend((1..length).map(|some| before + some));
        before += length;
    }
    if !inside.is_empty() {
        draft.wanted = random.one_of(&inside);
    }
}

fn left_over(random: &mut Random, bits: &mut Vec<u8>) {
    for _ in 0..1 + random.below(40) {
        let any = random.below(256) as u8;
        bits.push(random.one_of(&[b'0', b'1', any]));
    }
}

fn short_list(random: &mut Random, case: &mut Case) {
    let any = 1 + random.below(1000);
    let more = random.one_of(&[1, 1, any]);
    match random.below(3) {
        0 => case.wanted = case.length as u64 + more,
        1 => case.wanted = u64::MAX - random.below(3),
        _ if case.wanted == 0 => case.wanted = 1 + case.length as u64,
        _ => case.length = random.index(case.length.min(case.wanted as usize)),
    }
}

/// The places where rows start, up to one that ends behind the table's end.
fn places(table: &[u64]) -> Vec<usize> {
    let mut places = Vec::new();
    let mut place = 0;
    while place + 2 < table.len() {
        places.push(place);
        let Some(list) = behind(table, place + 1) else {
            break;
        };
        let Some(next) = behind(table, list) else {
            break;
        };
        place = next;
    }
    places
}

/// The place behind the numbers whose length is at a place.
fn behind(table: &[u64], place: usize) -> Option<usize> {
    let length = usize::try_from(*table.get(place)?).ok()?;
    (place + 1)
        .checked_add(length)
        .filter(|end| *end <= table.len())
}

fn length(random: &mut Random, table: &mut [u64]) {
    let places = places(table);
    if places.is_empty() {
        return;
    }
    let code = random.one_of(&places) + 1;
    let place = match behind(table, code).filter(|list| *list < table.len()) {
        Some(list) if random.once_in(2) => list,
        _ => code,
    };
    let large = (1 << 20) | random.number();
    let near = u64::MAX - random.below(8);
    table[place] = random.one_of(&[near, near, large, 1 << 32, (1 << 32) + 1, 1 << 63]);
}

fn changed(random: &mut Random, table: &mut [u64]) {
    if table.is_empty() {
        return;
    }
    let place = random.index(table.len());
    let old = table[place];
    let (more, less) = (old.wrapping_add(1), old.wrapping_sub(1));
    let (other, any) = (table[random.index(table.len())], random.value());
    table[place] = random.one_of(&[more, less, other, old ^ 1, any]);
}
