//! DCFGs that are accepted: columns and keys in any order, unknown ones, cells
//! past the header, several processes.

use crate::any;
use crate::value::{characters, Form, Role, Value};
use logs::random::Random;
use std::collections::HashSet;

/// A member of an object.
type Member = (Vec<u32>, Value);

/// A DCFG with at least this many processes, and rows in its tables of names.
pub fn dcfg(random: &mut Random, least: usize) -> Value {
    let mut members = vec![
        member(
            "MAJOR_VERSION",
            Value::integer(Role::Version, random.value()),
        ),
        member(
            "MINOR_VERSION",
            Value::integer(Role::Version, random.below(100)),
        ),
        member("EDGE_TYPES", names(random, ["EDGE_TYPE_ID", "EDGE_TYPE"])),
        member("SPECIAL_NODES", names(random, ["NODE_ID", "NODE_NAME"])),
        member("PROCESSES", processes(random, least)),
    ];
    strangers(
        random,
        &mut members,
        &["FILE_NAMES", "EDGES", "INSTR_COUNT", "X"],
    );
    Value::new(Role::Top, Form::Object(members))
}

fn member(key: &str, value: Value) -> Member {
    (characters(key), value)
}

/// Puts unknown keys among these, in any order.
fn strangers(random: &mut Random, members: &mut Vec<Member>, names: &[&str]) {
    for _ in 0..random.index(3) {
        let key = match random.below(2) {
            0 => characters(random.one_of(names)),
            _ => any::string(random),
        };
        if !members.iter().any(|(other, _)| other == &key) {
            members.push((key, any::skipped(random)));
        }
    }
    shuffle(random, members);
}

fn shuffle<T>(random: &mut Random, items: &mut [T]) {
    if random.once_in(3) {
        return;
    }
    for last in (1..items.len()).rev() {
        items.swap(last, random.index(last + 1));
    }
}

/// An id, at times at an edge.
fn id(random: &mut Random) -> u64 {
    match random.below(6) {
        0 => random.one_of(&[1, 2_147_483_647]),
        1 => 1 + random.below(2_147_483_647),
        _ => 1 + random.below(5000),
    }
}

/// One that was not met.
fn fresh(random: &mut Random, met: &mut HashSet<u64>) -> Value {
    loop {
        let id = id(random);
        if met.insert(id) {
            return Value::integer(Role::OwnId, id);
        }
    }
}

fn names(random: &mut Random, columns: [&str; 2]) -> Value {
    let mut met = HashSet::new();
    let count = 2 + random.index(4);
    let mut rows = Vec::new();
    for _ in 0..count {
        let name = any::string(random);
        let name = Value::new(Role::Name, Form::Text(name));
        rows.push(vec![fresh(random, &mut met), name]);
    }
    table(random, [Role::Table, Role::Row], &columns, rows)
}

fn processes(random: &mut Random, least: usize) -> Value {
    let count = least + random.index(3);
    let mut rows = Vec::new();
    for _ in 0..count {
        let id = Value::integer(Role::ProcessId, random.value());
        rows.push(vec![id, process(random)]);
    }
    table(
        random,
        [Role::Table, Role::Row],
        &["PROCESS_ID", "PROCESS_DATA"],
        rows,
    )
}

fn process(random: &mut Random) -> Value {
    let threads = random.index(5);
    let (total, counts) = counts(random, threads);
    let mut members = vec![
        member("INSTR_COUNT", Value::integer(Role::Total, total)),
        member("INSTR_COUNT_PER_THREAD", counts),
        member("EDGES", edges(random, threads)),
    ];
    strangers(
        random,
        &mut members,
        &["IMAGES", "EDGE_TYPES", "MAJOR_VERSION", "X"],
    );
    Value::new(Role::Data, Form::Object(members))
}

/// Counts whose sum is at most 2^64 - 1, and at times just that.
fn counts(random: &mut Random, threads: usize) -> (u64, Value) {
    let mut total: u64 = 0;
    let mut counts = Vec::new();
    for _ in 0..threads {
        let count = match random.below(8) {
            0 => u64::MAX - total,
            _ => random.value() % (u64::MAX - total).max(1),
        };
        total += count;
        counts.push(Value::integer(Role::Thread, count));
    }
    (total, Value::array(Role::Counts, counts))
}

const EDGE_COLUMNS: [&str; 5] = [
    "EDGE_ID",
    "SOURCE_NODE_ID",
    "TARGET_NODE_ID",
    "EDGE_TYPE_ID",
    "COUNT_PER_THREAD",
];

fn edges(random: &mut Random, threads: usize) -> Value {
    let mut met = HashSet::new();
    let count = random.index(6);
    let mut rows = Vec::new();
    for _ in 0..count {
        let mut row = vec![fresh(random, &mut met)];
        row.extend((0..3).map(|_| Value::integer(Role::Id, id(random))));
        let counts = (0..threads).map(|_| Value::integer(Role::EdgeCount, random.value()));
        let counts: Vec<Value> = counts.collect();
        row.push(Value::array(Role::EdgeCounts, counts));
        rows.push(row);
    }
    table(
        random,
        [Role::EdgeTable, Role::EdgeRow],
        &EDGE_COLUMNS,
        rows,
    )
}

/// A table of these columns in any order, with unknown ones among them. The
/// unknown ones at the end may be missing in a row, and cells past them follow.
fn table(random: &mut Random, roles: [Role; 2], columns: &[&str], rows: Vec<Vec<Value>>) -> Value {
    let mut order: Vec<Option<usize>> = (0..columns.len()).map(Some).collect();
    order.extend(vec![None; random.index(3)]);
    shuffle(random, &mut order);
    let mut met = HashSet::new();
    let header = order.iter().map(|column| {
        let name = column.map_or_else(
            || stranger(random, &mut met),
            |index| characters(columns[index]),
        );
        Value::new(Role::Column, Form::Text(name))
    });
    let mut table = vec![Value::array(Role::Header, header.collect())];
    for row in rows {
        table.push(Value::array(roles[1], cells(random, &order, row)));
    }
    Value::array(roles[0], table)
}

/// The name of an unknown column that was not met.
fn stranger(random: &mut Random, met: &mut HashSet<Vec<u32>>) -> Vec<u32> {
    loop {
        let name = match random.below(3) {
            0 => characters(random.one_of(&["PROCESSES", "COUNT", "edge_id", ""])),
            _ => any::string(random),
        };
        if met.insert(name.clone()) {
            return name;
        }
    }
}

fn cells(random: &mut Random, order: &[Option<usize>], row: Vec<Value>) -> Vec<Value> {
    let cell = |random: &mut Random, column: &Option<usize>| match column {
        Some(index) => row[*index].clone(),
        None => any::skipped(random),
    };
    let mut cells: Vec<Value> = order.iter().map(|column| cell(random, column)).collect();
    if random.once_in(4) {
        let needed = order
            .iter()
            .rposition(Option::is_some)
            .map_or(0, |last| last + 1);
        cells.truncate(needed + random.index(order.len() - needed + 1));
    } else if random.once_in(4) {
        let past = 1 + random.index(3);
        cells.extend((0..past).map(|_| any::skipped(random)));
    }
    cells
}
