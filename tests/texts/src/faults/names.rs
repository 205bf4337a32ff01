//! Keys and columns, repeated or missing.

use super::one;
use crate::value::{characters, Form, Role, Value};
use logs::random::Random;

pub fn repeated_key(random: &mut Random, top: &mut Value) {
    let ways =
        top.ways(&|value| matches!(&value.form, Form::Object(members) if !members.is_empty()));
    if ways.is_empty() {
        return;
    }
    let way = random.index(ways.len());
    if let Form::Object(members) = &mut top.at(&ways[way]).form {
        let key = members[random.index(members.len())].0.clone();
        let place = random.index(members.len() + 1);
        // Before the known key it would be looked at, so it is what follows.
        let first = members.iter().position(|(other, _)| other == &key);
        let place = place.max(first.map_or(0, |first| first + 1));
        members.insert(place, (key, Value::skipped(Form::Integer(0))));
    }
}

pub fn repeated_column(random: &mut Random, top: &mut Value) {
    let Some(way) = one(random, top, &[Role::Header]) else {
        return;
    };
    let columns = top.at(&way).within();
    if !columns.is_empty() {
        let again = columns[random.index(columns.len())].clone();
        columns.insert(random.index(columns.len() + 1), again);
    }
}

/// The columns that are needed, of any table.
const NEEDED: [&str; 10] = [
    "EDGE_TYPE_ID",
    "EDGE_TYPE",
    "NODE_ID",
    "NODE_NAME",
    "PROCESS_ID",
    "PROCESS_DATA",
    "EDGE_ID",
    "SOURCE_NODE_ID",
    "TARGET_NODE_ID",
    "COUNT_PER_THREAD",
];

pub fn missing_key(random: &mut Random, top: &mut Value) {
    let Some(way) = one(random, top, &[Role::Top, Role::Data]) else {
        return;
    };
    if let Form::Object(members) = &mut top.at(&way).form {
        let known: Vec<usize> = (0..members.len())
            .filter(|index| members[*index].1.role != Role::Skipped)
            .collect();
        if !known.is_empty() {
            members.remove(known[random.index(known.len())]);
        }
    }
}

/// A column of another name, so that its cells are skipped: those of PROCESS_DATA
/// may be too deep for that.
pub fn missing_column(random: &mut Random, top: &mut Value) {
    let needed: Vec<Vec<u32>> = NEEDED.iter().map(|name| characters(name)).collect();
    let ways = top.ways(&|value| {
        value.role == Role::Column
            && matches!(&value.form, Form::Text(name) if needed.contains(name))
    });
    if !ways.is_empty() {
        let way = random.index(ways.len());
        top.at(&ways[way]).form = Form::Text(characters("A column that isn't known"));
    }
}

pub fn missing_cell(random: &mut Random, top: &mut Value) {
    let Some(way) = one(random, top, &[Role::Row, Role::EdgeRow]) else {
        return;
    };
    let cells = top.at(&way).within();
    let needed: Vec<usize> = (0..cells.len())
        .filter(|index| cells[*index].role != Role::Skipped)
        .collect();
    if !needed.is_empty() {
        cells.truncate(needed[random.index(needed.len())]);
    }
}
