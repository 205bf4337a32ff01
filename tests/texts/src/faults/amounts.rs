//! Too many edges or threads, and counts that don't sum.

use super::one;
use crate::value::{characters, Form, Role, Value};
use logs::random::Random;

/// Puts rows into one of the tables until there are so many edges in all.
pub fn fill_edges(random: &mut Random, top: &mut Value, count: usize) {
    let Some(way) = one(random, top, &[Role::EdgeTable]) else {
        return;
    };
    let met = top.ways(&|value| value.role == Role::EdgeRow).len();
    let table = top.at(&way).within();
    let header = match table.first().map(|header| &header.form) {
        Some(Form::Array(columns)) => columns.clone(),
        _ => return,
    };
    for number in met..count {
        // No other id is so great but by chance.
        let id = 1_000_000_000 + number as u64;
        table.push(Value::array(
            Role::EdgeRow,
            header.iter().map(|column| cell(column, id)).collect(),
        ));
    }
}

/// A cell that fits its column.
fn cell(column: &Value, id: u64) -> Value {
    let name = match &column.form {
        Form::Text(name) => name.clone(),
        _ => Vec::new(),
    };
    if name == characters("EDGE_ID") {
        Value::integer(Role::OwnId, id)
    } else if name == characters("COUNT_PER_THREAD") {
        Value::array(Role::EdgeCounts, Vec::new())
    } else {
        Value::integer(Role::Id, 1)
    }
}

/// Puts threads into one of the processes until there are so many in all.
pub fn fill_threads(random: &mut Random, top: &mut Value, count: usize) {
    let Some(way) = one(random, top, &[Role::Counts]) else {
        return;
    };
    let met = top.ways(&|value| value.role == Role::Thread).len();
    let counts = top.at(&way).within();
    for _ in met..count {
        counts.push(Value::integer(Role::Thread, 0));
    }
}

pub fn no_sum(random: &mut Random, top: &mut Value) {
    let Some(way) = one(random, top, &[Role::Total, Role::Counts]) else {
        return;
    };
    match &mut top.at(&way).form {
        Form::Integer(total) => {
            let change = random.one_of(&[1, u64::MAX, 1 << 32, 1 << 63]);
            *total = total.wrapping_add(change);
        }
        Form::Array(counts) => {
            // By one, or by 2^64.
            let more = random.one_of(&[&[1][..], &[1 << 63, 1 << 63], &[u64::MAX, 1]]);
            counts.extend(
                more.iter()
                    .map(|count| Value::integer(Role::Thread, *count)),
            );
        }
        _ => {}
    }
}
