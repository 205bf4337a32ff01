//! Values that nest too deep, of the wrong kind, and ids.

use super::one;
use crate::value::{characters, Form, Role, Value, Way};
use crate::wrong;
use logs::random::Random;

pub fn deep(random: &mut Random, top: &mut Value) {
    let more = random.one_of(&[0, 0, 1, 60]);
    let form = wrong::nested(random, 33 + more);
    let integers = [
        Role::Version,
        Role::OwnId,
        Role::Id,
        Role::ProcessId,
        Role::Total,
        Role::Thread,
        Role::EdgeCount,
    ];
    let role = match random.below(3) {
        0 => one(random, top, &integers),
        1 => one(random, top, &[Role::Skipped]).filter(|way| !way.is_empty()),
        _ => None,
    };
    match role {
        Some(way) => top.at(&way).form = form,
        None => put_key(random, top, form),
    }
}

/// A key that isn't known, with this value, at the top or in a process.
fn put_key(random: &mut Random, top: &mut Value, form: Form) {
    let Some(way) = one(random, top, &[Role::Top, Role::Data]) else {
        return;
    };
    if let Form::Object(members) = &mut top.at(&way).form {
        let place = random.index(members.len() + 1);
        members.insert(
            place,
            (characters("A key that isn't known"), Value::skipped(form)),
        );
    }
}

pub fn wrong_kind(random: &mut Random, top: &mut Value) {
    let ways = top.ways(&|value| value.role != Role::Skipped);
    let way = ways[random.index(ways.len())].clone();
    let value = top.at(&way);
    *value = wrong::kind(random, value.role);
}

pub fn id_outside(random: &mut Random, top: &mut Value) {
    if let Some(way) = one(random, top, &[Role::OwnId, Role::Id]) {
        let far = 2_147_483_648 + random.number() / 2;
        let id = random.one_of(&[0, 0, 2_147_483_648, 4_294_967_297, u64::MAX, far]);
        top.at(&way).form = Form::Integer(id);
    }
}

/// The ways to the own ids of one table.
fn own_ids(top: &mut Value, table: &Way) -> Vec<Way> {
    let ids = top.at(table).ways(&|value| value.role == Role::OwnId);
    let whole = |way: Way| [table.clone(), way].concat();
    ids.into_iter()
        .map(whole)
        .filter(|way| way.len() == table.len() + 2)
        .collect()
}

pub fn own_id_repeated(random: &mut Random, top: &mut Value) {
    let tables = top.ways(&|value| [Role::Table, Role::EdgeTable].contains(&value.role));
    let mut ids: Vec<Vec<Way>> = tables.iter().map(|table| own_ids(top, table)).collect();
    ids.retain(|ids| ids.len() > 1);
    if ids.is_empty() {
        return;
    }
    let ids = &ids[random.index(ids.len())];
    let first = random.index(ids.len() - 1);
    let second = first + 1 + random.index(ids.len() - first - 1);
    top.at(&ids[second]).form = top.at(&ids[first]).form.clone();
}
