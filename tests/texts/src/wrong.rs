//! Values of the wrong kind.

use crate::value::{Form, Role, Value};
use logs::random::Random;

/// What is no integer, though some of it is a number.
const NO_INTEGERS: [&str; 22] = [
    "null",
    "true",
    "false",
    "-0",
    "-1",
    "1.0",
    "0.5",
    "1e3",
    "0e0",
    "18446744073709551616",
    "99999999999999999999999",
    r#""""#,
    r#""12""#,
    r#""0x""#,
    r#""0X1""#,
    r#"" 0x1""#,
    r#""0x1 ""#,
    r#""0x+1""#,
    r#""0x10000000000000000""#,
    "[]",
    "{}",
    "[1]",
];

const STRINGS: [&str; 4] = [r#""""#, r#""A""#, r#""0x1""#, r#""\u0041""#];
const NUMBERS: [&str; 5] = ["null", "0", "1", "-1.5e3", "true"];
const ARRAYS: [&str; 4] = ["[]", "[[]]", "[1,2]", r#"[["EDGE_ID"]]"#];
const OBJECTS: [&str; 3] = ["{}", r#"{"a":1}"#, r#"{"EDGE_ID":[]}"#];

/// A value that isn't what its role wants, with that role.
pub fn kind(random: &mut Random, role: Role) -> Value {
    let choices: Vec<&str> = match role {
        Role::Column | Role::Name => [&NUMBERS[..], &ARRAYS, &OBJECTS].concat(),
        Role::Top | Role::Data => [&NUMBERS[..], &STRINGS, &ARRAYS].concat(),
        Role::Table | Role::EdgeTable | Role::Header | Role::Row | Role::EdgeRow => {
            [&NUMBERS[..], &STRINGS, &OBJECTS].concat()
        }
        Role::Counts | Role::EdgeCounts => [&NUMBERS[..], &STRINGS, &OBJECTS].concat(),
        _ => NO_INTEGERS.to_vec(),
    };
    let text = random.one_of(&choices).to_string();
    Value::new(role, Form::Raw(text))
}

/// Arrays and objects nested this deep.
pub fn nested(random: &mut Random, depth: usize) -> Form {
    let mut form = Form::Raw("0".to_string());
    for _ in 0..depth {
        let inner = Value::skipped(form);
        form = match random.below(3) {
            0 => Form::Object(vec![(vec![0x61], inner)]),
            _ => Form::Array(vec![inner]),
        };
    }
    form
}
