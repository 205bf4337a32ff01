//! Depth: "skipped with their values nested at most 32 deep", counted from the
//! skipped value.

use super::*;

/// `opening` 32 times, then `inside`, then `closing` 32 times.
fn nested(opening: &str, inside: &str, closing: &str) -> String {
    opening.repeat(32) + inside + &closing.repeat(32)
}

#[test]
fn thirty_two_pass() {
    for inside in ["", "1", "1,2", "null", r#""[[[[""#] {
        accepted(skipped(&nested("[", inside, "]")));
    }
    accepted(skipped(&nested(r#"{"a":"#, "1", "}")));
    accepted(skipped(&(r#"[{"a":"#.repeat(16) + "1" + &"}]".repeat(16))));
    // Side by side, and one 32 deep behind another.
    accepted(skipped(&format!("[{}]", vec!["[]"; 40].join(","))));
    accepted(skipped(&format!(
        "[{0},{0}]",
        "[".repeat(31) + &"]".repeat(31)
    )));
}

#[test]
fn the_33rd_is_refused_at_its_bracket() {
    // What stands inside it is not looked at.
    for inside in ["^[]", "^{}", "^[", "^[broken", "^{broken"] {
        refused(32, skipped(&nested("[", inside, "]")));
        refused(32, skipped(&nested("[", &format!("1,{inside}"), "]")));
        refused(32, skipped(&nested(r#"{"a":"#, inside, "}")));
    }
    refused(32, format!(r#"{{"X":{}^["#, "[".repeat(32)));
    // The first of those that lie too deep.
    refused(32, skipped(&nested("[", "^[[[]]],[]", "]")));
}

#[test]
fn wherever_a_value_is_skipped() {
    let deep = nested("[", "^[]", "]");
    let sound = nested("[", "", "]");
    let cell = |value: &str| rows(&format!("[1,2,3,4,[],0,{value}]"));
    let column = |value: &str| {
        edge_types(&format!(
            r#"[["EDGE_TYPE_ID","Y","EDGE_TYPE"],[1,{value},""]]"#
        ))
    };
    let key = |value: &str| {
        let counts = format!(r#""Y":{value},"INSTR_COUNT":0,"INSTR_COUNT_PER_THREAD":[]"#);
        data(&[&object(&[&counts, NO_EDGES])])
    };
    let process = |value: &str| {
        processes(&format!(
            r#"[["PROCESS_ID","PROCESS_DATA"],[1,{{}},{value}]]"#
        ))
    };
    let node = |value: &str| special_nodes(&format!(r#"[["NODE_NAME","NODE_ID"],["",1,{value}]]"#));
    refused(32, cell(&deep));
    refused(32, column(&deep));
    refused(32, key(&deep));
    refused(32, process(&deep));
    refused(32, node(&deep));
    listed(cell(&sound), &["edges 1 threads 0", "0 1 2 3 4"]);
    accepted(column(&sound));
    accepted(key(&sound));
    accepted(node(&sound));
    refused(38, process(&sound) + "^");
}

/// "Also in a value of the wrong kind", counted from that value.
#[test]
fn in_a_value_of_the_wrong_kind() {
    let deep = nested("[", "^[]", "]");
    // 32 deep, so its kind is what is wrong, at its last byte.
    let sound = "[".repeat(32) + &"]".repeat(31) + "^]";
    let object = format!(r#"{{"a":{}{}^}}"#, "[".repeat(31), "]".repeat(31));
    for (number, value) in [(32, &deep), (34, &sound), (34, &object)] {
        refused(number, version(value));
        refused(number, counts(value, "[]"));
        refused(number, counts("0", &format!("[0,{value}]")));
        refused(number, rows(&format!("[{value},1,1,1,[]]")));
        refused(number, rows(&format!("[1,1,1,1,[1,{value}]]")));
        refused(number, edge_types(&format!("[[{value}]]")));
        refused(
            number,
            edge_types(&format!(r#"[["EDGE_TYPE_ID","EDGE_TYPE"],[1,{value}]]"#)),
        );
        refused(
            number,
            processes(&format!(
                r#"[["PROCESS_ID","PROCESS_DATA"],[{value},{{}}]]"#
            )),
        );
    }
    refused(32, &deep);
    refused(34, &sound);
    refused(34, edges(&object));
    refused(34, rows(&object));
    refused(34, edges(&format!("[{object}]")));
    refused(34, data(&[&sound]));
    refused(34, counts("0", &object));
}

/// What is read lies up to 7 deep, and has no limit to meet.
#[test]
fn counted_from_the_skipped_value() {
    // Six are open around the cell.
    listed(
        rows(&format!("[1,2,3,4,[],{}]", nested("[", "", "]"))),
        &["edges 1 threads 0", "0 1 2 3 4"],
    );
}

#[test]
fn a_text_of_brackets() {
    refused(32, "[".repeat(32) + "^" + &"[".repeat((1 << 20) - 32));
    refused(
        32,
        r#"{"a":"#.repeat(33) + "^" + &r#"{"a":"#.repeat(100_000),
    );
}
