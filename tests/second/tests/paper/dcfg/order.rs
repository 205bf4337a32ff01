//! "The first in reading order is given (a value's or key's at its last byte,
//! ties as named)"; "then, at the end".

use super::*;

/// Whatever the columns' order.
#[test]
fn by_bytes() {
    refused(34, special_nodes(r#"[["NODE_NAME","NODE_ID"],[^5,0]]"#));
    refused(35, special_nodes(r#"[["NODE_ID","NODE_NAME"],[^0,5]]"#));
    refused(
        35,
        edges(
            r#"[["EDGE_TYPE_ID","COUNT_PER_THREAD","EDGE_ID","TARGET_NODE_ID","SOURCE_NODE_ID"],[^0,5,-1,0,0]]"#,
        ),
    );
    refused(
        34,
        edges(
            r#"[["EDGE_TYPE_ID","COUNT_PER_THREAD","EDGE_ID","TARGET_NODE_ID","SOURCE_NODE_ID"],[1,^5,-1,0,0]]"#,
        ),
    );
    refused(
        35,
        edges(r#"[["EDGE_TYPE_ID","Y","EDGE_ID","TARGET_NODE_ID","SOURCE_NODE_ID"],[1,5,9,^0,0]]"#),
    );
    // Whatever the keys' order.
    refused(34, data(&[r#"{"EDGES":^5,"INSTR_COUNT":-1}"#]));
    refused(34, data(&[r#"{"INSTR_COUNT":-^1,"EDGES":5}"#]));
}

/// A value is judged at its last byte, so what lies within comes first.
#[test]
fn inner_before_outer() {
    refused(33, version(r#"[{"a":1,"a^":1}]"#));
    refused(31, version("[1,^]"));
    refused(34, version(r#"[{"a":1}^]"#));
    refused(34, version("[1^],"));
    // A table of the wrong kind holds no wrong kinds.
    refused(34, edge_types(r#"{"EDGE_TYPE_ID":[0,null]^}"#));
}

/// Of a value that isn't finished no kind is wrong.
#[test]
fn unfinished() {
    refused(31, r#"{"MAJOR_VERSION":[1,2^"#);
    refused(31, r#"{"MAJOR_VERSION":[1,2^x"#);
    refused(31, r#"{"MAJOR_VERSION":"abc^"#);
    refused(31, r#"{"MAJOR_VERSION":tr^"#);
    refused(31, "[1,2^");
    refused(34, r#"{"EDGE_TYPES":[nul^l"#);
    refused(34, r#"{"EDGE_TYPES":[["EDGE_TYPE_ID"],["A^""#);
    refused(35, r#"{"EDGE_TYPES":[["EDGE_TYPE_ID"],[^0"#);
    refused(36, r#"{"EDGE_TYPES":[["EDGE_TYPE_ID"],[1],[^1"#);
    refused(33, r#"{"EDGE_TYPES":[["A","A^""#);
    refused(33, r#"{"MAJOR_VERSION":[{"a":1,"a^""#);
}

/// The earlier of two, each way round.
#[test]
fn two_faults() {
    let deep = "[".repeat(32) + "[]" + &"]".repeat(32);
    let marked = "[".repeat(32) + "^[]" + &"]".repeat(32);
    let double = r#"{"a":1,"a":2}"#;
    let parts = |first: &str, second: &str| format!(r#"{{"X":{first},"MAJOR_VERSION":{second}"#);
    refused(32, parts(&marked, double));
    refused(33, parts(r#"{"a":1,"a^":2}"#, &deep));
    refused(33, parts(r#"{"a":1,"a^":2}"#, "-1"));
    refused(32, parts(&marked, "-1"));
    refused(34, parts("1", "-^1,}"));
    refused(31, parts("^}", "-1"));
    refused(35, rows("[^0,0,-1,1,[]]"));
    refused(34, rows("[-^1,0,0,1,[]]"));
    refused(36, rows("[1,1,1,1,[]],[^1,0,1,1,[]]"));
    refused(35, rows("[1,1,1,1,[]],[2,^0,1,1,[]],[1,1,1,1,[]]"));
    // An id outside is refused the first time, so 35 and 36 never meet.
    refused(35, rows("[^0,1,1,1,[]],[0,1,1,1,[]]"));
}

/// 38 and 39 are given only where nothing else is.
#[test]
fn at_the_end() {
    // Process 0 doesn't sum, or lacks EDGES; something else is wrong behind it.
    let unequal = object(&[r#""INSTR_COUNT":1,"INSTR_COUNT_PER_THREAD":[]"#, NO_EDGES]);
    let lacking = object(&[r#""INSTR_COUNT":0,"INSTR_COUNT_PER_THREAD":[]"#]);
    for early in [&unequal, &lacking] {
        refused(34, data(&[early, "nul^l"]));
        refused(33, data(&[early, r#"{"a":1,"a^":2}"#]));
        refused(31, data(&[early, "^"]));
        refused(31, data(&[early]) + "^}");
        refused(35, data(&[early, &of_edges(&format!("[{HEADER},[^0"))]));
    }
    // 38 is named before 39, whichever process comes first.
    refused(39, data(&[&unequal]) + "^");
    refused(38, data(&[&lacking]) + "^");
    refused(38, data(&[&unequal, &lacking]) + "^");
    refused(38, data(&[&lacking, &unequal]) + "^");
    refused(
        38,
        object(&[&format!(
            r#""PROCESSES":[["PROCESS_ID","PROCESS_DATA"],[1,{unequal}]]"#
        )]) + "^",
    );
    refused(38, object(&[]) + " ^");
    // In a text that isn't JSON nothing is missing.
    refused(31, "{^");
}
