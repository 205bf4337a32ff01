//! Integers, ids and sums.

use super::*;

const TOP: &str = "18446744073709551615";

#[test]
fn integers() {
    for value in [
        "0",
        "1",
        "9",
        "10",
        TOP,
        "18446744073709551614",
        "9223372036854775808",
        r#""0x0""#,
        r#""0x1F""#,
        r#""0xffffffffffffffff""#,
        r#""0xFFFFFFFFFFFFFFFF""#,
        r#""0x00000000000000000000001""#,
        r#""0xAbCdEf""#,
        r#""\u0030\u0078\u0031""#,
        r#""0x0000""#,
    ] {
        accepted(version(value));
    }
    for marked in [
        "-^1",
        "-^0",
        "1.^0",
        "0.^5",
        "1e^3",
        "0e^0",
        "1E^3",
        "1e+^3",
        "1e-^3",
        "1844674407370955161^6",
        "2000000000000000000^0",
        "10000000000000000000000000000000000000^0",
        r#""0x^""#,
        r#""0X1F^""#,
        r#""1F^""#,
        r#""12^""#,
        r#""^""#,
        r#""0x+1^""#,
        r#""0x-1^""#,
        r#"" 0x1^""#,
        r#""0x1 ^""#,
        r#""0x10000000000000000^""#,
        r#""0xG^""#,
        r#""0x1.0^""#,
        r#""0x1_0^""#,
        r#""x1^""#,
        r#""00x1^""#,
        r#""0x0x1^""#,
        r#""-0x1^""#,
        r#""0x\u0000^""#,
        r#""0x１^""#,
        "nul^l",
        "tru^e",
        "fals^e",
        "[^]",
        "{^}",
        "[1^]",
        r#"{"a":1^}"#,
        r#""0x\uD800^""#,
    ] {
        refused(34, version(marked));
    }
}

/// A number is the longest beginning that is one: its refusal stands at its last
/// byte even where the next byte breaks the JSON.
#[test]
fn numbers_before_a_break() {
    for marked in [
        "1.^5x",
        "-^01",
        "-^1x",
        "1e^5.",
        "tru^ex",
        "nul^ll",
        "1.5^0.5",
        "[^]x",
        r#""^"x"#,
        "1844674407370955161^6x",
    ] {
        refused(34, version(marked));
    }
    for marked in ["1.^x", "1e^x", "-^x", "0^1", "1^x", "1.5e^x", "1^:"] {
        refused(31, version(marked));
    }
    refused(34, r#"{"MAJOR_VERSION":1.^5"#);
    refused(34, r#"{"MAJOR_VERSION":-^1"#);
    refused(35, rows("[^01"));
    refused(35, rows("[1,^0x"));
    refused(31, rows("[1^x"));
}

/// Each place where an integer is wanted.
#[test]
fn hexadecimal_everywhere() {
    let text = r#"{"MAJOR_VERSION":"0x1","MINOR_VERSION":"0x0",
        "EDGE_TYPES":[["EDGE_TYPE_ID","EDGE_TYPE"],["0x10","A"]],
        "SPECIAL_NODES":[["NODE_ID","NODE_NAME"],["0x7fffffff","B"]],
        "PROCESSES":[["PROCESS_ID","PROCESS_DATA"],["0xFFFFFFFFFFFFFFFF",
        {"INSTR_COUNT":"0x1f","INSTR_COUNT_PER_THREAD":["0xf",16],
        "EDGES":[["EDGE_ID","SOURCE_NODE_ID","TARGET_NODE_ID","EDGE_TYPE_ID","COUNT_PER_THREAD"],
        ["0xA","0x0B","0x00c","0xd",["0xe",15]]]}]]}"#;
    listed(
        text,
        &["edges 1 threads 2", "0 10 11 12 13", "0 15", "0 16"],
    );
}

/// Each key that wants an integer, and each column.
#[test]
fn wrong_kinds_by_place() {
    refused(34, object(&[r#""MAJOR_VERSION":0,"MINOR_VERSION":tru^e"#]));
    refused(
        34,
        edge_types(r#"[["EDGE_TYPE_ID","EDGE_TYPE"],["1^","A"]]"#),
    );
    refused(34, edge_types(r#"[["EDGE_TYPE_ID","EDGE_TYPE"],[1,^1]]"#));
    refused(
        34,
        special_nodes(r#"[["NODE_ID","NODE_NAME"],[nul^l,"A"]]"#),
    );
    refused(34, special_nodes(r#"[["NODE_ID","NODE_NAME"],[1,nul^l]]"#));
    refused(34, processes(r#"[["PROCESS_ID","PROCESS_DATA"],[-^1,{}]]"#));
    refused(34, processes(r#"[["PROCESS_ID","PROCESS_DATA"],[1,[^]]]"#));
    refused(34, processes(r#"[["PROCESS_ID","PROCESS_DATA"],[1,"^"]]"#));
    refused(34, counts("1.^0", "[]"));
    refused(34, counts("0", "^0"));
    refused(34, counts("0", "{^}"));
    refused(34, counts("0", "[nul^l]"));
    refused(34, counts("0", "[0,[^]]"));
    refused(34, counts("0", r#"["0^"]"#));
    refused(34, rows("[1.^0,1,1,1,[]]"));
    refused(34, rows("[1,tru^e,1,1,[]]"));
    refused(34, rows("[1,1,[^],1,[]]"));
    refused(34, rows("[1,1,1,{^},[]]"));
    refused(34, rows("[1,1,1,1,^0]"));
    refused(34, rows("[1,1,1,1,{^}]"));
    refused(34, rows("[1,1,1,1,[0,-^1]]"));
    refused(34, rows(r#"[1,1,1,1,["0x^"]]"#));
}

/// "An id outside 1 to 2,147,483,647".
#[test]
fn ids() {
    let types = |id: &str| edge_types(&format!(r#"[["EDGE_TYPE_ID","EDGE_TYPE"],[{id},"A"]]"#));
    let nodes = |id: &str| special_nodes(&format!(r#"[["NODE_ID","NODE_NAME"],[{id},"A"]]"#));
    for id in [
        "1",
        "2147483647",
        r#""0x1""#,
        r#""0x7FFFFFFF""#,
        r#""0x000000000000000000007fffffff""#,
    ] {
        accepted(types(id));
        accepted(nodes(id));
    }
    for marked in [
        "^0",
        "214748364^8",
        "1844674407370955161^5",
        r#""0x0^""#,
        r#""0x80000000^""#,
        r#""0xffffffffffffffff^""#,
    ] {
        refused(35, types(marked));
        refused(35, nodes(marked));
        refused(35, rows(&format!("[{marked},1,1,1,[]]")));
        refused(35, rows(&format!("[1,{marked},1,1,[]]")));
        refused(35, rows(&format!("[1,1,{marked},1,[]]")));
        refused(35, rows(&format!("[1,1,1,{marked},[]]")));
    }
    // What is no integer is of the wrong kind, and no id outside.
    for marked in ["-^1", "1844674407370955161^6", "1.^0", "nul^l"] {
        refused(34, types(marked));
        refused(34, rows(&format!("[1,1,1,{marked},[]]")));
    }
    listed(
        rows(r#"[2147483647,2147483647,"0x7fffffff",1,[]]"#),
        &["edges 1 threads 0", "0 2147483647 2147483647 2147483647 1"],
    );
    // PROCESS_ID is no id.
    for id in ["0", "2147483648", TOP] {
        refused(
            38,
            processes(&format!(r#"[["PROCESS_ID","PROCESS_DATA"],[{id},{{}}]]"#)) + "^",
        );
    }
}

/// "A table's own id repeated in it", as numbers.
#[test]
fn own_ids() {
    refused(
        36,
        edge_types(r#"[["EDGE_TYPE_ID","EDGE_TYPE"],[11,"A"],["0xB^","B"]]"#),
    );
    refused(
        36,
        edge_types(r#"[["EDGE_TYPE_ID","EDGE_TYPE"],[3,"A"],[1,"A"],[2,"C"],[^1,"D"]]"#),
    );
    refused(
        36,
        special_nodes(r#"[["NODE_ID","NODE_NAME"],["0x0a","A"],[1^0,"A"]]"#),
    );
    refused(36, rows("[7,1,1,1,[]],[8,1,1,1,[]],[^7,2,2,2,[]]"));
    // The same number in two tables, and those that aren't a table's own.
    let types = r#""EDGE_TYPES":[["EDGE_TYPE_ID","EDGE_TYPE"],[1,"A"]]"#;
    let nodes = r#""SPECIAL_NODES":[["NODE_ID","NODE_NAME"],[1,"A"]]"#;
    let process = of_edges(&format!("[{HEADER},[1,1,1,1,[]],[2,1,1,1,[]]]"));
    let processes =
        format!(r#""PROCESSES":[["PROCESS_ID","PROCESS_DATA"],[1,{process}],[1,{process}]]"#);
    listed(
        object(&[VERSION, types, nodes, &processes]),
        &[
            "edges 4 threads 0",
            "0 1 1 1 1",
            "0 2 1 1 1",
            "1 1 1 1 1",
            "1 2 1 1 1",
        ],
    );
}

/// "Per-thread counts that don't sum exactly to their INSTR_COUNT".
#[test]
fn sums() {
    let half = "9223372036854775808";
    accepted(counts("0", "[]"));
    listed(counts("0", "[0]"), &["edges 0 threads 1", "0 0"]);
    listed(
        counts(TOP, &format!("[{TOP}]")),
        &["edges 0 threads 1", "0 18446744073709551615"],
    );
    listed(
        counts(TOP, "[9223372036854775808,9223372036854775807]"),
        &[
            "edges 0 threads 2",
            "0 9223372036854775808",
            "0 9223372036854775807",
        ],
    );
    for (total, parts) in [
        ("1", "[]".to_string()),
        ("0", "[1]".to_string()),
        ("2", "[1]".to_string()),
        // 2^64 is not 0, and 2^65 - 1 not 2^64 - 1.
        ("0", format!("[{half},{half}]")),
        (TOP, format!("[{TOP},{TOP},1]")),
        ("18446744073709551614", format!("[{TOP},{TOP}]")),
    ] {
        refused(39, counts(total, &parts) + "^");
        refused(39, counts(total, &parts) + " \n^");
    }
    // The total may stand behind the counts, and each process has its own.
    let sound = object(&[
        r#""INSTR_COUNT_PER_THREAD":[1,2],"INSTR_COUNT":3"#,
        NO_EDGES,
    ]);
    let wrong = object(&[
        NO_EDGES,
        r#""INSTR_COUNT_PER_THREAD":[1,2],"INSTR_COUNT":4"#,
    ]);
    listed(data(&[&sound]), &["edges 0 threads 2", "0 1", "0 2"]);
    listed(
        data(&[&sound, &sound]),
        &["edges 0 threads 4", "0 1", "0 2", "1 1", "1 2"],
    );
    for both in [[&sound, &wrong], [&wrong, &sound]] {
        refused(39, data(&[both[0], both[1]]) + "^");
    }
}
