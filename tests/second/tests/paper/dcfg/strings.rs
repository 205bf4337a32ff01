//! Strings: their escapes, their bytes, and that they are read by their decoded
//! characters.

use super::*;

/// A skipped string of these bytes.
fn string(bytes: &[u8]) -> Vec<u8> {
    let text = skipped("\"@\"");
    let at = text.find('@').expect("put there");
    [&text.as_bytes()[..at], bytes, &text.as_bytes()[at + 1..]].concat()
}

#[test]
fn escapes() {
    for inside in [
        r#"\""#,
        r"\\",
        r"\/",
        r"\b\f\n\r\t",
        r"\u0000",
        r"\u001F",
        r"\u007f",
        r"\uABCD",
        r"\uabcd",
        r"\uFfFf",
        r"\\u12",
        r"\u00220",
        "/",
        "'",
        "\u{7f}",
        r"\\\\",
    ] {
        accepted(string(inside.as_bytes()));
    }
    for marked in [
        r"\^'",
        r"\^x41",
        r"\^U0041",
        r"\^0",
        r"\^a",
        r"\^v",
        r"\^e",
        r"\^ ",
        r"\^1",
        r"\^B",
        "\\^\n",
        r"\\\^8",
        r"\u^g000",
        r"\u0^g00",
        r"\u00^g0",
        r"\u000^g",
        r"\u^ 041",
        r"\u^+041",
        r"\u00^",
        r"\u000^ ",
        r"\u^{41}",
        "\\u00^\u{660}0",
        r"\u^-041",
        r"\u0^x41",
    ] {
        refused(31, string(marked.as_bytes()));
    }
}

#[test]
fn control_characters() {
    for byte in 0..0x20 {
        refused(31, string(&[b'a', b'^', byte]));
    }
    for byte in 0x20..0x80 {
        if !b"\"\\^".contains(&byte) {
            accepted(string(&[byte]));
        }
    }
}

/// A surrogate may be escaped alone: the grammar has it.
#[test]
fn lone_surrogates() {
    for inside in [
        r"\uD800",
        r"\uDBFF",
        r"\uDC00",
        r"\uDFFF",
        r"\uD800a",
        r"\uD800\n",
        r"\uD800\uD800",
        r"\uDC00\uD800",
        r"\uD83D\uDE00",
        r"\ud83d\ude00",
        r"\uD83D\u0041",
        r"\uD83D\uD83D\uDE00",
    ] {
        accepted(string(inside.as_bytes()));
    }
}

#[test]
fn bytes_of_utf8() {
    for bytes in [
        &b"\xC2\x80"[..],
        b"\xDF\xBF",
        b"\xE0\xA0\x80",
        b"\xE0\xBF\xBF",
        b"\xE1\x80\x80",
        b"\xEC\xBF\xBF",
        b"\xED\x80\x80",
        b"\xED\x9F\xBF",
        b"\xEE\x80\x80",
        b"\xEF\xBF\xBF",
        b"\xF0\x90\x80\x80",
        b"\xF1\x80\x80\x80",
        b"\xF3\xBF\xBF\xBF",
        b"\xF4\x80\x80\x80",
        b"\xF4\x8F\xBF\xBF",
    ] {
        accepted(string(bytes));
    }
    for marked in [
        // Continuation bytes alone.
        &b"^\x80"[..],
        b"^\xBF",
        b"\xC3\xA4^\xA4",
        // Overlong forms.
        b"^\xC0\x80",
        b"^\xC1\xBF",
        b"\xE0^\x80\x80",
        b"\xE0^\x9F\xBF",
        b"\xF0^\x80\x80\x80",
        b"\xF0^\x8F\xBF\xBF",
        // Surrogates.
        b"\xED^\xA0\x80",
        b"\xED^\xBF\xBF",
        // Above 10FFFF.
        b"\xF4^\x90\x80\x80",
        b"\xF4^\xBF\x80\x80",
        b"^\xF5\x80\x80\x80",
        b"^\xF8\x80\x80\x80\x80",
        b"^\xFE",
        b"^\xFF",
        // Cut short by another byte.
        b"\xC3^a",
        b"\xC3^\xC3",
        b"\xE1\x80^a",
        b"\xE1^a",
        b"\xF1\x80\x80^a",
        b"\xF1\x80^\xC0",
        b"\xF1^\x7F",
        b"\xC3^",
        b"\xE1\x80^",
        b"\xF1\x80\x80^",
        b"\xC3^\\n",
    ] {
        refused(31, string(marked));
    }
    // Outside a string no such byte stands.
    refused(31, skipped("^\u{e4}"));
    refused(31, b"{^\xC3\xA4}");
    refused(31, b"^\x80");
    // Cut short by the text's end.
    refused(31, b"\"\xC3^");
    refused(31, b"\"\xF1\x80\x80^");
}

/// Keys are the same by their decoded characters.
#[test]
fn repeated_by_characters() {
    for (first, second) in [
        ("a", "a"),
        ("", ""),
        ("a", r"\u0061"),
        ("/", r"\/"),
        (r"\n", r"\u000A"),
        (r"\u00e4", "\u{e4}"),
        (r"\u00E4", r"\u00e4"),
        (r"\uD83D\uDE00", "\u{1f600}"),
        (r"\uD800", r"\ud800"),
        (r"\u0022", r#"\""#),
        (r"\\", r"\u005C"),
        (r"\t", r"\u0009"),
        (r"\uD83D\uD83D\uDE00", "\\uD83D\u{1f600}"),
        (r"\b\f\r", r"\u0008\u000c\u000d"),
        (r"\u0000", r"\u0000"),
    ] {
        refused(33, skipped(&format!(r#"{{"{first}":1,"{second}^":2}}"#)));
    }
    for (first, second) in [
        ("a", "A"),
        ("a", "a "),
        ("a", r"\\u0061"),
        (r"\uD800", r"\uD801"),
        (r"\uD800", r"\uFFFD"),
        ("\u{e4}", "a\u{308}"),
        (r"\uDE00\uD83D", r"\uD83D\uDE00"),
        (r"\u0000", ""),
        ("\u{1f600}", r"\uD83D"),
        (r"\uD83D\uDE00", r"\uDE00"),
        (r"\uDBFF\uDC00", r"\uD800\uDC00"),
        ("\u{212b}", "\u{c5}"),
        ("a", "a\u{200b}"),
    ] {
        accepted(skipped(&format!(r#"{{"{first}":1,"{second}":2}}"#)));
    }
}

/// Keys, columns and "0x" are known by their decoded characters.
#[test]
fn known_by_characters() {
    let types =
        r#""\u0045DGE_TYPES":[["EDGE_TYPE\u005fID","EDGE\u005FTYPE"],["\u0030x\u0031F","x"]]"#;
    accepted(object(&[VERSION, types, NODES, NO_PROCESSES]));
    refused(
        33,
        object(&[VERSION, types, NODES, NO_PROCESSES, r#""EDGE_TYPES^":0"#]),
    );
    refused(
        33,
        edge_types(r#"[["EDGE_TYPE_ID","EDGE_TYPE","\u0045DGE_TYPE^"]]"#),
    );
    // Case counts.
    refused(
        38,
        object(&[
            r#""major_version":1,"MINOR_VERSION":0"#,
            TYPES,
            NODES,
            NO_PROCESSES,
        ]) + "^",
    );
}
