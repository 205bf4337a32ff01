//! What is JSON by RFC 8259, in a value that is skipped: the corner cases of
//! parsers. The place is the first byte with which no JSON text can go on, or
//! the text's length.

use super::*;

#[test]
fn values() {
    for value in [
        "null",
        "true",
        "false",
        "0",
        r#""""#,
        "[]",
        "{}",
        "[ ]",
        "{ }",
        "[1]",
        "[1,2]",
        "[[]]",
        "[{}]",
        r#"{"a":[]}"#,
        r#"{"":0}"#,
        r#"{"a":1,"b":1}"#,
        "[null,true,false]",
        "\t\r\n 1\t\r\n ",
        "[ \n1\t,\r2 ]",
        "{ \"a\" : 1 , \"b\" : 2 }",
    ] {
        accepted(skipped(value));
    }
}

#[test]
fn numbers() {
    for number in [
        "0",
        "-0",
        "9",
        "10",
        "-10",
        "0.0",
        "-0.0",
        "1.5",
        "1.50",
        "0e0",
        "0E0",
        "1e5",
        "1E5",
        "1e+5",
        "1e-5",
        "1e05",
        "1e000",
        "1.5e300",
        "123456789012345678901234567890",
        "1e999999",
        "-1e-999999",
        "0.00000000000000000000000000000000000000000000000001",
    ] {
        accepted(skipped(number));
        accepted(skipped(&format!("[{number}]")));
    }
}

#[test]
fn no_numbers() {
    for marked in [
        "0^1",
        "0^0",
        "-0^1",
        "-^",
        "-^x",
        "-^-1",
        "^+1",
        "^.5",
        "-^.5",
        "1.^",
        "1.^e5",
        "1.^x",
        "1e^",
        "1e^x",
        "1e+^",
        "1e-^x",
        "1e+^-1",
        "1e5^.5",
        "1.5^.5",
        "1^_000",
        "0^x1",
        "1e^.5",
        "^NaN",
        "^Infinity",
        "-^Infinity",
        "-^NaN",
        "1^a",
        "^'1'",
        "1 ^2",
        "1.^ 5",
        "^e5",
        "^\u{ff11}",
        "1^\u{661}",
    ] {
        refused(31, broken(marked));
        refused(31, broken(&format!("[{marked}")));
    }
}

/// The text of a skipped value up to a mark's byte: what stands behind must not
/// matter.
fn broken(value: &str) -> String {
    let text = skipped(value);
    match value.ends_with('^') {
        // It ends too soon.
        true => text[..=text.find('^').expect("marked")].to_string(),
        false => text,
    }
}

#[test]
fn words() {
    for marked in [
        "nul^}",
        "nul^",
        "^Nil",
        "n^il",
        "^True",
        "tru^x",
        "tru^E",
        "true^x",
        "fals^",
        "false^r",
        "null^l",
        "^NULL",
        "^undefined",
        "t^ rue",
        "true^true",
    ] {
        refused(31, broken(marked));
    }
}

#[test]
fn arrays() {
    for marked in [
        "[1,^]",
        "[^,1]",
        "[^,]",
        "[1,^,2]",
        "[1 ^2]",
        "[1^:2]",
        "[1^}",
        "[^}",
        "[1^;2]",
        "[\"a\"^:1]",
        "[1,^}",
        "[[]^[]]",
        "[1,2,^]",
        "[^// no comments\n]",
    ] {
        refused(31, broken(marked));
    }
    // The key above goes on behind it.
    refused(31, skipped("1^]"));
    refused(31, skipped("[1]^]"));
}

#[test]
fn objects() {
    for marked in [
        "{\"a\":1,^}",
        "{^,\"a\":1}",
        "{^,}",
        "{\"a\":1,^,\"b\":2}",
        "{\"a\"^}",
        "{\"a\"^,1}",
        "{\"a\":^}",
        "{\"a\":1 ^\"b\":2}",
        "{\"a\":1,\"b\"^}",
        "{^1:2}",
        "{^a:1}",
        "{^'a':1}",
        "{\"a\"^1}",
        "{\"a\":^:1}",
        "{\"a\":1^]",
        "{^]",
        "{^null:1}",
        "{^{}:1}",
        "{^[]:1}",
        "{\"a\":1^:2}",
        "{\"a\" ^= 1}",
        "{\"a\":1^;}",
        "{^/* no comments */}",
        "{\"a\":1,^1}",
    ] {
        refused(31, broken(marked));
    }
}

/// A text that ends too soon is refused at its length.
#[test]
fn ends() {
    for text in [
        "^",
        " \t\r\n^",
        "{^",
        "{ ^",
        "{\"^",
        "{\"a^",
        "{\"a\\^",
        "{\"a\\u^",
        "{\"a\\u00^",
        "{\"a\"^",
        "{\"a\":^",
        "{\"a\": ^",
        "{\"a\":[^",
        "{\"a\":[1,^",
        "{\"a\":1,^",
        "{\"a\":1^",
        "{\"a\":-^",
        "{\"a\":1.^",
        "{\"a\":1e^",
        "{\"a\":t^",
        "{\"a\":nul^",
        "{\"a\":null^",
        "[^",
        "[[^",
        "[1^",
        "t^",
        "\"^",
        "\"a^",
        "-^",
        "{\"a\":\"\\ud800^",
        "{\"a\":\"\\ud800\\^",
    ] {
        refused(31, text);
    }
}

/// Behind the text nothing but blanks.
#[test]
fn behind_the_text() {
    let text = object(&[VERSION, TYPES, NODES, NO_PROCESSES]);
    accepted(format!("{text} \t\r\n"));
    accepted(format!(" \t\r\n{text}"));
    for rest in [
        "^}",
        "^{}",
        "^,",
        "^0",
        " ^x",
        "\n^[",
        "^//",
        "^\0",
        "^\u{b}",
        "^\u{c}",
        "^\u{a0}",
        "^\u{2028}",
        "^#",
    ] {
        refused(31, format!("{text}{rest}"));
    }
}

/// Only four bytes are blanks.
#[test]
fn blanks() {
    for marked in [
        "^\u{b}1",
        "^\u{c}1",
        "1^\0",
        "^\u{85}1",
        "^\u{a0}1",
        "^\u{2003}1",
        "^\u{feff}1",
        "[^\u{b}]",
        "^\u{7f}",
    ] {
        refused(31, skipped(marked));
    }
}

/// "Implementations MUST NOT add a byte order mark".
#[test]
fn byte_order_marks() {
    let text = object(&[VERSION, TYPES, NODES, NO_PROCESSES]);
    refused(31, format!("^\u{feff}{text}"));
    refused(31, [b"^\xFE\xFF", text.as_bytes()].concat());
    refused(31, [b"^\xFF\xFE", text.as_bytes()].concat());
    refused(31, b"^\xEF\xBB\xBF");
    // UTF-16 of `{}`: a zero isn't JSON.
    refused(31, b"{^\0}\0");
    refused(31, b"^\0{\0}");
    // In a string it is a character as any other.
    accepted(skipped("\"\u{feff}\""));
}

/// "A JSON text is a serialized value": a top that is no object is JSON, but of
/// the wrong kind.
#[test]
fn any_value_may_be_the_text() {
    for marked in [
        "nul^l", "tru^e", "fals^e", "^0", "-^1", " ^5 ", "1.^5", "[^]", "[1^]", "\"^\"", "\"a^\"",
        "[{}^]", "\"0x1^\"", " [ ^] \n",
    ] {
        refused(34, marked);
    }
}
