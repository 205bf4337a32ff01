//! The source's two examples of a walk (document 000, section 3.5), and the
//! sentences of Paper 02, CR 7.

use second::transitions::walk;

/// The characters of bits.
const O: u64 = 48;
const I: u64 = 49;
const MAX: u64 = u64::MAX;

/// What the lent list holds before.
const OLD: u64 = 77;

/// The source's table.
#[rustfmt::skip]
const TABLE: [u64; 34] = [
    123, 1, O, 1, 124,
    123, 1, I, 1, 125,
    124, 0, 1, 456,
    125, 1, O, 1, 543,
    125, 2, I, O, 2, 542, 549,
    125, 2, I, I, 2, 540, 541,
    9,
];

/// It ends before the 9, which begins a row that isn't there.
fn table() -> &'static [u64] {
    &TABLE[..33]
}

/// The walk with a list one longer than wanted lists these edges.
fn lists(table: &[u64], start: u64, bits: &str, edges: &[u64]) {
    let mut list = vec![OLD; edges.len() + 1];
    let wanted = edges.len() as u64;
    let answer = walk(table, start, bits.as_bytes(), wanted, &mut list);
    assert_eq!(answer, Ok(()), "{start} {bits} {edges:?}");
    let mut expected = edges.to_vec();
    expected.push(OLD);
    assert_eq!(list, expected);
}

/// The walk with a list of this length is refused, and the list unchanged.
fn refuses(table: &[u64], start: u64, bits: &str, wanted: u64, length: usize, number: u8) {
    let mut list = vec![OLD; length];
    let answer = walk(table, start, bits.as_bytes(), wanted, &mut list);
    assert_eq!(answer, Err(number), "{table:?} {start} {bits} {wanted}");
    assert!(list.iter().all(|number| *number == OLD));
}

/// The walk over the source's table from 123.
fn source_refuses(bits: &str, wanted: u64, number: u8) {
    refuses(table(), 123, bits, wanted, wanted as usize, number);
}

/// A table that is refused whatever the walk, and first of all but 14.
fn bad(table: &[u64]) {
    refuses(table, 5, "", 0, 0, 40);
    refuses(table, 999, "", 1, 1, 40);
    refuses(table, 999, "01", 0, 4, 40);
    refuses(table, 999, "", 1, 0, 14);
}

/// A table that isn't.
fn good(table: &[u64]) {
    lists(table, 999, "", &[]);
}

fn code(length: usize) -> Vec<u64> {
    (0..length).map(|place| O + place as u64 % 2).collect()
}

/// A row, with its code's and its list's own lengths.
fn row(edge: u64, code: &[u64], list: &[u64]) -> Vec<u64> {
    let mut row = vec![edge, code.len() as u64];
    row.extend(code);
    row.push(list.len() as u64);
    row.extend(list);
    row
}

fn rows(rows: &[(u64, &[u64], &[u64])]) -> Vec<u64> {
    let each = rows.iter().map(|(edge, code, list)| row(*edge, code, list));
    each.flatten().collect()
}

#[test]
fn the_first_example() {
    lists(table(), 123, "110", &[125, 542, 549]);
}

#[test]
fn the_second_example() {
    lists(table(), 123, "0", &[124, 456]);
}

#[test]
fn other_walks_of_the_source() {
    lists(table(), 123, "111", &[125, 540, 541]);
    lists(table(), 123, "10", &[125, 543]);
    lists(table(), 124, "", &[456]);
    lists(table(), 125, "0", &[543]);
}

#[test]
fn more_wanted_than_the_list_has_is_14() {
    refuses(table(), 123, "110", 3, 2, 14);
    refuses(table(), 123, "110", 1, 0, 14);
    refuses(table(), 123, "110", MAX, 3, 14);
    refuses(table(), 123, "110", 1 << 32, 3, 14);
    refuses(&[], 123, "", 1, 0, 14);
}

#[test]
fn a_list_as_long_as_wanted_is_enough() {
    let mut list = [OLD; 3];
    assert_eq!(walk(table(), 123, b"110", 3, &mut list), Ok(()));
    assert_eq!(list, [125, 542, 549]);
}

#[test]
fn a_table_that_ends_inside_a_row_is_40() {
    bad(&TABLE);
    for end in 1..33 {
        let whole = [5, 10, 14, 19, 26].contains(&end);
        match whole {
            true => good(&TABLE[..end]),
            false => bad(&TABLE[..end]),
        }
    }
    bad(&[5, 0]);
    bad(&[5, 0, 2, 6]);
    bad(&[5, 3, O, O]);
}

#[test]
fn lengths_near_the_top_are_40() {
    for length in [
        MAX,
        MAX - 1,
        MAX - 2,
        MAX - 3,
        1 << 63,
        1 << 32,
        (1 << 32) + 1,
    ] {
        bad(&[5, length, O, 1, 6]);
        bad(&[5, 1, O, length, 6]);
        bad(&[5, 0, length, 6]);
    }
}

#[test]
fn codes_have_32_characters_at_most() {
    good(&row(5, &code(32), &[6]));
    bad(&row(5, &code(33), &[6]));
    bad(&row(5, &code(64), &[6]));
    let long = row(5, &code(32), &[6]);
    let bits = "01".repeat(16);
    lists(&long, 5, &bits, &[6]);
    refuses(&long, 5, &bits[..31], 1, 1, 42);
    refuses(&long, 5, &(bits + "0"), 1, 1, 44);
}

#[test]
fn characters_are_0_and_1_in_ascii() {
    for other in [0, 1, 47, 50, 48 + 256, 49 + (1 << 32), 48 + (1 << 63), MAX] {
        bad(&[5, 1, other, 1, 6]);
        bad(&[5, 3, O, I, other, 1, 6]);
        bad(&[5, 2, other, I, 1, 6]);
    }
}

#[test]
fn an_empty_list_is_40() {
    bad(&[5, 1, O, 0]);
    bad(&[5, 0, 0]);
    bad(&[5, 1, O, 1, 6, 7, 1, O, 0]);
    bad(&[7, 1, O, 0, 5, 1, O, 1, 6]);
}

#[test]
fn a_code_that_begins_or_equals_another_of_its_edge_is_40() {
    let pairs: [(&[u64], &[u64]); 6] = [
        (&[O], &[O]),
        (&[O], &[O, I]),
        (&[I, O], &[I, O, O, O, I]),
        (&[], &[I]),
        (&[], &[]),
        (&[I, I, O], &[I, I, O]),
    ];
    for (one, other) in pairs {
        bad(&rows(&[(5, one, &[6]), (5, other, &[6])]));
        bad(&rows(&[(5, other, &[6]), (5, one, &[7])]));
        bad(&rows(&[(5, other, &[6]), (8, &[], &[5]), (5, one, &[7])]));
        // Of two edges.
        good(&rows(&[(5, one, &[6]), (6, other, &[6])]));
    }
    good(&rows(&[(5, &[O], &[6]), (5, &[I], &[6])]));
    good(&rows(&[(5, &[O, I], &[6]), (5, &[O, O], &[6])]));
    good(&rows(&[(5, &[I, I, I], &[6]), (5, &[I, O], &[6])]));
    let (long, mut other) = (code(32), code(32));
    bad(&rows(&[(5, &long, &[6]), (5, &other, &[6])]));
    other[31] = O;
    good(&rows(&[(5, &long, &[6]), (5, &other, &[6])]));
    bad(&rows(&[
        (5, &long, &[6]),
        (5, &other, &[6]),
        (5, &long[..31], &[6]),
    ]));
}

#[test]
fn a_row_that_no_walk_reaches_is_tested() {
    let mut faulty = table().to_vec();
    faulty.extend([1000, 1, 2, 1, 5]);
    refuses(&faulty, 123, "110", 3, 3, 40);
    refuses(&faulty, 123, "110", 3, 2, 14);
}

#[test]
fn an_edge_without_row_is_41() {
    refuses(table(), 9, "0", 1, 1, 41);
    refuses(table(), 9, "", 1, 1, 41);
    refuses(&[], 0, "", 1, 1, 41);
    source_refuses("0", 3, 41);
    source_refuses("01", 3, 41);
    source_refuses("110", 4, 41);
    // 542 stands inside a list and needs no row, and so does the last edge.
    lists(table(), 123, "110", &[125, 542, 549]);
}

#[test]
fn bits_that_run_out_or_match_no_row_are_42() {
    source_refuses("", 1, 42);
    source_refuses("1", 2, 42);
    source_refuses("11", 3, 42);
    source_refuses("2", 1, 42);
    source_refuses("x10", 3, 42);
    source_refuses("1\u{1}0", 3, 42);
    // The list would pass the wanted number, but nothing matches.
    source_refuses("11", 2, 42);
    // Two rows whose codes' first characters tell them apart: the code is read whole.
    let two = rows(&[(5, &[O, O], &[6]), (5, &[I, I], &[7])]);
    refuses(&two, 5, "01", 1, 1, 42);
    lists(&two, 5, "00", &[6]);
    // The only row of an edge is read whole, too.
    refuses(&row(5, &[O], &[6]), 5, "", 1, 1, 42);
    refuses(&row(5, &[O], &[6]), 5, "1", 1, 1, 42);
}

#[test]
fn a_list_that_passes_the_wanted_number_is_43() {
    source_refuses("110", 2, 43);
    // Before 44.
    source_refuses("1101", 2, 43);
    refuses(&row(5, &[], &[6, 7, 8]), 5, "", 2, 2, 43);
    refuses(&row(5, &[], &[6, 7, 8]), 5, "", 2, 100, 43);
}

#[test]
fn bits_left_over_are_44() {
    source_refuses("1101", 3, 44);
    source_refuses("00", 2, 44);
    source_refuses("00", 1, 44);
    // Whatever they are.
    source_refuses("0x", 2, 44);
    source_refuses("0\0", 2, 44);
}

#[test]
fn nothing_wanted_needs_no_row() {
    lists(table(), 123, "", &[]);
    lists(table(), 999, "", &[]);
    lists(&[], MAX, "", &[]);
    source_refuses("0", 0, 44);
    refuses(&[], 999, "x", 0, 3, 44);
}

#[test]
fn an_empty_code_reads_nothing() {
    let ring = rows(&[(5, &[], &[6]), (6, &[], &[7, 5])]);
    lists(&ring, 5, "", &[6, 7, 5, 6, 7, 5, 6]);
    refuses(&ring, 5, "", 2, 2, 43);
    refuses(&ring, 5, "0", 3, 3, 44);
    lists(&row(5, &[], &[5]), 5, "", &[5; 1000]);
}

#[test]
fn edges_are_any_numbers() {
    let top = rows(&[
        (0, &[I], &[MAX]),
        (MAX, &[O], &[MAX - 1, 0]),
        (MAX, &[I], &[1 << 31]),
    ]);
    lists(&top, 0, "101", &[MAX, MAX - 1, 0, MAX]);
    lists(&top, MAX, "1", &[1 << 31]);
    // Numbers that agree in their low 32 bits are different edges.
    let wide = rows(&[(5, &[O], &[6]), (5 + (1 << 32), &[O], &[7])]);
    lists(&wide, 5, "0", &[6]);
    lists(&wide, 5 + (1 << 32), "0", &[7]);
}

#[test]
fn rows_come_in_any_order() {
    let mut reversed = row(125, &[I, I], &[540, 541]);
    reversed.extend(row(125, &[I, O], &[542, 549]));
    reversed.extend(row(123, &[I], &[125]));
    reversed.extend(row(125, &[O], &[543]));
    reversed.extend(row(123, &[O], &[124]));
    lists(&reversed, 123, "110", &[125, 542, 549]);
    lists(&reversed, 123, "10", &[125, 543]);
}
