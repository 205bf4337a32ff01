//! Transition tables, and the walk that a string of bits leads along one. Paper
//! 02, CR 7, and source document 000, section 3.5.

/// Refusal 14: the wanted number is above the lent list's length.
pub const SHORT_LIST: u8 = 14;
/// Refusal 40: the table itself.
pub const BAD_TABLE: u8 = 40;
/// Refusal 41: no row exists for an edge.
pub const NO_ROW: u8 = 41;
/// Refusal 42: the bits run out or match no row.
pub const NO_MATCH: u8 = 42;
/// Refusal 43: a row's list passes the wanted number.
pub const PAST_WANTED: u8 = 43;
/// Refusal 44: bits are left over once the wanted number is reached.
pub const BITS_LEFT: u8 = 44;

/// "a code has over 32 characters"
const LONGEST_CODE: usize = 32;

/// "row by row: edge, code length, code in ASCII (a number a character), list
/// length, list"
struct Row<'a> {
    edge: u64,
    code: &'a [u64],
    list: &'a [u64],
}

/// A length, that many numbers, and what is behind them. None where the numbers
/// end before.
fn counted(numbers: &[u64]) -> Option<(&[u64], &[u64])> {
    let (length, behind) = numbers.split_first()?;
    let length = usize::try_from(*length).ok()?;
    (length <= behind.len()).then(|| behind.split_at(length))
}

/// The rows of a table. None where "it ends inside a row".
fn rows(table: &[u64]) -> Option<Vec<Row<'_>>> {
    let mut rows = Vec::new();
    let mut rest = table;
    while let Some((edge, behind)) = rest.split_first() {
        let (code, behind) = counted(behind)?;
        let (list, behind) = counted(behind)?;
        let edge = *edge;
        rows.push(Row { edge, code, list });
        rest = behind;
    }
    Some(rows)
}

/// "a code has over 32 characters or one that isn't 0 or 1, a row's list is
/// empty"
fn is_bad(row: &Row) -> bool {
    let is_bit = |character: &u64| *character == u64::from(b'0') || *character == u64::from(b'1');
    row.code.len() > LONGEST_CODE || !row.code.iter().all(is_bit) || row.list.is_empty()
}

/// Two rows of "some edge", "where one code begins or equals the other".
fn clash(one: &Row, other: &Row) -> bool {
    one.edge == other.edge && (one.code.starts_with(other.code) || other.code.starts_with(one.code))
}

/// The rows of a table that isn't refused: each is looked at, and each with each.
fn sound_rows(table: &[u64]) -> Option<Vec<Row<'_>>> {
    let rows = rows(table)?;
    let clashes = |(place, row)| rows[..place].iter().any(|earlier| clash(earlier, row));
    let bad = rows.iter().any(is_bad) || rows.iter().enumerate().any(clashes);
    (!bad).then_some(rows)
}

/// Whether the bits begin with the whole code.
fn matches(row: &Row, bits: &[u8]) -> bool {
    let begun = row.code.iter().zip(bits);
    row.code.len() <= bits.len()
        && begun
            .into_iter()
            .all(|(code, bit)| *code == u64::from(*bit))
}

/// The edges behind the starting one. "The last edge in NEXT_EDGE_IDS becomes
/// the CURRENT_EDGE_ID for the subsequent table look-up. This is repeated until
/// the desired number of edge-ids is discovered."
fn edges(rows: &[Row], start: u64, bits: &[u8], wanted: u64) -> Result<Vec<u64>, u8> {
    let mut edges = Vec::new();
    let mut current = start;
    let mut bits = bits;
    while (edges.len() as u64) < wanted {
        let own: Vec<&Row> = rows.iter().filter(|row| row.edge == current).collect();
        if own.is_empty() {
            return Err(NO_ROW);
        }
        let row = own.into_iter().find(|row| matches(row, bits));
        let row = row.ok_or(NO_MATCH)?;
        bits = &bits[row.code.len()..];
        edges.extend_from_slice(row.list);
        if edges.len() as u64 > wanted {
            return Err(PAST_WANTED);
        }
        current = row.list[row.list.len() - 1];
    }
    match bits.is_empty() {
        true => Ok(edges),
        false => Err(BITS_LEFT),
    }
}

/// Walks, and puts the edges into the list, whose rest it leaves as it is. The
/// error is the refusal's number, and "A refusal changes nothing in the lent
/// list." Takes any table, bits and numbers.
pub fn walk(
    table: &[u64],
    start: u64,
    bits: &[u8],
    wanted: u64,
    list: &mut [u64],
) -> Result<(), u8> {
    if wanted > list.len() as u64 {
        return Err(SHORT_LIST);
    }
    let rows = sound_rows(table).ok_or(BAD_TABLE)?;
    let edges = edges(&rows, start, bits, wanted)?;
    list[..edges.len()].copy_from_slice(&edges);
    Ok(())
}
