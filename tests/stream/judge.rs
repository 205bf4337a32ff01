//! Which states and rows are sound, by docs/STREAM.md: a second reading of that
//! page, over the numbers that a C program holds.

use second::order::Order;
use second::replay::TABLE;

/// Where the parts of a state stand.
pub const ORDER: usize = 0;
const OFFSET: usize = 1;
const BUFFER_SIZE: usize = 2;
const SKIP: usize = 3;
const COUNT: usize = 4;
const STAGE: usize = 5;
const THREADS: usize = 6;
const DEPTH: usize = 7;
pub const ROWS: usize = 9;
const RECORDS: usize = 10;
const BUFFERS: usize = 11;
pub const OVER: usize = 12;
const ANSWER: usize = 13;
const HELD: usize = 274;
pub const ROW: usize = 306;
pub const INDEX: usize = 370;

/// The numbers of a row of the table.
pub const WIDTH: usize = 6;

/// The numbers of the refusals.
const REFUSALS: [(u64, u64); 4] = [(1, 20), (22, 22), (30, 39), (40, 44)];

/// Whether these numbers stand for a state at all.
pub fn stands(state: &[u64]) -> bool {
    let answer = state[ANSWER];
    let known = REFUSALS
        .iter()
        .any(|(low, high)| (*low..=*high).contains(&answer));
    // A refusal has a place, and no counts.
    let none = state[ANSWER + 2..ANSWER + 5] == [0; 3];
    state[ORDER] <= 1
        && state[STAGE] <= 4
        && state[THREADS] <= 65536
        && state[OVER] <= 1
        && (answer == 0 || (known && none))
        && state[HELD..ROW].iter().all(|byte| *byte <= 255)
}

/// So many rows from a place on: four of 16 bits in each number, the first lowest.
fn rows_from(state: &[u64], place: usize, count: usize) -> Vec<u64> {
    (0..count)
        .map(|row| state[place + row / 4] >> (16 * (row % 4)) & 0xFFFF)
        .collect()
}

pub fn sound(state: &[u64]) -> bool {
    match (state[OVER], state[OFFSET] < 32) {
        (1, _) => ended(state),
        (_, true) => state[COUNT] == state[OFFSET],
        _ => held(state) && places(state) && counts(state) && names(state),
    }
}

fn ended(state: &[u64]) -> bool {
    let offset = u128::from(state[OFFSET]);
    let [number, first, second, third, fourth] =
        [0, 1, 2, 3, 4].map(|index| u128::from(state[ANSWER + index]));
    match number {
        0 => {
            let (rows, buffers, records, open) = (first, second, third, fourth);
            rows <= 1024 && open <= 256 && buffers <= records && 32 + 8 * records <= offset
        }
        1..=13 | 19 | 20 => first <= offset,
        _ => false,
    }
}

fn held(state: &[u64]) -> bool {
    let first = state[HELD];
    let function = match state[ORDER] == Order::Little as u64 {
        true => first % 2 == 0,
        false => first < 128,
    };
    let family = if function { 8 } else { 16 };
    state[COUNT] == 0 || (state[COUNT] < family && state[SKIP] == 0)
}

fn places(state: &[u64]) -> bool {
    let [offset, size, skip, count, buffers] =
        [OFFSET, BUFFER_SIZE, SKIP, COUNT, BUFFERS].map(|place| u128::from(state[place]));
    let front = state[STAGE] == 0;
    if offset == 32 {
        return front && count == 0 && skip == 0 && buffers == 0;
    }
    if size < 64 {
        return false;
    }
    let (whole, rest) = ((offset - 32) / size, (offset - 32) % size);
    let begun = buffers == whole + 1 && rest > 0;
    match (front, skip) {
        (true, 0) => buffers == whole && count == rest,
        (true, _) => begun && skip == size - rest,
        (false, _) => begun && skip <= size - rest && count < rest + skip,
    }
}

fn counts(state: &[u64]) -> bool {
    let [offset, count, records] = [OFFSET, COUNT, RECORDS].map(|place| u128::from(state[place]));
    32 + count + 8 * records <= offset
        && state[BUFFERS] <= state[RECORDS]
        && state[DEPTH] <= 256
        && state[ROWS] <= 1024
}

fn names(state: &[u64]) -> bool {
    let (depth, rows) = (state[DEPTH] as usize, state[ROWS] as usize);
    let below = |numbers: Vec<u64>| numbers.iter().all(|row| *row < state[ROWS]);
    below(rows_from(state, ROW, depth)) && below(rows_from(state, INDEX, rows))
}

/// Whether the rows beside a sound state that goes on are sound.
pub fn rows_sound(state: &[u64], table: &[u64]) -> bool {
    if state[OFFSET] < 32 {
        return true;
    }
    assert!(table.len() >= TABLE, "a whole table");
    let (depth, rows) = (state[DEPTH] as usize, state[ROWS] as usize);
    let row = |number: u64| &table[WIDTH * number as usize..][..WIDTH];
    let calls = rows_from(state, ROW, depth);
    let open = |number: u64| calls.iter().filter(|row| **row == number).count();
    let even = (0..rows as u64).all(|number| {
        let [id, entered, closed, backward, abandoned, _] = *row(number) else {
            unreachable!("six numbers");
        };
        let left = u128::from(closed) + u128::from(abandoned) + open(number) as u128;
        id < 1 << 28 && entered >= 1 && u128::from(entered) == left && backward <= closed
    });
    let entries: u128 = (0..rows as u64)
        .map(|number| u128::from(row(number)[1]))
        .sum();
    let ids: Vec<u64> = rows_from(state, INDEX, rows)
        .iter()
        .map(|number| row(*number)[0])
        .collect();
    even && entries <= u128::from(state[RECORDS]) && ids.windows(2).all(|pair| pair[0] < pair[1])
}
