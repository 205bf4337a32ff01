//! States that a stream left, damaged number by number, and their rows: 22 where
//! the page says so, and then nothing changes; else the call goes on, and what it
//! leaves is sound again.

use crate::judge::{self, INDEX, OVER, ROW, ROWS, WIDTH};
use crate::proved::{Proved, MORE};
use crate::streaming::Streaming;
use harness::counts::Table;
use harness::proved::{self, Told};
use logs::inputs::Input;
use logs::random::Random;
use second::replay::TABLE;
use second::stream::Answer;

/// What is counted of the calls with damaged numbers.
const CALLS: [&str; 6] = [
    "22: no state",
    "22: unsound state",
    "an ended stream's own answer",
    "22: unsound rows",
    "more",
    "ended by the call",
];

/// What a number is damaged to: these, and some near it.
const VALUES: [u64; 9] = [0, 1, 31, 32, 255, 256, 65536, 1 << 28, u64::MAX];
/// The scalars of a state, and how many others of it and of the rows are tried.
const SCALARS: usize = 18;
const OTHERS: usize = 12;

const UNSOUND: Told = Told {
    answer: 22,
    counts: [0; 4],
    place: 0,
};

pub struct Damage {
    pub calls: Table,
    table: Vec<u64>,
}

impl Damage {
    pub fn new() -> Damage {
        Damage {
            calls: Table::counting("calls with damaged states", "calls", CALLS),
            table: vec![1; TABLE],
        }
    }

    /// Feeds some of a log, and tries what was left, whole and damaged.
    pub fn of(&mut self, random: &mut Random, input: &Input) -> Result<(), String> {
        let log = input.log();
        let mut stream = Proved::start(input.order);
        let cut = random.index(log.len() + 1);
        let answer = stream.feed(&log[..cut], &mut self.table);
        if answer == Answer::More && random.once_in(8) {
            stream.end(&mut self.table);
        }
        let (state, table) = (stream.state, self.table.clone());
        let rest = &log[cut..cut + random.index((log.len() - cut).min(40) + 1)];
        self.call(&state, &table, rest)?;
        for place in 0..SCALARS {
            for value in near(random, state[place]) {
                let mut state = state.clone();
                state[place] = value;
                self.call(&state, &table, rest)
                    .map_err(|text| format!("{place} is {value}: {text}"))?;
            }
        }
        for _ in 0..OTHERS {
            let (mut state, mut table) = (state.clone(), table.clone());
            let rows = (state[ROWS] as usize).clamp(1, 1024);
            match random.below(4) {
                0 => damage(random, &mut state[ROW..], 75),
                1 => damage(random, &mut state[INDEX..], rows.div_ceil(4)),
                2 => damage(random, &mut state[SCALARS..], 300),
                _ => damage(random, &mut table, WIDTH * rows),
            }
            self.call(&state, &table, rest)?;
        }
        Ok(())
    }

    /// A read, or the end where there is none, of this state beside this table.
    fn call(&mut self, before: &[u64], rows: &[u64], read: &[u8]) -> Result<(), String> {
        let (mut state, mut table) = (before.to_vec(), rows.to_vec());
        let told = match read.is_empty() {
            true => proved::stream_end(&mut state, &mut table),
            false => proved::stream_feed(&mut state, read, &mut table),
        };
        let same = state == before && table == rows;
        let (row, right) = if !judge::stands(before) {
            (0, same && told == UNSOUND)
        } else if !judge::sound(before) {
            (1, same && told == UNSOUND)
        } else if before[OVER] == 1 {
            (2, same && told.answer != MORE && told != UNSOUND)
        } else if !judge::rows_sound(before, rows) {
            (3, same && told == UNSOUND)
        } else {
            let open = state[OVER] == 0;
            let again = judge::stands(&state) && judge::sound(&state);
            let again = again && (!open || judge::rows_sound(&state, &table));
            (
                if open { 4 } else { 5 },
                again && told.answer != 22 && open == (told.answer == MORE),
            )
        };
        self.calls.count(row, 0);
        match right {
            true => Ok(()),
            false => Err(format!(
                "{}: {told:?}, a read of {}",
                CALLS[row],
                read.len()
            )),
        }
    }
}

/// Some values near this one, and others.
fn near(random: &mut Random, value: u64) -> Vec<u64> {
    let mut values = vec![
        value.wrapping_add(1),
        value.wrapping_sub(1),
        value ^ (1 << random.below(64)),
    ];
    values.push(random.one_of(&VALUES));
    values.push(random.number());
    values
}

/// Changes one of the first of these numbers.
fn damage(random: &mut Random, numbers: &mut [u64], first: usize) {
    let place = random.index(first.min(numbers.len()));
    let values = near(random, numbers[place]);
    numbers[place] = random.one_of(&values);
}
