//! The outputs of the two log writers, which hold the same bytes before each
//! call and must hold the same after it.

use crate::call::Call;
use harness::answer;
use harness::state::At;
use logs::random::Random;
use second::log_writer::State;
use std::ops::Range;

/// Bytes on either side of an output, which are compared too.
const AROUND: usize = 24;
/// The least length of an output on which few numbers are asked for.
const LONG: usize = 100_000;

/// The numbers of an answer, then two that are past its end.
const ALL: [u64; 9] = [0, 1, 2, 3, 4, 5, 6, 7, u64::MAX];
/// Those that an answer has.
const OWN: usize = 7;

pub struct Output {
    second: Vec<u8>,
    proved: Vec<u8>,
}

/// What a call did.
pub struct Done {
    pub answer: Result<State, u8>,
    /// The bytes that it wrote, and what they were.
    written: Range<usize>,
    before: Vec<u8>,
}

impl Output {
    /// An output with any bytes in it: random ones, or all the same.
    pub fn new(random: &mut Random, length: usize) -> Output {
        let mut bytes = vec![0; length + 2 * AROUND];
        match random.below(4) {
            0 => bytes.fill(random.one_of(&[0x00, 0x01, 0xA7, 0xFF])),
            _ => random.fill(&mut bytes),
        }
        Output {
            second: bytes.clone(),
            proved: bytes,
        }
    }

    pub fn len(&self) -> usize {
        self.proved.len() - 2 * AROUND
    }

    /// What the proved writer has put into the output up to this place.
    pub fn log(&self, end: u64) -> &[u8] {
        &self.proved[AROUND..AROUND + end as usize]
    }

    /// The call on both sides, with the first `length` bytes of the output. The
    /// proved side is asked for its numbers one by one, each time on the bytes
    /// as they were. The text tells of a difference.
    pub fn call(
        &mut self,
        call: &Call,
        at: &At,
        length: usize,
        random: &mut Random,
    ) -> Result<Done, String> {
        let lent = AROUND..AROUND + length;
        let answer = call.second(at, &mut self.second[lent.clone()]);
        let written = written(call, at, &answer);
        let before = self.proved[written.clone()].to_vec();
        let list = answer::called(&answer);
        for which in asked(random, length) {
            self.proved[written.clone()].copy_from_slice(&before);
            let out = &mut self.proved[lent.clone()];
            answer::same(&list, [which], |which| call.proved(at, out, which))?;
            self.compare(&lent)?;
        }
        Ok(Done {
            answer,
            written,
            before,
        })
    }

    /// Gives both outputs the bytes from before the call.
    pub fn undo(&mut self, done: Done) {
        self.second[done.written.clone()].copy_from_slice(&done.before);
        self.proved[done.written].copy_from_slice(&done.before);
    }

    fn compare(&self, lent: &Range<usize>) -> Result<(), String> {
        if self.proved == self.second {
            return Ok(());
        }
        let differs = |place: &usize| self.proved[*place] != self.second[*place];
        let place = (0..self.proved.len()).find(differs).unwrap_or(0);
        if !lent.contains(&place) {
            return Err("a byte outside the output has changed".to_string());
        }
        Err(format!(
            "byte {} is {:#04x}, expected {:#04x}",
            place - AROUND,
            self.proved[place],
            self.second[place]
        ))
    }
}

/// The bytes that an accepted call writes: from its place to the next.
fn written(call: &Call, at: &At, answer: &Result<State, u8>) -> Range<usize> {
    let Ok(next) = answer else {
        return 0..0;
    };
    let start = match call {
        Call::Start(_) => 0,
        _ => at.place,
    };
    AROUND + start as usize..AROUND + next.place as usize
}

/// The numbers asked for: all of an answer's and at times those past its end;
/// few where the output is long.
fn asked(random: &mut Random, length: usize) -> Vec<u64> {
    if length >= LONG {
        return vec![random.one_of(&ALL), 0];
    }
    let count = if random.once_in(4) { ALL.len() } else { OWN };
    let mut asked = ALL[..count].to_vec();
    asked.rotate_left(random.index(count));
    asked
}
