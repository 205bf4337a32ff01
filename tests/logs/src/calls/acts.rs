//! What a log's calls do: they are entered, left and measured.

use super::maker::Maker;
use second::record::ENTRY_ARGS;

/// The action of a tail exit.
const TAIL_EXIT: u8 = 2;

impl Maker<'_> {
    /// Entry, or Entry_Args with a run of arguments.
    pub fn enter(&mut self, id: u32, delta: u32) {
        if !self.random.once_in(4) {
            self.function(0, id, delta);
        } else {
            self.function(ENTRY_ARGS, id, delta);
            let most = self.random.below(4);
            self.arguments(most);
        }
        self.stack.push(id);
    }

    /// Exit or Tail_Exit.
    pub fn leave(&mut self, id: u32, delta: u32) {
        let action = 1 + self.random.below(2) as u8;
        self.leave_by(action, id, delta);
    }

    fn leave_by(&mut self, action: u8, id: u32, delta: u32) {
        self.function(action, id, delta);
        if let Some(at) = self.stack.iter().rposition(|open| *open == id) {
            self.stack.truncate(at);
        }
    }

    pub fn enter_known(&mut self) {
        let (id, delta) = (self.known(), self.delta());
        self.enter(id, delta);
    }

    pub fn enter_fresh(&mut self) {
        let (id, delta) = (self.fresh(), self.delta());
        self.enter(id, delta);
    }

    /// Leaves an open call, mostly the nearest one.
    pub fn leave_open(&mut self) {
        let depth = self.stack.len();
        let at = match self.random.below(4) {
            0 => self.random.index(depth),
            _ => depth.saturating_sub(1),
        };
        if let Some(id) = self.stack.get(at).copied() {
            let delta = self.delta();
            self.leave(id, delta);
        }
    }

    /// Leaves the call that was opened first, or the nearest one of its id.
    pub fn leave_first(&mut self) {
        if let Some(id) = self.stack.first().copied() {
            let delta = self.delta();
            self.leave(id, delta);
        }
    }

    /// Something ordinary, with at most `deepest` open calls.
    pub fn act(&mut self, deepest: usize) {
        match self.random.below(40) {
            0..=18 if self.stack.len() < deepest => self.enter_known(),
            0..=34 => self.leave_open(),
            35 | 36 => self.event(),
            37 => {
                let ahead = self.random.below(100_000);
                self.set_clock(self.clock.saturating_add(ahead));
            }
            38 if self.turns() => self.turn(),
            _ => {
                let behind = self.random.below(1000);
                self.set_clock(self.clock.saturating_sub(behind));
            }
        }
    }

    /// Enters ids of the choice up to this depth, with a few exits.
    pub fn climb(&mut self, depth: usize) {
        while self.stack.len() < depth {
            match self.random.below(24) {
                0 => self.leave_open(),
                1 if self.random.once_in(4) => self.event(),
                _ => self.enter_known(),
            }
        }
    }

    /// Enters fresh ids up to this many, with at most `deepest` open calls.
    pub fn widen(&mut self, ids: usize, deepest: usize) {
        while self.ids.len() < ids {
            if self.stack.len() < deepest {
                self.enter_fresh();
            } else if self.random.once_in(3) {
                self.leave_first();
            } else {
                self.leave_open();
            }
        }
    }

    /// A call of this id that takes this many ticks, at times with another one
    /// in it that an Exit abandons.
    pub fn measured(&mut self, id: u32, ticks: u64) {
        let opened = self.random.below((u64::MAX - ticks).saturating_add(1));
        let closed = opened + ticks;
        self.open_at(id, opened);
        if self.random.once_in(4) {
            let other = self.known();
            if other != id {
                self.enter(other, 0);
            }
        }
        self.read_at(closed);
        let delta = (closed - self.clock) as u32;
        self.leave(id, delta);
    }

    /// Two calls of this id in one of another, which a Tail_Exit closes with
    /// them: the two take this many ticks together, and the other's is at times
    /// backward.
    pub fn measured_above(&mut self, id: u32, below: u32, ticks: u64) {
        let first = self.random.below(ticks.saturating_add(1));
        let parts = [first, ticks - first];
        let most = parts[0].max(parts[1]);
        let closed = most + self.random.below((u64::MAX - most).saturating_add(1));
        let opened = closed.saturating_add(self.random.below(2));
        self.open_at(below, opened);
        for part in parts {
            self.open_at(id, closed - part);
        }
        self.read_at(closed);
        let delta = (closed - self.clock) as u32;
        self.leave_by(TAIL_EXIT, below, delta);
    }

    /// A call that is entered at this reading.
    fn open_at(&mut self, id: u32, reading: u64) {
        self.read_at(reading);
        let delta = (reading - self.clock) as u32;
        self.enter(id, delta);
    }

    /// Sets the clock so that a small delta gives this reading.
    fn read_at(&mut self, reading: u64) {
        let delta = match self.random.below(3) {
            0 => 0,
            1 => self.random.below(100),
            _ => self.random.below(1 << 32),
        };
        self.set_clock(reading.saturating_sub(delta));
    }
}
