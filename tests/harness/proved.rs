//! The proved code. Each function of the probe gives one number of its answer;
//! a writer writes, the scrubber scrubs and the replay fills its table at each
//! call. An order of 0 is little-endian, and any other is big-endian.

use crate::record::Fields;
use crate::state::{At, Opening, Start};
use second::compare::Side;

#[rustfmt::skip]
mod c {
    extern "C" {
        pub fn towercloak_compare(
            frequency_a: u64, constant_tsc_a: u64, closed_a: u64, backward_a: u64, ticks_a: u64,
            frequency_b: u64, constant_tsc_b: u64, closed_b: u64, backward_b: u64, ticks_b: u64,
        ) -> u32;
        pub fn towercloak_scrub(log: *mut u8, len: usize, order: u32, place: *mut u64) -> u32;
        pub fn towercloak_stream_start(state: *mut u64, state_len: usize, order: u32) -> u32;
        pub fn towercloak_stream_feed(
            state: *mut u64, state_len: usize, bytes: *const u8, len: usize,
            table: *mut u64, table_len: usize,
            rows: *mut u64, buffers: *mut u64, records: *mut u64, open: *mut u64, place: *mut u64,
        ) -> u32;
        pub fn towercloak_stream_end(
            state: *mut u64, state_len: usize, table: *mut u64, table_len: usize,
            rows: *mut u64, buffers: *mut u64, records: *mut u64, open: *mut u64, place: *mut u64,
        ) -> u32;
        pub fn towercloak_dcfg(
            text: *const u8, len: usize, edges: *mut u64, edges_len: usize,
            threads: *mut u64, threads_len: usize,
            edge_count: *mut u64, thread_count: *mut u64, place: *mut u64,
        ) -> u32;
        pub fn towercloak_walk(
            table: *const u64, table_len: usize, start: u64, bits: *const u8, bits_len: usize,
            wanted: u64, list: *mut u64, list_len: usize,
        ) -> u32;

        pub fn probe_header(log: *const u8, len: usize, order: u32, which: u64) -> u64;
        pub fn probe_read(
            log: *const u8, len: usize, order: u32, end: u64, place: u64, which: u64,
        ) -> u64;
        pub fn probe_event(
            log: *const u8, len: usize, order: u32, end: u64, place: u64, which: u64,
        ) -> u64;
        pub fn probe_next(
            log: *const u8, len: usize, order: u32,
            place: u64, end: u64, size: u64, stage: u64, thread: u64, which: u64,
        ) -> u64;
        pub fn probe_scrub(log: *mut u8, len: usize, order: u32, which: u64) -> u64;
        pub fn probe_replay(
            log: *const u8, len: usize, order: u32,
            table: *mut u64, table_len: usize, which: u64,
        ) -> u64;

        pub fn probe_reads(
            log: *const u8, len: usize, order: u32, size: u64, table: *mut u64, table_len: usize,
        ) -> u64;

        pub fn probe_write(
            order: u32, kind: u64, a: u64, b: u64, c: u64, event: *const u8, event_len: usize,
            out: *mut u8, len: usize, which: u64,
        ) -> u64;
        pub fn probe_start(
            order: u32, frequency: u64, constant_tsc: u64, nonstop_tsc: u64, size: u64, thread: u64,
            out: *mut u8, len: usize, which: u64,
        ) -> u64;
        pub fn probe_open(
            order: u32, size: u64, thread: u64, place: u64, end: u64, stage: u64,
            seconds: u64, micros: u64, cpu: u64, tsc: u64,
            out: *mut u8, len: usize, which: u64,
        ) -> u64;
        pub fn probe_add(
            order: u32, size: u64, thread: u64, place: u64, end: u64, stage: u64,
            kind: u64, a: u64, b: u64, c: u64, event: *const u8, event_len: usize,
            out: *mut u8, len: usize, which: u64,
        ) -> u64;
        pub fn probe_close(
            order: u32, size: u64, thread: u64, place: u64, end: u64, stage: u64,
            out: *mut u8, len: usize, which: u64,
        ) -> u64;
    }
}

/// The comparison, as a C program has it. Inlined, so that a benchmark times the
/// proved code alone.
#[inline]
#[rustfmt::skip]
pub fn compare(a: &Side, b: &Side) -> u32 {
    // SAFETY: the function takes any numbers and touches no memory.
    unsafe {
        c::towercloak_compare(
            a.frequency, a.constant_tsc, a.closed, a.backward, a.ticks,
            b.frequency, b.constant_tsc, b.closed, b.backward, b.ticks,
        )
    }
}

/// The scrubber, as a C program has it: the refusal's number or 0, and its
/// place.
pub fn scrub(log: &mut [u8], order: u32) -> (u32, u64) {
    let mut place = u64::MAX;
    // SAFETY: here and below, pointers and lengths are those of slices that
    // outlive the call.
    let number = unsafe { c::towercloak_scrub(log.as_mut_ptr(), log.len(), order, &mut place) };
    (number, place)
}

/// The reader of a DCFG, as a C program has it: the refusal's number or 0, both
/// counts, and the place.
#[rustfmt::skip]
pub fn dcfg(text: &[u8], edges: &mut [u64], threads: &mut [u64]) -> (u32, [u64; 2], u64) {
    let ([mut edge_count, mut thread_count], mut place) = ([u64::MAX; 2], u64::MAX);
    let number = unsafe {
        c::towercloak_dcfg(
            text.as_ptr(), text.len(), edges.as_mut_ptr(), edges.len(),
            threads.as_mut_ptr(), threads.len(),
            &mut edge_count, &mut thread_count, &mut place,
        )
    };
    (number, [edge_count, thread_count], place)
}

/// The walk of a transition table, as a C program has it: the refusal's number or
/// 0.
#[rustfmt::skip]
pub fn walk(table: &[u64], start: u64, bits: &[u8], wanted: u64, list: &mut [u64]) -> u32 {
    unsafe {
        c::towercloak_walk(
            table.as_ptr(), table.len(), start, bits.as_ptr(), bits.len(),
            wanted, list.as_mut_ptr(), list.len(),
        )
    }
}

/// What a call of a stream tells: its answer, the four counts and the place.
#[derive(Debug, Clone, Copy, PartialEq, Eq)]
pub struct Told {
    pub answer: u32,
    pub counts: [u64; 4],
    pub place: u64,
}

/// Starts a stream, as a C program does: 0, or 14.
pub fn stream_start(state: &mut [u64], order: u32) -> u32 {
    unsafe { c::towercloak_stream_start(state.as_mut_ptr(), state.len(), order) }
}

#[rustfmt::skip]
pub fn stream_feed(state: &mut [u64], read: &[u8], table: &mut [u64]) -> Told {
    let ([mut rows, mut buffers, mut records, mut open], mut place) = ([u64::MAX; 4], u64::MAX);
    let answer = unsafe {
        c::towercloak_stream_feed(
            state.as_mut_ptr(), state.len(), read.as_ptr(), read.len(),
            table.as_mut_ptr(), table.len(),
            &mut rows, &mut buffers, &mut records, &mut open, &mut place,
        )
    };
    Told { answer, counts: [rows, buffers, records, open], place }
}

#[rustfmt::skip]
pub fn stream_end(state: &mut [u64], table: &mut [u64]) -> Told {
    let ([mut rows, mut buffers, mut records, mut open], mut place) = ([u64::MAX; 4], u64::MAX);
    let answer = unsafe {
        c::towercloak_stream_end(
            state.as_mut_ptr(), state.len(), table.as_mut_ptr(), table.len(),
            &mut rows, &mut buffers, &mut records, &mut open, &mut place,
        )
    };
    Told { answer, counts: [rows, buffers, records, open], place }
}

pub fn scrub_number(log: &mut [u8], order: u32, which: u64) -> u64 {
    unsafe { c::probe_scrub(log.as_mut_ptr(), log.len(), order, which) }
}

#[rustfmt::skip]
pub fn replay(log: &[u8], order: u32, table: &mut [u64], which: u64) -> u64 {
    unsafe {
        c::probe_replay(
            log.as_ptr(), log.len(), order,
            table.as_mut_ptr(), table.len(), which,
        )
    }
}

/// The log fed in reads of this length: the refusal's number, or 0.
#[rustfmt::skip]
pub fn reads(log: &[u8], order: u32, size: u64, table: &mut [u64]) -> u64 {
    unsafe {
        c::probe_reads(
            log.as_ptr(), log.len(), order, size,
            table.as_mut_ptr(), table.len(),
        )
    }
}

pub fn header(log: &[u8], order: u32, which: u64) -> u64 {
    unsafe { c::probe_header(log.as_ptr(), log.len(), order, which) }
}

pub fn read(log: &[u8], order: u32, end: u64, place: u64, which: u64) -> u64 {
    unsafe { c::probe_read(log.as_ptr(), log.len(), order, end, place, which) }
}

/// One number of the event's answer: its length, then its bytes.
pub fn event(log: &[u8], order: u32, end: u64, place: u64, which: u64) -> u64 {
    unsafe { c::probe_event(log.as_ptr(), log.len(), order, end, place, which) }
}

#[rustfmt::skip]
pub fn next(log: &[u8], at: &At, which: u64) -> u64 {
    unsafe {
        c::probe_next(
            log.as_ptr(), log.len(), at.order,
            at.place, at.end, at.size, at.stage, at.thread, which,
        )
    }
}

#[rustfmt::skip]
pub fn write(fields: &Fields, order: u32, event: &[u8], out: &mut [u8], which: u64) -> u64 {
    let (kind, [a, b, c]) = (fields.kind, fields.values);
    unsafe {
        c::probe_write(
            order, kind, a, b, c, event.as_ptr(), event.len(),
            out.as_mut_ptr(), out.len(), which,
        )
    }
}

#[rustfmt::skip]
pub fn start(start: &Start, out: &mut [u8], which: u64) -> u64 {
    unsafe {
        c::probe_start(
            start.order,
            start.frequency, start.constant_tsc, start.nonstop_tsc, start.size, start.thread,
            out.as_mut_ptr(), out.len(), which,
        )
    }
}

#[rustfmt::skip]
pub fn open(at: &At, opening: &Opening, out: &mut [u8], which: u64) -> u64 {
    unsafe {
        c::probe_open(
            at.order, at.size, at.thread, at.place, at.end, at.stage,
            opening.seconds, opening.micros, opening.cpu, opening.tsc,
            out.as_mut_ptr(), out.len(), which,
        )
    }
}

#[rustfmt::skip]
pub fn add(at: &At, fields: &Fields, event: &[u8], out: &mut [u8], which: u64) -> u64 {
    let (kind, [a, b, c]) = (fields.kind, fields.values);
    unsafe {
        c::probe_add(
            at.order, at.size, at.thread, at.place, at.end, at.stage,
            kind, a, b, c, event.as_ptr(), event.len(),
            out.as_mut_ptr(), out.len(), which,
        )
    }
}

#[rustfmt::skip]
pub fn close(at: &At, out: &mut [u8], which: u64) -> u64 {
    unsafe {
        c::probe_close(
            at.order, at.size, at.thread, at.place, at.end, at.stage,
            out.as_mut_ptr(), out.len(), which,
        )
    }
}
