//! The limit: a replay in plain C, which `limit.c` has.

mod c {
    extern "C" {
        pub fn limit_replay(log: *const u8, length: usize, table: *mut u64) -> i32;
    }
}

/// Whether the log is accepted; its rows are in the table then.
pub fn replay(log: &[u8], table: &mut [u64]) -> bool {
    assert!(table.len() >= second::replay::TABLE);
    // SAFETY: pointer and length are those of a slice, and the table has all
    // the numbers that are written.
    unsafe { c::limit_replay(log.as_ptr(), log.len(), table.as_mut_ptr()) != 0 }
}
