//! Logs byte by byte, with dirt wherever a byte is hidden.

/// What every hidden byte holds, and no other one.
pub const DIRT: u8 = 0xEE;

pub const ENTRY: [u8; 8] = [0x50, 0, 0, 0, 0x0A, 0, 0, 0];
pub const EXIT: [u8; 8] = [0x52, 0, 0, 0, 0x1E, 0, 0, 0];
pub const TAIL_EXIT: [u8; 8] = [0x54, 0, 0, 0, 0, 0, 0, 0];
pub const ENTRY_ARGS: [u8; 8] = [0x56, 0, 0, 0, 0, 0, 0, 0];

/// EndOfBuffer.
pub const END: [u8; 16] = {
    let mut bytes = [DIRT; 16];
    bytes[0] = 3;
    bytes
};

/// Both flags, and 1,000,000,000 Hz.
pub fn header(buffer_size: u64) -> Vec<u8> {
    let mut log = vec![1, 0, 1, 0, 3, 0, 0, 0];
    log.extend(1_000_000_000u64.to_le_bytes());
    log.extend(buffer_size.to_le_bytes());
    log.extend([DIRT; 8]);
    log
}

/// A metadata record of this kind, with these data bytes and dirt.
pub fn metadata(kind: u8, data: &[u8]) -> Vec<u8> {
    let mut bytes = vec![DIRT; 16];
    bytes[0] = kind * 2 + 1;
    bytes[1..1 + data.len()].copy_from_slice(data);
    bytes
}

/// NewBuffer, WallTimeMarker at 0, NewCPUId 0 at 1000.
pub fn leading(thread: u8) -> Vec<u8> {
    let cpu = metadata(2, &[0, 0, 0xE8, 3, 0, 0, 0, 0, 0, 0]);
    [metadata(0, &[thread, 0]), metadata(4, &[0; 12]), cpu].concat()
}

pub fn argument() -> Vec<u8> {
    metadata(6, &[DIRT; 8])
}

pub fn event_marker(size: u32) -> Vec<u8> {
    metadata(5, &[&size.to_le_bytes()[..], &[9; 8]].concat())
}

/// A marker and its event.
pub fn event(length: u32) -> Vec<u8> {
    [event_marker(length), vec![DIRT; length as usize]].concat()
}

/// A buffer with the leading records and these bytes, filled up with dirt.
pub fn buffer(size: usize, thread: u8, body: &[&[u8]]) -> Vec<u8> {
    let mut bytes = leading(thread);
    bytes.extend(body.concat());
    bytes.resize(size, DIRT);
    bytes
}

/// A log of one buffer with this body.
pub fn log(size: usize, body: &[&[u8]]) -> Vec<u8> {
    [header(size as u64), buffer(size, 7, body)].concat()
}

pub fn sample_b() -> Vec<u8> {
    log(96, &[&ENTRY, &EXIT, &END])
}
