//! The record writer: Paper 01, "Writer and comparison", and the bytes of its
//! samples.

use second::order::Order::Little;
use second::record::Record;
use second::writer::{bytes, check, write, LEAST_BAD_EVENT, LEAST_BAD_ID};

fn function(action: u8, id: u32, delta: u32) -> Record {
    Record::Function { action, id, delta }
}

#[test]
fn sample_b() {
    assert_eq!(
        bytes(&function(0, 5, 10), Little, &[]),
        [0x50, 0, 0, 0, 0x0A, 0, 0, 0]
    );
    assert_eq!(
        bytes(&function(1, 5, 30), Little, &[]),
        [0x52, 0, 0, 0, 0x1E, 0, 0, 0]
    );
    let cpu = Record::NewCpuId { cpu: 0, tsc: 1000 };
    assert_eq!(
        bytes(&cpu, Little, &[]),
        [5, 0, 0, 0xE8, 3, 0, 0, 0, 0, 0, 0, 0, 0, 0, 0, 0]
    );
}

#[test]
fn fields_in_the_table_s_order() {
    let wall = Record::WallTime {
        seconds: 0x0807_0605_0403_0201,
        micros: 0x0C0B_0A09,
    };
    assert_eq!(
        bytes(&wall, Little, &[]),
        [9, 1, 2, 3, 4, 5, 6, 7, 8, 9, 10, 11, 12, 0, 0, 0]
    );
    let marker = Record::CustomEvent {
        size: 99,
        tsc: 0x0807_0605_0403_0201,
    };
    assert_eq!(
        bytes(&marker, Little, &[0xEE, 0xFF]),
        [11, 2, 0, 0, 0, 1, 2, 3, 4, 5, 6, 7, 8, 0, 0, 0, 0xEE, 0xFF]
    );
}

#[test]
fn tests_in_order() {
    let mut out = [7; 8];
    assert_eq!(
        write(&function(4, LEAST_BAD_ID, 0), Little, &[], &mut out[..0]),
        Err(6)
    );
    assert_eq!(write(&function(255, 0, 0), Little, &[], &mut out), Err(6));
    assert_eq!(
        write(&function(3, LEAST_BAD_ID, 0), Little, &[], &mut out[..0]),
        Err(16)
    );
    assert_eq!(
        write(&function(3, u32::MAX, 0), Little, &[], &mut out),
        Err(16)
    );
    assert_eq!(
        write(
            &function(3, LEAST_BAD_ID - 1, 0),
            Little,
            &[],
            &mut out[..7]
        ),
        Err(15)
    );
    assert_eq!(out, [7; 8]);
    assert_eq!(
        write(&function(3, LEAST_BAD_ID - 1, 0), Little, &[], &mut out),
        Ok(8)
    );
    assert_eq!(out, [0xF6, 0xFF, 0xFF, 0xFF, 0, 0, 0, 0]);
}

#[test]
fn room_for_an_event() {
    let marker = Record::CustomEvent { size: 0, tsc: 1 };
    let mut out = [7; 20];
    assert_eq!(write(&marker, Little, &[1, 2, 3], &mut out[..18]), Err(15));
    assert_eq!(out, [7; 20]);
    assert_eq!(write(&marker, Little, &[1, 2, 3], &mut out[..19]), Ok(19));
    assert_eq!(&out[13..], [0, 0, 0, 1, 2, 3, 7]);
    assert_eq!(check(&marker, LEAST_BAD_EVENT - 1, u64::MAX), Ok(()));
    assert_eq!(check(&marker, LEAST_BAD_EVENT, u64::MAX), Err(15));
    // Bytes given with another record are left aside.
    assert_eq!(check(&Record::EndOfBuffer, LEAST_BAD_EVENT, 16), Ok(()));
}
