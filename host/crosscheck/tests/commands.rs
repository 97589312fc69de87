//! What the crate says to lists of MAC commands with and without a fault, and which values its creators take.

use crosscheck::commands::{created, Created};
use crosscheck::records::Case;
use crosscheck::{judge, Judged};
use factory::OpenSsl;

/// The answer, and whether it goes up to a fault only.
fn judged(uplink: bool, offset: u64, bytes: &[u8]) -> (bool, Vec<u8>) {
    match judge::<OpenSsl>(&Case::ReadCommands { uplink, offset, bytes: bytes.to_vec() }) {
        Judged::Whole(answer) => (false, answer),
        Judged::ToFault(answer) => (true, answer),
        _ => panic!("the crate judges every list"),
    }
}

/// A command as an answer has it.
fn listed(at: u8, bytes: &[u8], values: [i32; 5]) -> Vec<u8> {
    let head = [bytes[0], at, 0, at + bytes.len() as u8, 0];
    let values = values.map(i32::to_le_bytes).concat();
    [&head[..], &values, &[bytes.len() as u8], bytes].concat()
}

#[test]
fn lists() {
    let status = listed(1, &[6, 200, 0x39], [200, -7, 0, 0, 0]);
    let check = listed(0, &[2], [0; 5]);
    assert_eq!(judged(true, 0, &[2, 6, 200, 0x39]), (false, [&check[..], &status, &[0, 0]].concat()));
    assert_eq!(judged(true, 1, &[2, 6, 200, 0xf9]), (false, [&status[..], &[0, 0]].concat()));
    for offset in [0, 1, u64::MAX] {
        assert_eq!(judged(false, offset, &[]), (false, vec![0, 0]));
    }
}

/// The iterator panics at the first, ends without a word at the second and third, and has a command for the others.
#[test]
fn faults() {
    let check = listed(0, &[2], [0; 5]);
    for (behind, number) in [(&[3][..], 17), (&[6], 17), (&[0x0b, 2], 16), (&[0x0d], 16), (&[0x0d, 2], 16)] {
        let due = [&check[..], &[0, number, 1, 0, 0, 0, 0, 0, 0, 0]].concat();
        assert_eq!(judged(true, 0, &[&[2], behind].concat()), (true, due));
    }
    assert_eq!(judged(false, 0, &[0x0d, 1, 2, 3, 4, 5]), (true, vec![0, 16, 0, 0, 0, 0, 0, 0, 0, 0]));
}

#[test]
fn creators() {
    let said = |uplink, identifier, values| match created(uplink, identifier, values) {
        Created::Bytes(bytes) => bytes,
        Created::Refused => b"refused".to_vec(),
        Created::CannotBeSaid => b"cannot be said".to_vec(),
    };
    assert_eq!(said(false, 9, [1, 1, 15, 0, 0]), [9, 0x3f]);
    assert_eq!(said(false, 9, [1, 1, 16, 0, 0]), b"refused");
    assert_eq!(said(false, 3, [15, 15, 0xffff, 7, 15]), [3, 0xff, 0xff, 0xff, 0x7f]);
    assert_eq!(said(false, 3, [0, 0, 0, 8, 0]), b"cannot be said");
    assert_eq!(said(false, 3, [0, 16, 0, 7, 0]), b"refused");
    assert_eq!(said(false, 4, [16, 0, 0, 0, 0]), b"cannot be said");
    assert_eq!(said(true, 6, [0, -32, 0, 0, 0]), [6, 0, 0x20]);
    assert_eq!(said(true, 6, [0, -33, 0, 0, 0]), b"refused");
    assert_eq!(said(true, 3, [0, 0, 2, 0, 0]), b"cannot be said");
    assert_eq!(said(true, 13, [0; 5]), b"cannot be said");
}
