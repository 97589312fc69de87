//! Where a frame is bad, by each row of docs/RULES.md, Refusals, and how an answer says so.

use crosscheck::refusals::{bad_at, End};

fn frame(first: u8, length: usize, fctrl: u8) -> Vec<u8> {
    (0..length).map(|i| [first, 0, 0, 0, 0, fctrl].get(i).copied().unwrap_or(0)).collect()
}

#[test]
fn each_row() {
    for length in [0, 1, 11, 256, 257, 70_000] {
        assert_eq!(bad_at(&frame(0x41, length, 0)), length as u64);
    }
    for first in [0x01, 0x22, 0x43, 0xc0, 0xe0] {
        assert_eq!(bad_at(&frame(first, 22, 15)), 0);
    }
    assert_eq!([12, 22, 23, 24].map(|length| bad_at(&frame(0x00, length, 15))), [12, 22, 0, 24]);
    assert_eq!([16, 17, 18, 32, 33, 34].map(|length| bad_at(&frame(0x20, length, 15))), [16, 0, 18, 32, 0, 34]);
    assert_eq!([12, 26, 27].map(|length| bad_at(&frame(0x40, length, 0xff))), [5, 5, 0]);
    assert_eq!([0x40, 0x60, 0x80, 0xa0].map(|first| bad_at(&frame(first, 12, 1))), [5; 4]);
}

#[test]
fn form() {
    assert_eq!(End::ACCEPTED.bytes(), [0]);
    assert_eq!(End::refused(5).bytes(), [5, 0, 0, 0, 0, 0, 0, 0, 0]);
    assert_eq!(End::on(&[0; 256], 12).bytes(), [12, 0, 1, 0, 0, 0, 0, 0, 0]);
    assert_eq!(End::on(&[0; 23], 0), End::ACCEPTED);
    for end in [End::ACCEPTED, End::refused(5), End { number: 12, place: 70_000 }] {
        let answer = [end.bytes(), vec![7]].concat();
        assert_eq!(End::split(&answer), (end, &[7][..]));
        let twice = [end.bytes(), end.bytes()].concat();
        assert_eq!(End::split_all(&twice, 2), (vec![end; 2], &[][..]));
    }
}
