//! A frame held open, against the calls that open it anew each time.

use zinovoky::*;

const KEYS: (NwkSKey, AppSKey) = (NwkSKey([2; 16]), AppSKey([1; 16]));

fn built(port: u8, payload: &[u8]) -> Frame {
    let (kind, dev_addr) = (DataKind::UnconfirmedUp, [4, 3, 2, 1]);
    let fields = Data { kind, dev_addr, fctrl: 0, counter: 7, port: Some(port), commands: &[], payload };
    fields.build(&KEYS.0, &KEYS.1).unwrap()
}

fn open(frame: &[u8]) -> OpenFrame {
    OpenFrame::open(frame, &KEYS.0, &KEYS.1, 7).unwrap()
}

#[test]
fn a_mixed_history_is_the_payload_built_so() {
    let mut payload: Vec<u8> = (0..242).map(|i| i as u8).collect();
    let mut held = open(&built(1, &payload));
    for (offset, value) in [(0, 9), (241, 8), (17, 7), (242, 6), (17, 5), (usize::MAX, 4)] {
        let made = held.amend(offset, value);
        assert_eq!(made, if offset < payload.len() { Ok(()) } else { Err(Reason::OffsetOutside.at(0)) });
        payload.iter_mut().skip(offset).take(1).for_each(|byte| *byte = value);
    }
    let spread: Vec<_> = (0..8).map(|i| Amendment::new(i * 34, 200 + i as u8)).collect();
    held.amend_list(&spread).unwrap();
    (0..8).for_each(|i| payload[i * 34] = 200 + i as u8);
    assert_eq!(held.amend_list(&[Amendment::new(1, 1), Amendment::new(242, 1)]), Err(Reason::OffsetOutside.at(0)));
    held.amend_list(&[]).unwrap();
    assert_eq!(held.frame().unwrap(), built(1, &payload));
}

#[test]
fn a_list_on_an_open_frame_is_the_list_on_the_bytes() {
    let payload: Vec<u8> = (0..100).collect();
    for length in 1..=payload.len() {
        let mut frame = built(1, &payload[..length]);
        let list: Vec<_> = (0..5).map(|i| Amendment::new(i * 31 % length, (i * 77) as u8)).collect();
        let mut held = open(&frame);
        held.amend_list(&list).unwrap();
        amend(frame.as_mut_bytes(), &KEYS.0, &KEYS.1, 7, &list).unwrap();
        assert_eq!(held.frame().unwrap(), frame);
    }
}

#[test]
fn refused() {
    let frame = built(1, b"hello");
    let opened = |counter| OpenFrame::open(&frame, &KEYS.0, &KEYS.1, counter).err();
    assert_eq!(opened(8), Some(Reason::CounterMismatch.at(0)));
    assert_eq!(opened(0x0001_0007), Some(Reason::InvalidMic.at(0)));
    assert_eq!(OpenFrame::open(&[], &KEYS.0, &KEYS.1, 7).err(), Some(Reason::InvalidPayload.at(0)));

    let (held, mut short, mut exact) = (open(&frame), [0xaa; 17], [0xaa; 18]);
    assert_eq!(held.frame_into(&mut short), Err(Reason::BufferTooShort.at(0)));
    assert_eq!(short, [0xaa; 17]);
    assert_eq!(held.frame_into(&mut exact), Ok(18));
    assert_eq!(exact[..], *frame.as_bytes());
    assert_eq!(format!("{held:?}"), "OpenFrame(..)");
}
