//! The examples P1 to P17 of docs/RULES.md, and calls on every length.

use zinovoky::*;

fn frame(first: u8, length: usize, set: &[(usize, u8)]) -> Vec<u8> {
    let mut frame = vec![0; length];
    frame[0] = first;
    set.iter().for_each(|&(place, value)| frame[place] = value);
    frame
}

/// Number and place.
fn refusal(frame: &[u8]) -> Option<(u8, usize)> {
    read(frame).err().map(|refusal| (refusal.number(), refusal.place))
}

fn data(frame: &[u8]) -> DataFields<'_> {
    match read(frame) {
        Ok(Reading::Data(data)) => data,
        other => panic!("not data: {other:?}"),
    }
}

#[test]
fn refused() {
    assert_eq!(refusal(&[]), Some((1, 0))); // P1
    assert_eq!(refusal(&frame(0x43, 11, &[])), Some((1, 11))); // P2
    assert_eq!(refusal(&frame(0x40, 12, &[(5, 1)])), Some((4, 5))); // P4
    assert_eq!(refusal(&frame(0x41, 12, &[])), Some((2, 0))); // P8
    assert_eq!(refusal(&frame(0xc0, 12, &[])), Some((3, 0))); // P9
    assert_eq!([22, 23].map(|length| refusal(&frame(0x00, length, &[]))), [Some((4, 22)), None]); // P10
    assert_eq!([17, 18, 33].map(|length| refusal(&frame(0x20, length, &[]))), [None, Some((4, 18)), None]); // P11
    assert_eq!(refusal(&frame(0x40, 256, &[])), Some((12, 256))); // P12
}

#[test]
fn accepted() {
    for first in [0x40, 0x5c] {
        let bare = frame(first, 12, &[]); // P3, P13
        assert_eq!((data(&bare).port(), data(&bare).payload()), (None, Payload::None));
    }
    let fopts = frame(0x40, 13, &[(5, 1), (8, 9)]); // P5
    assert_eq!((data(&fopts).fopts(), data(&fopts).payload()), (&[9][..], Payload::None));
    let no_commands = frame(0x40, 13, &[]); // P6
    assert_eq!((data(&no_commands).port(), data(&no_commands).payload()), (Some(0), Payload::Commands(&[])));
    let no_data = frame(0x40, 13, &[(8, 5)]); // P17
    assert_eq!((data(&no_data).port(), data(&no_data).payload()), (Some(5), Payload::Data(&[])));
    let commands = frame(0x40, 14, &[(9, 7)]); // P7
    assert_eq!((data(&commands).port(), data(&commands).payload()), (Some(0), Payload::Commands(&[7])));
}

/// The last byte of an address in frame order decides, wherever the address stands.
#[test]
fn network() {
    for last in 0..=255_u8 {
        let addr = [!last, last ^ 0x55, last.wrapping_mul(3), last];
        let mut bytes = frame(0x60, 12, &[]);
        bytes[1..5].copy_from_slice(&addr);
        let mut clear = frame(0x20, 17, &[]);
        clear[7..11].copy_from_slice(&addr);
        let accept = ClearJoinAccept::read(&clear).unwrap();
        assert_eq!([nwk_id(&addr), data(&bytes).nwk_id(), accept.nwk_id()], [last >> 1; 3]);
    }
}

const KEYS: (NwkSKey, AppSKey) = (NwkSKey([2; 16]), AppSKey([1; 16]));

/// P14: the high half is the caller's, the low half the frame's.
#[test]
fn counter() {
    let fields = Data {
        kind: DataKind::UnconfirmedUp,
        dev_addr: [1; 4],
        fctrl: 0,
        counter: 0x0001_0002,
        port: Some(1),
        commands: &[],
        payload: b"counted",
    };
    let mut frame = fields.build(&KEYS.0, &KEYS.1).unwrap();
    decrypt_data(frame.as_mut_bytes(), None, Some(&KEYS.1), 0x0001_ffff).unwrap();
    assert_eq!(data(&frame).payload(), Payload::Data(b"counted"));
}

/// A port with nothing behind it: read back, under the network key, and without a byte to amend.
#[test]
fn heartbeat() {
    for (port, payload) in [(0, Payload::Commands(&[])), (5, Payload::Data(&[])), (255, Payload::Data(&[]))] {
        let (kind, dev_addr) = (DataKind::UnconfirmedUp, [4, 3, 2, 1]);
        let fields = Data { kind, dev_addr, fctrl: 0, counter: 5, port: Some(port), commands: &[], payload: &[] };
        let mut frame = fields.build(&KEYS.0, &KEYS.1).unwrap();
        let built = frame;
        assert_eq!((data(&frame).port(), data(&frame).payload()), (Some(port), payload));
        assert_eq!(data(&frame).payload_commands().next(), None);
        let refused = decrypt_data(frame.as_mut_bytes(), None, Some(&KEYS.1), 5);
        assert_eq!(refused, Err(Reason::InvalidKey.at(0)));
        decrypt_data(frame.as_mut_bytes(), Some(&KEYS.0), None, 5).unwrap();
        decrypt_data_checked(frame.as_mut_bytes(), &KEYS.0, None, 5).unwrap();
        let amended = amend(frame.as_mut_bytes(), &KEYS.0, &KEYS.1, 5, &[Amendment::new(0, 1)]);
        assert_eq!(amended, Err(Reason::OffsetOutside.at(0)));
        assert_eq!(frame, built);
    }
}

#[test]
fn longest() {
    let bytes = [0; 243];
    for (commands, payload) in [(0, 242), (15, 227)] {
        // P15, P16
        let built = |payload| {
            let fields = Data {
                kind: DataKind::UnconfirmedUp,
                dev_addr: [1; 4],
                fctrl: 0,
                counter: 1,
                port: Some(1),
                commands: &bytes[..commands],
                payload: &bytes[..payload],
            };
            fields.build(&KEYS.0, &KEYS.1).map(|frame| frame.len())
        };
        assert_eq!((built(payload), built(payload + 1)), (Ok(255), Err(Reason::FrameTooLong.at(0))));
    }
}

/// Each call on each first byte and length: a result or a refusal, and what is refused stays as it was.
#[test]
fn every_length() {
    let app_key = AppKey([3; 16]);
    for first in 0..=255 {
        for length in (0..40).chain(250..260) {
            let bytes: Vec<u8> = (0..length).map(|i| if i == 0 { first } else { i as u8 }).collect();
            let _ = (read(&bytes), ClearJoinAccept::read(&bytes), session_keys(&bytes, &[0; 2], &app_key));
            let _ = (join_request_mic(&bytes, &app_key), join_accept_mic(&bytes, &app_key));
            let _ = data_mic(&bytes, &KEYS.0, 7);
            let unchanged = |call: &dyn Fn(&mut [u8]) -> Result<()>| {
                let mut copy = bytes.clone();
                assert!(call(&mut copy).is_ok() || copy == bytes);
            };
            unchanged(&|frame| decrypt_data(frame, Some(&KEYS.0), None, 7));
            unchanged(&|frame| decrypt_data_checked(frame, &KEYS.0, None, 7));
            unchanged(&|frame| decrypt_join_accept(frame, &app_key));
            unchanged(&|frame| decrypt_join_accept_checked(frame, &app_key));
            unchanged(&|frame| amend(frame, &KEYS.0, &KEYS.1, 7, &[Amendment::new(usize::MAX, 0)]));
        }
    }
}
