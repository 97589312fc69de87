//! Where a frame is bad: every call that reads one hands the place on, and a refusal's text says what the place is.

use zinovoky::*;

const KEYS: (NwkSKey, AppSKey) = (NwkSKey([2; 16]), AppSKey([1; 16]));
const APP_KEY: AppKey = AppKey([3; 16]);

/// Zeros behind the first byte, but for byte 5.
fn frame(first: u8, length: usize, fctrl: u8) -> Vec<u8> {
    let mut frame = vec![0; length];
    frame.iter_mut().take(1).for_each(|byte| *byte = first);
    frame.iter_mut().skip(5).take(1).for_each(|byte| *byte = fctrl);
    frame
}

/// How each call that reads refuses a frame; whatever else could be refused is wrong too.
fn by_every_call(frame: &[u8]) -> [Option<Refusal>; 13] {
    let lent = |call: &dyn Fn(&mut [u8]) -> Result<()>| call(&mut frame.to_vec()).err();
    [
        read(frame).err(),
        JoinRequestFields::read(frame).err(),
        ClearJoinAccept::read(frame).err(),
        join_request_mic(frame, &APP_KEY).err(),
        join_accept_mic(frame, &APP_KEY).err(),
        data_mic(frame, &KEYS.0, 7).err(),
        session_keys(frame, &[0; 2], &APP_KEY).err(),
        lent(&|frame| decrypt_data(frame, None, None, 7)),
        lent(&|frame| decrypt_data_checked(frame, &KEYS.0, None, 7)),
        lent(&|frame| decrypt_join_accept(frame, &APP_KEY)),
        lent(&|frame| decrypt_join_accept_checked(frame, &APP_KEY)),
        lent(&|frame| amend(frame, &KEYS.0, &KEYS.1, 7, &[Amendment::new(usize::MAX, 0)])),
        OpenFrame::open(frame, &KEYS.0, &KEYS.1, 7).err(),
    ]
}

fn refused_everywhere(frame: &[u8], due: Refusal) {
    assert_eq!(by_every_call(frame), [Some(due); 13], "{} bytes, the first {:?}", frame.len(), frame.first());
}

#[test]
fn lengths_that_no_frame_has() {
    for length in 0..12 {
        refused_everywhere(&frame(0x43, length, 0), Reason::InvalidPayload.at(length));
    }
    for length in [256, 257, 511, 65_536, 70_000] {
        refused_everywhere(&frame(0x43, length, 0), Reason::FrameTooLong.at(length));
    }
}

#[test]
fn byte_0() {
    for rest in (0..=255).step_by(4) {
        for version in 1..4 {
            refused_everywhere(&frame(rest + version, 23, 0), Reason::UnsupportedMajorVersion.at(0));
        }
    }
    for first in [0xc0, 0xdc, 0xe0, 0xfc] {
        refused_everywhere(&frame(first, 33, 0), Reason::InvalidMessageType.at(0));
    }
}

#[test]
fn lengths_that_no_join_message_has() {
    for length in 12..=255 {
        let wrong = Reason::InvalidData.at(length);
        if length != 23 {
            refused_everywhere(&frame(0x00, length, 0), wrong);
        }
        if length != 17 && length != 33 {
            refused_everywhere(&frame(0x20, length, 0), wrong);
        }
    }
}

#[test]
fn headers_that_do_not_fit() {
    for first in [0x40, 0x60, 0x80, 0xa0] {
        for fopts in 1..16 {
            for length in 12..12 + usize::from(fopts) {
                refused_everywhere(&frame(first, length, 0xf0 + fopts), Reason::InvalidData.at(5));
            }
        }
    }
}

#[test]
fn another_type_has_no_place() {
    let frames = [frame(0x00, 23, 0), frame(0x20, 17, 0), frame(0x20, 33, 0), frame(0x40, 12, 0)];
    for bytes in &frames {
        let refusals = by_every_call(bytes).into_iter().flatten();
        assert!(refusals.clone().all(|refusal| refusal.place == 0));
        assert!(refusals.filter(|refusal| refusal.reason == Reason::InvalidData).count() >= 6);
    }
}

#[test]
fn texts() {
    let texts = [
        (Reason::InvalidPayload.at(0), "InvalidPayload: 0 bytes"),
        (Reason::InvalidPayload.at(11), "InvalidPayload: 11 bytes"),
        (Reason::UnsupportedMajorVersion.at(0), "UnsupportedMajorVersion: the low two bits are not 00, byte 0"),
        (Reason::InvalidMessageType.at(0), "InvalidMessageType: type 6 or 7, byte 0"),
        (Reason::InvalidData.at(0), "InvalidData: a frame of another type than the call needs"),
        (Reason::InvalidData.at(5), "InvalidData: the header does not fit, byte 5"),
        (Reason::InvalidData.at(22), "InvalidData: a join message of 22 bytes"),
        (Reason::InvalidMic.at(0), "InvalidMic: the MIC differs"),
        (
            Reason::InvalidKey.at(0),
            "InvalidKey: the key of the payload was not given: the network key if it is empty or on port 0",
        ),
        (Reason::BufferTooShort.at(0), "BufferTooShort: no room for the answer"),
        (Reason::InvalidChannelList.at(0), "InvalidChannelList: over five channels, or one above 16,777,215"),
        (
            Reason::MacCommandTooBigForFOpts.at(0),
            "MacCommandTooBigForFOpts: commands over 15 bytes that are not for port 0",
        ),
        (
            Reason::DataAndMacCommandsInPayloadNotAllowed.at(0),
            "DataAndMacCommandsInPayloadNotAllowed: port 0 and a payload",
        ),
        (Reason::FRMPayloadWithFportZero.at(0), "FRMPayloadWithFportZero: a payload without a port"),
        (Reason::FrameTooLong.at(256), "FrameTooLong: 256 bytes"),
        (Reason::FrameTooLong.at(0), "FrameTooLong: a frame to build of more than 255 bytes"),
        (Reason::FOptsLenSet.at(0), "FOptsLenSet: an FCtrl with a low nibble that is not 0"),
        (Reason::CounterMismatch.at(0), "CounterMismatch: a counter that is not the frame's"),
        (Reason::OffsetOutside.at(0), "OffsetOutside: an offset at or past the payload's length"),
        (Reason::UnknownCommand.at(8), "UnknownCommand: no command that goes this way has the identifier, byte 8"),
        (Reason::CommandCutShort.at(0), "CommandCutShort: the list ends within the command, byte 0"),
        (Reason::ValueOutOfRange.at(0), "ValueOutOfRange: a value that the command's field cannot hold"),
    ];
    for (refusal, text) in texts {
        assert_eq!(refusal.to_string(), text);
        assert_eq!(Some(refusal.name()), text.split(':').next());
        assert_eq!(Reason::from_number(refusal.number()), Some(refusal.reason));
    }
    let told = texts.map(|(refusal, _)| refusal.reason);
    assert!(Reason::ALL.iter().all(|reason| told.contains(reason)));
}
