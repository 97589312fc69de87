//! MAC commands: every command both ways, each limit, cut and unknown identifier, reserved bits, lists, frames, texts.

use zinovoky::Command::*;
use zinovoky::*;

/// Every command with its bytes, by identifier: first those that go down.
const EVERY: [(Command, &[u8]); 18] = [
    (LinkCheckAns { margin: 20, gateways: 7 }, &[2, 20, 7]),
    (
        LinkADRReq { data_rate: 5, tx_power: 2, mask: 0xff01, control: 7, transmissions: 1 },
        &[3, 0x52, 0x01, 0xff, 0x71],
    ),
    (DutyCycleReq { max: 11 }, &[4, 11]),
    (RXParamSetupReq { rx1_offset: 6, rx2_data_rate: 3, frequency: 8_692_302 }, &[5, 0x63, 0x4e, 0xa2, 0x84]),
    (DevStatusReq, &[6]),
    (
        NewChannelReq { index: 8, frequency: 10_585_658, max_data_rate: 5, min_data_rate: 2 },
        &[7, 8, 0x3a, 0x86, 0xa1, 0x52],
    ),
    (RXTimingSetupReq { delay: 12 }, &[8, 12]),
    (TxParamSetupReq { downlink_dwell: true, uplink_dwell: false, max_eirp: 13 }, &[9, 0x2d]),
    (DlChannelReq { index: 3, frequency: 8_681_200 }, &[10, 3, 0xf0, 0x76, 0x84]),
    (LinkCheckReq, &[2]),
    (LinkADRAns { power: true, data_rate: false, mask: true }, &[3, 5]),
    (DutyCycleAns, &[4]),
    (RXParamSetupAns { rx1_offset: false, rx2_data_rate: true, channel: false }, &[5, 2]),
    (DevStatusAns { battery: 255, margin: -7 }, &[6, 255, 0x39]),
    (NewChannelAns { range: true, frequency: false }, &[7, 2]),
    (RXTimingSetupAns, &[8]),
    (TxParamSetupAns, &[9]),
    (DlChannelAns { uplink: false, frequency: true }, &[10, 1]),
];

/// Those of one direction, one behind the other.
fn all(direction: Direction) -> (Vec<Command>, Vec<u8>) {
    let chosen = EVERY.iter().filter(|(command, _)| command.direction() == direction);
    (chosen.clone().map(|&(command, _)| command).collect(), chosen.flat_map(|&(_, bytes)| bytes.to_vec()).collect())
}

fn read_all(direction: Direction, bytes: &[u8]) -> Vec<Result<(usize, Command)>> {
    read_commands(direction, bytes).collect()
}

#[test]
fn read_and_written() {
    for (place, (command, bytes)) in EVERY.into_iter().enumerate() {
        assert_eq!(command.identifier(), bytes[0]);
        assert_eq!(command.direction() == Direction::Up, place >= 9);
        assert_eq!(read_all(command.direction(), bytes), [Ok((0, command))]);
        let mut out = [0xa5; 10];
        assert_eq!(command.write(&mut out, 2), Ok(2 + bytes.len()));
        assert_eq!(out[2..][..bytes.len()], *bytes);
        assert!(out[..2].iter().chain(&out[2 + bytes.len()..]).all(|&byte| byte == 0xa5));
    }
}

#[test]
fn no_room() {
    for (command, bytes) in EVERY {
        for at in [0, 1, 5, 6, 7, usize::MAX] {
            let mut out = vec![0xa5; at.min(6) + bytes.len() - 1];
            assert_eq!(command.write(&mut out, at), Err(Reason::BufferTooShort.at(0)));
            assert!(out.iter().all(|&byte| byte == 0xa5));
        }
    }
}

#[test]
fn lists() {
    for direction in [Direction::Down, Direction::Up] {
        let (commands, bytes) = all(direction);
        let found = read_all(direction, &bytes);
        let offsets: Vec<usize> = found.iter().map(|found| found.unwrap().0).collect();
        assert_eq!(found.into_iter().map(|found| found.unwrap().1).collect::<Vec<_>>(), commands);
        for (offset, command) in offsets.iter().zip(&commands) {
            assert_eq!(bytes[*offset], command.identifier());
        }
        let mut out = [0xa5; 40];
        assert_eq!(write_commands(&commands, &mut out), Ok(bytes.len()));
        assert_eq!(out[..bytes.len()], bytes);
        assert!(out[bytes.len()..].iter().all(|&byte| byte == 0xa5));
        assert_eq!(write_commands(&commands, &mut out[..bytes.len()]), Ok(bytes.len()));
    }
    assert_eq!(write_commands(&[], &mut []), Ok(0));
    assert_eq!(read_all(Direction::Up, &[]), []);
}

/// A list that is cut anywhere gives the commands ahead of the cut, then where the cut one begins.
#[test]
fn cut_short() {
    for direction in [Direction::Down, Direction::Up] {
        let (_, bytes) = all(direction);
        let whole = read_all(direction, &bytes);
        for length in 0..bytes.len() {
            let mut due: Vec<_> = whole.iter().copied().take_while(|found| found.unwrap().0 < length).collect();
            let end = whole.get(due.len()).map_or(bytes.len(), |found| found.unwrap().0);
            if end != length {
                let (offset, _) = due.pop().unwrap().unwrap();
                due.push(Err(Reason::CommandCutShort.at(offset)));
            }
            assert_eq!(read_all(direction, &bytes[..length]), due);
        }
    }
}

/// From any offset on; at the end and past it there is none.
#[test]
fn from_an_offset() {
    let (commands, bytes) = all(Direction::Up);
    let mut whole = read_commands(Direction::Up, &bytes);
    for (place, command) in commands.iter().enumerate() {
        let offset = whole.offset();
        assert_eq!(Commands::starting_at(Direction::Up, &bytes, offset).count(), commands.len() - place);
        assert_eq!(whole.next(), Some(Ok((offset, *command))));
    }
    assert_eq!(whole.offset(), bytes.len());
    for offset in [bytes.len(), bytes.len() + 1, usize::MAX] {
        assert_eq!(Commands::starting_at(Direction::Up, &bytes, offset).next(), None);
    }
    assert_eq!(Commands::starting_at(Direction::Up, &[2, 0], 1).next(), Some(Err(Reason::UnknownCommand.at(1))));
}

#[test]
fn unknown() {
    for direction in [Direction::Down, Direction::Up] {
        for identifier in (0..2).chain(11..=255) {
            let (commands, mut bytes) = all(direction);
            bytes.push(identifier);
            let mut found = read_commands(direction, &bytes);
            assert_eq!(found.by_ref().take(commands.len()).filter(|found| found.is_ok()).count(), commands.len());
            assert_eq!(found.next(), Some(Err(Reason::UnknownCommand.at(bytes.len() - 1))));
            assert_eq!([found.next(), found.next()], [None, None]);
        }
    }
}

/// Each value of each byte behind an identifier reads as the byte with its reserved bits 0, and is written back so.
#[test]
fn reserved_bits() {
    let reserved = [
        (Direction::Down, vec![0x03, 0, 0, 0], 0x80),
        (Direction::Down, vec![0x04], 0xf0),
        (Direction::Down, vec![0x08], 0xf0),
        (Direction::Down, vec![0x09], 0xc0),
        (Direction::Up, vec![0x03], 0xf8),
        (Direction::Up, vec![0x05], 0xf8),
        (Direction::Up, vec![0x06, 9], 0xc0),
        (Direction::Up, vec![0x07], 0xfc),
        (Direction::Up, vec![0x0a], 0xfc),
    ];
    for (direction, start, ignored) in reserved {
        for byte in 0..=255_u8 {
            let with = |byte| [&start[..], &[byte]].concat();
            let found = read_all(direction, &with(byte));
            assert_eq!(found, read_all(direction, &with(byte & !ignored)));
            let mut out = vec![0; start.len() + 1];
            found[0].unwrap().1.write(&mut out, 0).unwrap();
            assert_eq!(out, with(byte & !ignored));
        }
    }
    let dl_settings = |byte| read_all(Direction::Down, &[5, byte, 1, 2, 3]);
    assert_eq!(dl_settings(0xff), dl_settings(0x7f));
}

fn adr(data_rate: u8, tx_power: u8, control: u8, transmissions: u8) -> Command {
    LinkADRReq { data_rate, tx_power, mask: 0xffff, control, transmissions }
}

fn rx(rx1_offset: u8, rx2_data_rate: u8, frequency: u32) -> Command {
    RXParamSetupReq { rx1_offset, rx2_data_rate, frequency }
}

fn channel(frequency: u32, max_data_rate: u8, min_data_rate: u8) -> Command {
    NewChannelReq { index: 255, frequency, max_data_rate, min_data_rate }
}

fn tx(max_eirp: u8) -> Command {
    TxParamSetupReq { downlink_dwell: true, uplink_dwell: true, max_eirp }
}

/// The greatest value that each field holds.
#[test]
fn limits() {
    let good = [
        adr(15, 15, 7, 15),
        DutyCycleReq { max: 15 },
        rx(7, 15, 0xff_ffff),
        channel(0xff_ffff, 15, 15),
        RXTimingSetupReq { delay: 15 },
        tx(15),
        DlChannelReq { index: 255, frequency: 0xff_ffff },
        DevStatusAns { battery: 0, margin: -32 },
        DevStatusAns { battery: 0, margin: -1 },
        DevStatusAns { battery: 0, margin: 31 },
    ];
    for command in good {
        let mut out = [0; 6];
        let end = command.write(&mut out, 0).unwrap();
        assert_eq!(read_all(command.direction(), &out[..end]), [Ok((0, command))]);
    }
}

/// The next one, and the last that its type has. Room is not looked at then.
#[test]
fn beyond_the_limits() {
    let bad = [
        [adr(16, 0, 0, 0), adr(0, 16, 0, 0), adr(0, 0, 8, 0), adr(0, 0, 0, 16)],
        [DutyCycleReq { max: 16 }, rx(8, 0, 0), rx(0, 16, 0), rx(0, 0, 0x100_0000)],
        [channel(0x100_0000, 0, 0), channel(u32::MAX, 0, 0), channel(0, 16, 0), channel(0, 0, 16)],
        [RXTimingSetupReq { delay: 16 }, tx(16), tx(255), DlChannelReq { index: 0, frequency: 0x8000_0000 }],
        [-128, -33, 32, 127].map(|margin| DevStatusAns { battery: 0, margin }),
    ];
    for command in bad.as_flattened() {
        let mut out = [0xa5; 6];
        assert_eq!(command.write(&mut out, 0), Err(Reason::ValueOutOfRange.at(0)));
        assert_eq!(command.write(&mut [], usize::MAX), Err(Reason::ValueOutOfRange.at(0)));
        assert_eq!(out, [0xa5; 6]);
    }
}

/// The first that is refused decides, and no byte is written.
#[test]
fn refused_lists() {
    let (good, bad) = (RXTimingSetupReq { delay: 1 }, RXTimingSetupReq { delay: 16 });
    for room in 0..8 {
        let mut out = vec![0xa5; room];
        let list = [good, good, bad, good];
        let refused = write_commands(&list, &mut out).unwrap_err();
        let (index, reason) = match room {
            0 | 1 => (0, Reason::BufferTooShort),
            2 | 3 => (1, Reason::BufferTooShort),
            _ => (2, Reason::ValueOutOfRange),
        };
        assert_eq!(refused, ListRefusal { index, command: list[index], refusal: reason.at(0) });
        assert!(out.iter().all(|&byte| byte == 0xa5));
    }
    let refused = write_commands(&[good, bad], &mut [0; 9]).unwrap_err();
    assert_eq!(
        refused.to_string(),
        "ValueOutOfRange: a value that the command's field cannot hold, RXTimingSetupReq at index 1"
    );
    assert_eq!(Refusal::from(refused), Reason::ValueOutOfRange.at(0));
}

const KEYS: (NwkSKey, AppSKey) = (NwkSKey([2; 16]), AppSKey([1; 16]));

fn fields(direction: Direction, port: Option<u8>) -> Data<'static> {
    let kind = if direction == Direction::Up { DataKind::ConfirmedUp } else { DataKind::UnconfirmedDown };
    Data { kind, dev_addr: [4, 3, 2, 1], fctrl: 0x80, counter: 9, port, commands: &[], payload: &[] }
}

fn data(frame: &[u8]) -> DataFields<'_> {
    match read(frame) {
        Ok(Reading::Data(data)) => data,
        other => panic!("not data: {other:?}"),
    }
}

/// The commands that a frame yields, each at its place in the frame.
fn found(commands: Commands, frame: &[u8]) -> Vec<Command> {
    let at_its_place = |found: Result<(usize, Command)>| {
        let (offset, command) = found.unwrap();
        assert_eq!(frame[offset], command.identifier());
        command
    };
    commands.map(at_its_place).collect()
}

#[test]
fn on_frames() {
    for direction in [Direction::Down, Direction::Up] {
        let (commands, bytes) = all(direction);
        let mut frame = fields(direction, Some(0)).build_with(&commands, &KEYS.0, &KEYS.1).unwrap();
        let raw = Data { commands: &bytes, ..fields(direction, Some(0)) };
        assert_eq!(frame, raw.build(&KEYS.0, &KEYS.1).unwrap());
        decrypt_data_checked(frame.as_mut_bytes(), &KEYS.0, None, 9).unwrap();
        assert_eq!(found(data(&frame).payload_commands(), &frame), commands);
        assert_eq!(found(data(&frame).fopts_commands(), &frame), []);
        assert_eq!(data(&frame).payload_commands().direction(), direction);

        let few = &commands[..3];
        for port in [None, Some(1)] {
            let payload: &[u8] = if port.is_some() { &[2, 2] } else { &[] };
            let fields = Data { payload, ..fields(direction, port) };
            let frame = fields.build_with(few, &KEYS.0, &KEYS.1).unwrap();
            assert_eq!(found(data(&frame).fopts_commands(), &frame), few);
            assert_eq!(found(data(&frame).payload_commands(), &frame), []);
        }
    }
}

#[test]
fn refused_buildings() {
    let build = |direction, port, commands: &[Command]| fields(direction, port).build_with(commands, &KEYS.0, &KEYS.1);
    let sixteen = [DutyCycleReq { max: 1 }; 8];
    assert_eq!(build(Direction::Down, None, &sixteen), Err(Reason::MacCommandTooBigForFOpts.at(0)));
    assert_eq!(build(Direction::Down, Some(0), &[DevStatusReq; 242]).map(|frame| frame.len()), Ok(255));
    assert_eq!(build(Direction::Down, Some(0), &[DevStatusReq; 243]), Err(Reason::FrameTooLong.at(0)));
    assert_eq!(build(Direction::Down, None, &[DutyCycleReq { max: 16 }]), Err(Reason::ValueOutOfRange.at(0)));
    for (command, _) in EVERY {
        let other = if command.direction() == Direction::Up { Direction::Down } else { Direction::Up };
        assert_eq!(build(other, None, &[command]), Err(Reason::UnknownCommand.at(0)));
        assert!(build(command.direction(), None, &[command]).is_ok());
    }
}

/// A fault in a frame's list has its place in the frame.
#[test]
fn faults_on_frames() {
    let frame = [0x60, 4, 3, 2, 1, 3, 7, 0, 6, 3, 0, 0, 7, 9, 0x11, 0x22, 0x33, 0x44];
    let [fopts, payload] = [data(&frame).fopts_commands(), data(&frame).payload_commands()].map(Vec::from_iter);
    assert_eq!(fopts, [Ok((8, DevStatusReq)), Err(Reason::CommandCutShort.at(9))]);
    assert_eq!(payload, [Err(Reason::CommandCutShort.at(12))]);
    let bare = [0x40, 4, 3, 2, 1, 1, 7, 0, 11, 0x11, 0x22, 0x33, 0x44];
    assert_eq!(Vec::from_iter(data(&bare).fopts_commands()), [Err(Reason::UnknownCommand.at(8))]);
    assert_eq!(Vec::from_iter(data(&bare).payload_commands()), []);
}

#[test]
fn values_for_a_person() {
    for (command, _) in EVERY {
        let bits = matches!(command.name(), "LinkADRAns" | "RXParamSetupAns" | "NewChannelAns" | "DlChannelAns");
        assert_eq!(command.accepted(), bits.then_some(false));
        let has_one = matches!(command.name(), "RXParamSetupReq" | "NewChannelReq" | "DlChannelReq");
        assert_eq!(command.frequency_hz().is_some(), has_one);
    }
    assert_eq!(LinkADRAns { power: true, data_rate: true, mask: true }.accepted(), Some(true));
    assert_eq!(DlChannelReq { index: 0, frequency: 8_681_200 }.frequency_hz(), Some(868_120_000));
    assert_eq!(DlChannelReq { index: 0, frequency: u32::MAX }.frequency_hz(), Some(429_496_729_500));
    assert_eq!([0, 12, 15, 16].map(|code| tx(code).max_eirp_dbm()), [Some(8), Some(29), Some(36), None]);
    assert_eq!(DevStatusReq.max_eirp_dbm(), None);
}

#[test]
fn texts() {
    let due = [
        "LinkCheckAns: margin 20 dB, gateways 7",
        "LinkADRReq: data rate 5, TX power 2, mask 0xff01, control 7, transmissions 1",
        "DutyCycleReq: at most 1/2^11 of the time",
        "RXParamSetupReq: RX1 offset 6, RX2 data rate 3, 869.2302 MHz",
        "DevStatusReq",
        "NewChannelReq: channel 8, 1058.5658 MHz, data rates 2 to 5",
        "RXTimingSetupReq: delay 12 s",
        "TxParamSetupReq: dwell down 400 ms, dwell up no limit, EIRP up to 30 dBm",
        "DlChannelReq: channel 3, 868.1200 MHz",
        "LinkCheckReq",
        "LinkADRAns: power accepted, data rate refused, mask accepted",
        "DutyCycleAns",
        "RXParamSetupAns: RX1 offset refused, RX2 data rate accepted, channel refused",
        "DevStatusAns: battery unknown, margin -7 dB",
        "NewChannelAns: data rate range accepted, frequency refused",
        "RXTimingSetupAns",
        "TxParamSetupAns",
        "DlChannelAns: uplink frequency missing, frequency accepted",
    ];
    assert_eq!(EVERY.map(|(command, _)| command.to_string()), due);
}

#[test]
fn texts_of_other_values() {
    let others = [
        (DutyCycleReq { max: 0 }, "DutyCycleReq: no limit"),
        (DutyCycleReq { max: 255 }, "DutyCycleReq: at most 1/2^255 of the time"),
        (RXTimingSetupReq { delay: 0 }, "RXTimingSetupReq: delay 1 s"),
        (DevStatusAns { battery: 0, margin: 31 }, "DevStatusAns: external power, margin 31 dB"),
        (DevStatusAns { battery: 254, margin: 0 }, "DevStatusAns: battery 254 of 254, margin 0 dB"),
        (
            TxParamSetupReq { downlink_dwell: false, uplink_dwell: true, max_eirp: 16 },
            "TxParamSetupReq: dwell down no limit, dwell up 400 ms, EIRP code 16",
        ),
        (DlChannelAns { uplink: true, frequency: false }, "DlChannelAns: uplink frequency exists, frequency refused"),
        (DlChannelReq { index: 0, frequency: 1 }, "DlChannelReq: channel 0, 0.0001 MHz"),
        (DlChannelReq { index: 0, frequency: u32::MAX }, "DlChannelReq: channel 0, 429496.7295 MHz"),
    ];
    for (command, text) in others {
        assert_eq!(command.to_string(), text);
    }
}
