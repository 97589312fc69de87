//! MAC commands: lists that fill a payload read with every field taken out, and single commands written, by the port and by
//! the crate's iterators and creators.

use crate::rows::{with, Call, Row};
use lorawan::maccommandcreator::*;
use lorawan::maccommands::*;
use std::hint::black_box;
use zinovoky::{read_commands, Command, Direction};

/// The longest payload.
const SIZE: usize = 242;

const UP: [Command; 9] = [
    Command::LinkADRAns { power: true, data_rate: true, mask: false },
    Command::DevStatusAns { battery: 200, margin: -7 },
    Command::LinkCheckReq,
    Command::RXParamSetupAns { rx1_offset: true, rx2_data_rate: true, channel: true },
    Command::DutyCycleAns,
    Command::NewChannelAns { range: true, frequency: false },
    Command::RXTimingSetupAns,
    Command::TxParamSetupAns,
    Command::DlChannelAns { uplink: true, frequency: true },
];

const ADR: Command = Command::LinkADRReq { data_rate: 5, tx_power: 2, mask: 0xff01, control: 6, transmissions: 1 };
const DOWN: [Command; 9] = [
    ADR,
    Command::NewChannelReq { index: 8, frequency: 8_671_000, max_data_rate: 5, min_data_rate: 0 },
    Command::DevStatusReq,
    Command::LinkCheckAns { margin: 20, gateways: 7 },
    Command::DutyCycleReq { max: 11 },
    Command::RXParamSetupReq { rx1_offset: 2, rx2_data_rate: 3, frequency: 8_695_250 },
    Command::RXTimingSetupReq { delay: 3 },
    Command::TxParamSetupReq { downlink_dwell: true, uplink_dwell: false, max_eirp: 13 },
    Command::DlChannelReq { index: 3, frequency: 8_681_000 },
];

/// These commands in turn, as long as the next one fits; then those of one byte, the third of each direction.
fn list(commands: &[Command], filling: Command) -> (usize, Vec<u8>) {
    let (mut bytes, mut at, mut count) = (vec![0; SIZE], 0, 0);
    for command in commands.iter().cycle() {
        match command.write(&mut bytes, at) {
            Ok(next) => (at, count) = (next, count + 1),
            Err(_) => break,
        }
    }
    while let Ok(next) = filling.write(&mut bytes, at) {
        (at, count) = (next, count + 1);
    }
    (count, bytes)
}

fn by_port(direction: Direction, count: usize, bytes: Vec<u8>) -> Call {
    with(bytes, move |bytes| {
        let mut found = 0;
        for command in read_commands(direction, bytes) {
            let Ok(command) = command else { panic!("the bench reads good lists") };
            black_box(command);
            found += 1;
        }
        assert_eq!(found, count);
    })
}

/// Every field of a command once.
fn taken_up(command: UplinkMacCommand) {
    use UplinkMacCommand::*;
    match command {
        LinkADRAns(answer) => drop(black_box((answer.powert_ack(), answer.data_rate_ack(), answer.channel_mask_ack()))),
        RXParamSetupAns(answer) => {
            black_box((answer.rx1_dr_offset_ack(), answer.rx2_data_rate_ack(), answer.channel_ack()));
        }
        DevStatusAns(answer) => drop(black_box((answer.battery(), answer.margin()))),
        NewChannelAns(answer) => drop(black_box((answer.data_rate_range_ack(), answer.channel_freq_ack()))),
        DlChannelAns(answer) => drop(black_box((answer.uplink_freq_ack(), answer.channel_freq_ack()))),
        _ => {}
    }
}

fn taken_down(command: DownlinkMacCommand) {
    use DownlinkMacCommand::*;
    match command {
        LinkCheckAns(answer) => drop(black_box((answer.margin(), answer.gateway_count()))),
        LinkADRReq(request) => {
            let (mask, redundancy) = (request.channel_mask(), request.redundancy());
            let mask = u16::from_le_bytes([mask.get_index(0), mask.get_index(1)]);
            let (control, transmissions) = (redundancy.channel_mask_control(), redundancy.number_of_transmissions());
            black_box((request.data_rate(), request.tx_power(), mask, control, transmissions));
        }
        DutyCycleReq(request) => drop(black_box(request.max_duty_cycle_raw())),
        RXParamSetupReq(request) => {
            let settings = request.dl_settings();
            black_box((settings.rx1_dr_offset(), settings.rx2_data_rate(), request.frequency().value()));
        }
        NewChannelReq(request) => {
            let range = request.data_rate_range();
            let rates = (range.max_data_rate(), range.min_data_rate());
            black_box((request.channel_index(), request.frequency().value(), rates));
        }
        RXTimingSetupReq(request) => drop(black_box(request.delay())),
        TXParamSetupReq(request) => {
            black_box((request.downlink_dwell_time(), request.uplink_dwell_time(), request.max_eirp()));
        }
        DlChannelReq(request) => drop(black_box((request.channel_index(), request.frequency().value()))),
        _ => {}
    }
}

fn by_crate(direction: Direction, count: usize, bytes: Vec<u8>) -> Call {
    match direction {
        Direction::Up => with(bytes, move |bytes| {
            assert_eq!(parse_uplink_mac_commands(bytes).map(taken_up).count(), count);
        }),
        Direction::Down => with(bytes, move |bytes| {
            assert_eq!(parse_downlink_mac_commands(bytes).map(taken_down).count(), count);
        }),
    }
}

fn reading(what: &'static str, commands: &[Command]) -> Row {
    let direction = commands[0].direction();
    let filling = if direction == Direction::Up { UP[2] } else { DOWN[2] };
    let (count, bytes) = list(commands, filling);
    let calls = vec![("port", by_port(direction, count, bytes.clone())), ("crate", by_crate(direction, count, bytes))];
    Row { what, size: SIZE, calls }
}

fn status_written(out: &mut [u8]) {
    let (battery, margin) = black_box((200, -7));
    let mut creator = DevStatusAnsCreator::new();
    creator.set_battery(battery).set_margin(margin).map(drop).expect("six bits");
    assert_eq!(build_mac_commands(&[&creator], out), Ok(3));
}

fn adr_written(out: &mut [u8]) {
    let (data_rate, tx_power, mask, redundancy) = black_box((5, 2, [0x01, 0xff], 0x61_u8));
    let mut creator = LinkADRReqCreator::new();
    creator.set_data_rate(data_rate).and_then(|creator| creator.set_tx_power(tx_power)).map(drop).expect("four bits");
    creator.set_channel_mask(mask).set_redundancy(redundancy);
    assert_eq!(build_mac_commands(&[&creator], out), Ok(5));
}

fn writing(what: &'static str, size: usize, command: Command, by_crate: fn(&mut [u8])) -> Row {
    let port = with(vec![0; size], move |out| assert_eq!(black_box(command).write(out, 0), Ok(size)));
    Row { what, size, calls: vec![("port", port), ("crate", with(vec![0; size], by_crate))] }
}

pub fn all() -> Vec<Row> {
    vec![
        reading("reading LinkADRAns and DevStatusAns", &UP[..2]),
        reading("reading every command up", &UP),
        reading("reading LinkADRReq and NewChannelReq", &DOWN[..2]),
        reading("reading every command down", &DOWN),
        writing("writing a DevStatusAns", 3, UP[1], status_written),
        writing("writing a LinkADRReq", 5, ADR, adr_written),
    ]
}
