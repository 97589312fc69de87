//! The intended differences on MAC commands, as `intended` has the others.

use crate::intended::{refused, said, shown, Shown, FILL};
use crosscheck::opened::parsed_data;
use crosscheck::records::hex;
use factory::OpenSsl;
use lorawan::maccommandcreator::*;
use lorawan::maccommands::*;
use lorawan::parser::DataHeader;
use zinovoky::{self as port, Command, Commands, Direction};

/// The names of the commands that the crate's iterator yields.
fn names<T: std::fmt::Debug>(commands: impl Iterator<Item = T>) -> String {
    let names: Vec<String> = commands.map(|command| format!("{command:?}")).collect();
    let ahead_of_fields = |name: &String| name.split('(').next().unwrap_or("").to_string();
    match &names[..] {
        [] => "nothing".into(),
        _ => names.iter().map(ahead_of_fields).collect::<Vec<_>>().join(" "),
    }
}

fn crate_up(bytes: &'static [u8]) -> String {
    said(|| names(parse_uplink_mac_commands(bytes)))
}

/// The names of the commands that the port yields, and the fault.
fn found(commands: Commands) -> String {
    let each = commands.map(|found| match found {
        Ok((_, command)) => command.name().to_string(),
        Err(refusal) => format!("{} at {}", refusal.number(), refusal.place),
    });
    each.collect::<Vec<_>>().join(" ")
}

fn port_up(bytes: &[u8]) -> String {
    found(port::read_commands(Direction::Up, bytes))
}

/// The iterator ends as at the end of a list.
pub fn silent_faults() -> Shown {
    let lists: [&[u8]; 2] = [&[0x0b], &[0x06]];
    shown(lists.map(crate_up).join("; "), lists.map(port_up).join("; "), "nothing; nothing", "16 at 0; 17 at 0")
}

pub fn device_time() -> Shown {
    let down: &[u8] = &[0x0d, 0, 0, 0, 0, 0];
    shown(
        [crate_up(&[0x0d]), names(parse_downlink_mac_commands(down))].join("; "),
        [port_up(&[0x0d]), found(port::read_commands(Direction::Down, down))].join("; "),
        "DeviceTimeReq; DeviceTimeAns",
        "16 at 0; 16 at 0",
    )
}

/// Whether the one answer in a list accepts all, by the crate.
fn acknowledged(bytes: &[u8]) -> Option<bool> {
    match parse_uplink_mac_commands(bytes).next()? {
        UplinkMacCommand::LinkADRAns(answer) => Some(answer.ack()),
        UplinkMacCommand::RXParamSetupAns(answer) => Some(answer.ack()),
        UplinkMacCommand::NewChannelAns(answer) => Some(answer.ack()),
        UplinkMacCommand::DlChannelAns(answer) => Some(answer.ack()),
        _ => None,
    }
}

/// All that was asked for is accepted, and a reserved bit is set.
pub fn acknowledged_with_reserved_bits() -> Shown {
    let lists: [&[u8]; 4] = [&[0x03, 0x0f], &[0x05, 0x0f], &[0x07, 0x07], &[0x0a, 0x07]];
    let accepted = |bytes| match port::read_commands(Direction::Up, bytes).next() {
        Some(Ok((_, command))) => command.accepted(),
        _ => None,
    };
    let words = |answers: [Option<bool>; 4]| answers.map(|answer| answer.map_or("none", yes_or_no)).join(", ");
    shown(words(lists.map(acknowledged)), words(lists.map(accepted)), "no, no, no, yes", "yes, yes, yes, yes")
}

fn yes_or_no(answer: bool) -> &'static str {
    if answer {
        "yes"
    } else {
        "no"
    }
}

fn port_written(command: Command) -> String {
    let mut out = [FILL; 6];
    match command.write(&mut out, 0) {
        Ok(end) => hex(&out[..end]),
        refusal => refused(refusal, out == [FILL; 6]),
    }
}

pub fn reserved_bits_written() -> Shown {
    let (mut adr, mut duty, mut rx) =
        (LinkADRReqCreator::new(), DutyCycleReqCreator::new(), RXParamSetupReqCreator::new());
    adr.set_redundancy(0x80);
    let taken = duty.set_max_duty_cycle(16).is_ok();
    rx.set_dl_settings(0x80);
    let crate_says = [hex(adr.build()), format!("{} {}", hex(duty.build()), yes_or_no(taken)), hex(rx.build())];
    let commands = [
        Command::LinkADRReq { data_rate: 0, tx_power: 0, mask: 0, control: 8, transmissions: 0 },
        Command::DutyCycleReq { max: 16 },
        Command::RXParamSetupReq { rx1_offset: 8, rx2_data_rate: 0, frequency: 0 },
    ];
    shown(
        crate_says.join("; "),
        commands.map(port_written).join("; "),
        "0300000080; 0410 yes; 0580000000",
        "18, unchanged; 18, unchanged; 18, unchanged",
    )
}

/// Both setters of a dwell time clear the lowest bit of the power.
pub fn power_ahead_of_dwell() -> Shown {
    let with = |dwell: fn(&mut TXParamSetupReqCreator) -> &mut TXParamSetupReqCreator| {
        let mut creator = TXParamSetupReqCreator::new();
        creator.set_max_eirp(15).map(drop).expect("a power of four bits");
        hex(dwell(&mut creator).build())
    };
    let crate_says =
        [with(TXParamSetupReqCreator::set_uplink_dwell_time), with(TXParamSetupReqCreator::set_downlink_dwell_time)];
    let port_says = [false, true].map(|downlink_dwell| {
        port_written(Command::TxParamSetupReq { downlink_dwell, uplink_dwell: !downlink_dwell, max_eirp: 15 })
    });
    shown(crate_says.join("; "), port_says.join("; "), "091e; 092e", "091f; 092f")
}

pub fn default_creator() -> Shown {
    let theirs = hex(LinkADRAnsCreator::default().build());
    let ours = port_written(Command::LinkADRAns { power: false, data_rate: false, mask: false });
    shown(theirs, ours, "0000", "0300")
}

pub fn direction_of_a_command() -> Shown {
    let list = [0x06, 0, 0];
    let theirs = parse_uplink_mac_commands(&list).next().map(|command| command.uplink());
    let ours = port::read_commands(Direction::Up, &list).next().map(|found| found.map(|(_, found)| found.direction()));
    shown(format!("{theirs:?}"), format!("{ours:?}"), "Some(false)", "Some(Ok(Up))")
}

/// The crate reads a frame's list by the type that the caller asks for.
pub fn direction_of_a_frame() -> Shown {
    let frame = [0x60, 0, 0, 0, 0, 1, 0, 0, 0x02, 0, 0, 0, 0];
    let mut copy = frame;
    let theirs = parsed_data::<OpenSsl>(&mut copy).map(|data| {
        let fhdr = data.fhdr();
        names(MacCommandIterator::<UplinkMacCommand>::from(&fhdr))
    });
    let ours = match port::read(&frame) {
        Ok(port::Reading::Data(data)) => found(data.fopts_commands()),
        other => format!("{other:?}"),
    };
    shown(theirs.unwrap_or_default(), ours, "LinkCheckReq", "17 at 8")
}

pub fn one_byte_missing() -> Shown {
    let lists: [&[u8]; 2] = [&[0x03], &[0x06, 0xff]];
    shown(lists.map(crate_up).join("; "), lists.map(port_up).join("; "), "panics; panics", "17 at 0; 17 at 0")
}
