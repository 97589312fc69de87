//! The cases: short inputs exhaustively, then random ones of each kind.

use crate::frames;
use crate::random::Random;
use crosscheck::records::{Amend, BuildData, BuildJoinAccept, BuildJoinRequest, Case, HeldCall, Hold};

/// Each first byte, length and byte 5 to that depth, the other bytes random, through the reader; above 40 bytes byte 5
/// by its low half only, which is the half that matters to the places.
pub fn every_reading(random: &mut Random, mut run: impl FnMut(&Case)) {
    for first in 0..=255_u8 {
        for length in 0..=260 {
            let mut frame = random.bytes(length);
            let fives = match length {
                0..=5 => 1,
                6..=40 => 256,
                _ => 16,
            };
            for five in 0..fives {
                if let Some(byte) = frame.first_mut() {
                    *byte = first;
                }
                if length > 5 {
                    frame[5] = five as u8;
                }
                if let Some(port) = frame.get_mut(8 + five % 16) {
                    *port = if random.one_in(2) { 0 } else { random.byte() };
                }
                run(&Case::Read { frame: frame.clone() });
            }
        }
    }
}

/// Each first byte, length up to 40 and FOptsLen through every other call that takes a frame.
pub fn every_short_frame(random: &mut Random, mut run: impl FnMut(&Case)) {
    for first in 0..=255_u8 {
        for length in 0..=40 {
            for five in 0..if length > 5 { 16 } else { 1 } {
                let mut frame = random.bytes(length);
                if let Some(byte) = frame.first_mut() {
                    *byte = first;
                }
                if length > 5 {
                    frame[5] = random.byte() & 0xf0 | five;
                }
                for kind in FRAME_CALLS {
                    run(&with_frame(random, kind, frame.clone()));
                }
                let (network, counter) = (random.key(), random.word());
                run(&held(random, network, counter, frame));
            }
        }
    }
}

/// Each length of commands and payload up to past the longest, with no port, port 0 and another one.
pub fn every_data_building(random: &mut Random, mut run: impl FnMut(&Case)) {
    for port in [None, Some(0), Some(1)] {
        for commands in 0..=17 {
            for payload in 0..=245 {
                run(&Case::BuildData(BuildData { port, room: 255, ..data(random, commands, payload) }));
            }
        }
        for commands in 0..=250 {
            run(&Case::BuildData(BuildData { port, room: 256, ..data(random, commands, 0) }));
        }
    }
}

fn data(random: &mut Random, commands: usize, payload: usize) -> BuildData {
    BuildData {
        confirmed: random.one_in(2),
        uplink: random.one_in(2),
        dev_addr: random.array(),
        fctrl: random.byte() & 0xf0,
        counter: random.word(),
        port: None,
        commands: random.bytes(commands),
        payload: random.bytes(payload),
        network: random.key(),
        application: random.key(),
        room: 255,
    }
}

#[derive(Clone, Copy)]
enum Kind {
    MicJoinRequest,
    MicJoinAccept,
    MicData,
    DecryptData,
    DecryptDataChecked,
    DecryptJoinAccept,
    DecryptJoinAcceptChecked,
    SessionKeys,
    ReadClearJoinAccept,
    ReadJoinRequest,
    AmendLent,
}

const FRAME_CALLS: [Kind; 11] = [
    Kind::MicJoinRequest,
    Kind::MicJoinAccept,
    Kind::MicData,
    Kind::DecryptData,
    Kind::DecryptDataChecked,
    Kind::DecryptJoinAccept,
    Kind::DecryptJoinAcceptChecked,
    Kind::SessionKeys,
    Kind::ReadClearJoinAccept,
    Kind::ReadJoinRequest,
    Kind::AmendLent,
];

/// A call on that frame, under keys and a counter that have nothing to do with it.
fn with_frame(random: &mut Random, kind: Kind, frame: Vec<u8>) -> Case {
    let (key, counter) = (random.key(), random.word());
    let application = random.one_in(2).then(|| random.key());
    match kind {
        Kind::MicJoinRequest => Case::MicJoinRequest { app_key: key, frame },
        Kind::MicJoinAccept => Case::MicJoinAccept { app_key: key, frame },
        Kind::MicData => Case::MicData { network: key, counter, frame },
        Kind::DecryptData => {
            Case::DecryptData { network: random.one_in(2).then_some(key), application, counter, frame }
        }
        Kind::DecryptDataChecked => Case::DecryptDataChecked { network: key, application, counter, frame },
        Kind::DecryptJoinAccept => Case::DecryptJoinAccept { app_key: key, frame },
        Kind::DecryptJoinAcceptChecked => Case::DecryptJoinAcceptChecked { app_key: key, frame },
        Kind::SessionKeys => Case::SessionKeys { app_key: key, dev_nonce: random.array(), frame },
        Kind::ReadClearJoinAccept => Case::ReadClearJoinAccept { frame },
        Kind::ReadJoinRequest => Case::ReadJoinRequest { frame },
        Kind::AmendLent => {
            let amendments = listed(amendments(random, &frame));
            Case::AmendLent(Amend { network: key, application: random.key(), counter, frame, amendments })
        }
    }
}

/// Up to eight, nearly all inside the payload; now and then the first place outside, or a far one.
fn amendments(random: &mut Random, frame: &[u8]) -> Vec<(u32, u8)> {
    let fopts = frame.get(5).map_or(0, |byte| usize::from(byte % 16));
    let payload = frame.len().saturating_sub(13 + fopts);
    let count = random.below(9);
    let outside = random.one_in(8);
    (0..count)
        .map(|_| {
            let offset = match random.below(if outside || payload == 0 { 3 } else { 1 }) {
                0 if payload > 0 => random.below(payload) as u32,
                1 => payload as u32,
                _ => random.word(),
            };
            (offset, random.byte())
        })
        .collect()
}

/// The same as a list, whose offsets go over in 24 bits.
fn listed(amendments: Vec<(u32, u8)>) -> Vec<(u32, u8)> {
    amendments.into_iter().map(|(offset, value)| (offset & 0xff_ffff, value)).collect()
}

/// A data frame with a good MIC under that key and counter, or a damaged copy of one.
fn data_frame(random: &mut Random, network: &lorawan::keys::AES128, counter: u32) -> Vec<u8> {
    let length = frames::length(random).clamp(12, 258);
    let frame = frames::data(random, length, network, counter);
    frames::damaged(random, frame)
}

fn on_data(random: &mut Random) -> Case {
    let (network, application) = (random.key(), random.key());
    let signed = random.word();
    let frame = data_frame(random, &network, signed);
    let counter = match random.below(8) {
        0 => signed ^ 1 << random.below(32),
        _ => signed,
    };
    let given = |random: &mut Random| !random.one_in(4);
    match random.below(4) {
        0 => Case::MicData { network, counter, frame },
        1 => Case::DecryptData {
            network: given(random).then_some(network),
            application: given(random).then_some(application),
            counter,
            frame,
        },
        2 => Case::DecryptDataChecked { network, application: given(random).then_some(application), counter, frame },
        _ => {
            let amendments = listed(amendments(random, &frame));
            Case::AmendLent(Amend { network, application, counter, frame, amendments })
        }
    }
}

/// One amendment, or a list of up to eight.
fn held_call(random: &mut Random, frame: &[u8]) -> HeldCall {
    let drawn = amendments(random, frame);
    if random.one_in(2) || drawn.is_empty() {
        return HeldCall { list: true, amendments: listed(drawn) };
    }
    HeldCall { list: false, amendments: drawn[..1].to_vec() }
}

/// Up to six calls on that frame; room for it mostly, and now and then too little, just enough or more.
fn held(random: &mut Random, network: lorawan::keys::AES128, counter: u32, frame: Vec<u8>) -> Case {
    let count = random.below(7);
    let calls = (0..count).map(|_| held_call(random, &frame)).collect();
    let room = match random.below(8) {
        0 => random.below(300),
        1 => frame.len().saturating_sub(1),
        2 => frame.len(),
        _ => 255,
    };
    Case::Hold(Hold { network, application: random.key(), counter, frame, room, calls })
}

/// A history of calls on a frame that is held open: mostly one with a good MIC under the counter that is given.
pub fn any_held(random: &mut Random) -> Case {
    let (network, signed) = (random.key(), random.word());
    let frame = data_frame(random, &network, signed);
    let counter = if random.one_in(8) { signed ^ 1 << random.below(32) } else { signed };
    held(random, network, counter, frame)
}

fn on_join(random: &mut Random) -> Case {
    let app_key = random.key();
    let frame = match random.below(3) {
        0 => frames::join_request(random, &app_key),
        1 => frames::clear_join_accept(random, &app_key),
        _ => frames::join_accept(random, &app_key),
    };
    let frame = frames::damaged(random, frame);
    match random.below(8) {
        0 => Case::MicJoinRequest { app_key, frame },
        1 => Case::MicJoinAccept { app_key, frame },
        2 => Case::DecryptJoinAccept { app_key, frame },
        3 => Case::DecryptJoinAcceptChecked { app_key, frame },
        4 => Case::SessionKeys { app_key, dev_nonce: random.array(), frame },
        5 => Case::Read { frame },
        6 => Case::ReadJoinRequest { frame },
        _ => Case::ReadClearJoinAccept { frame },
    }
}

fn build_join_request(random: &mut Random) -> Case {
    let room = if random.one_in(4) { random.below(48) } else { 23 };
    Case::BuildJoinRequest(BuildJoinRequest {
        app_eui: random.array(),
        dev_eui: random.array(),
        dev_nonce: random.array(),
        app_key: random.key(),
        room,
    })
}

fn channels(random: &mut Random) -> Vec<u32> {
    let too_high = random.one_in(4);
    let count = random.below(7);
    (0..count).map(|_| random.word() >> if too_high { 7 } else { 8 }).collect()
}

fn build_join_accept(random: &mut Random) -> Case {
    let channels = random.one_in(3).then(|| channels(random));
    let room = match random.below(4) {
        0 => random.below(48),
        _ if channels.is_some() => 32 + random.below(3),
        _ => 17,
    };
    Case::BuildJoinAccept(BuildJoinAccept {
        app_nonce: random.array(),
        net_id: random.array(),
        dev_addr: random.array(),
        dl_settings: random.byte(),
        rx_delay: random.byte(),
        channels,
        app_key: random.key(),
        room,
    })
}

fn build_data(random: &mut Random) -> Case {
    let port = match random.below(4) {
        0 => None,
        1 => Some(0),
        _ => Some(random.byte()),
    };
    let commands = if port == Some(0) && random.one_in(2) { random.below(250) } else { random.below(18) };
    let payload = match random.below(4) {
        0 => 0,
        1 => 215 + random.below(35),
        _ => random.below(243),
    };
    let payload = if port.unwrap_or(0) == 0 && !random.one_in(8) { 0 } else { payload };
    let fctrl = if random.one_in(16) { random.byte() } else { random.byte() & 0xf0 };
    let room = match random.below(8) {
        0 => random.below(300),
        1 => 254 + random.below(3),
        _ => 255,
    };
    Case::BuildData(BuildData { port, fctrl, room, ..data(random, commands, payload) })
}

/// A case of any kind.
pub fn any(random: &mut Random) -> Case {
    match random.below(12) {
        0 => Case::Read { frame: frames::any(random) },
        1 => {
            let (network, counter) = (random.key(), random.word());
            Case::Read { frame: data_frame(random, &network, counter) }
        }
        2 => {
            let kind = random.pick(&FRAME_CALLS);
            let frame = frames::any(random);
            with_frame(random, kind, frame)
        }
        3..=6 => on_data(random),
        7 | 8 => on_join(random),
        9 => build_join_request(random),
        10 => build_join_accept(random),
        _ => build_data(random),
    }
}
