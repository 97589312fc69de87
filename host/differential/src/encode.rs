//! Case files, as tools/oracle/README.md has them: the counterpart of crosscheck's `records`.

use crosscheck::records::{Amend, BuildData, BuildJoinAccept, BuildJoinRequest, Case, HeldCall, Hold, WriteCommand};
use lorawan::keys::AES128;

fn bytes(part: &[u8]) -> Vec<u8> {
    [&(part.len() as u16).to_le_bytes(), part].concat()
}

fn maybe_key(key: &Option<AES128>) -> [u8; 17] {
    let mut out = [0; 17];
    if let Some(key) = key {
        out[0] = 1;
        out[1..].copy_from_slice(&key.0);
    }
    out
}

fn room(room: usize) -> [u8; 2] {
    (room as u16).to_le_bytes()
}

fn join_request(call: &BuildJoinRequest) -> Vec<u8> {
    [&[9], &call.app_eui[..], &call.dev_eui, &call.dev_nonce, &call.app_key.0, &room(call.room)].concat()
}

fn join_accept(call: &BuildJoinAccept) -> Vec<u8> {
    let list = call.channels.as_deref().unwrap_or(&[]);
    let mut channels = vec![call.channels.is_some().into(), list.len() as u8];
    channels.extend(list.iter().flat_map(|channel| channel.to_le_bytes()));
    let numbers = [call.dl_settings, call.rx_delay];
    let fixed = [&[10], &call.app_nonce[..], &call.net_id, &call.dev_addr, &numbers].concat();
    [&fixed[..], &channels, &call.app_key.0, &room(call.room)].concat()
}

fn data(call: &BuildData) -> Vec<u8> {
    let flags = [11, call.confirmed.into(), call.uplink.into()];
    let port = call.port.map_or([0, 0], |port| [1, port]);
    let head = [&flags, &call.dev_addr[..], &[call.fctrl], &call.counter.to_le_bytes(), &port].concat();
    let keys = [call.network.0, call.application.0].concat();
    [&head[..], &bytes(&call.commands), &bytes(&call.payload), &keys, &room(call.room)].concat()
}

/// The amendments stand behind what opens the frame.
fn amend(kind: u8, call: &Amend, amendments: Vec<u8>) -> Vec<u8> {
    let keys = [call.network.0, call.application.0].concat();
    [&[kind], &keys[..], &call.counter.to_le_bytes(), &bytes(&call.frame), &amendments].concat()
}

fn amendments(amendments: &[(u32, u8)]) -> Vec<u8> {
    let count = (amendments.len() as u16).to_le_bytes();
    let each = amendments.iter().flat_map(|&(offset, value)| offset.to_le_bytes().into_iter().chain([value]));
    count.into_iter().chain(each).collect()
}

fn list(amendments: &[(u32, u8)]) -> Vec<u8> {
    let count = (amendments.len() as u16).to_le_bytes();
    let numbers = amendments.iter().flat_map(|&(offset, value)| (offset << 8 | u32::from(value)).to_le_bytes());
    count.into_iter().chain(numbers).collect()
}

fn held_call(call: &HeldCall) -> Vec<u8> {
    if let (false, [(offset, value)]) = (call.list, &call.amendments[..]) {
        return [&[0], &offset.to_le_bytes()[..], &[*value]].concat();
    }
    [vec![1], list(&call.amendments)].concat()
}

fn hold(call: &Hold) -> Vec<u8> {
    let keys = [call.network.0, call.application.0].concat();
    let head = [&[15], &keys[..], &call.counter.to_le_bytes(), &bytes(&call.frame), &room(call.room)].concat();
    let count = (call.calls.len() as u16).to_le_bytes();
    head.into_iter().chain(count).chain(call.calls.iter().flat_map(held_call)).collect()
}

fn write_command(call: &WriteCommand) -> Vec<u8> {
    let values = call.values.map(i32::to_le_bytes).concat();
    let head = [19, call.uplink.into(), call.identifier];
    [&head, &values[..], &room(call.room), &call.offset.to_le_bytes()].concat()
}

/// A record's body.
pub fn encode(case: &Case) -> Vec<u8> {
    match case {
        Case::MicJoinRequest { app_key, frame } => [&[1], &app_key.0[..], &bytes(frame)].concat(),
        Case::MicJoinAccept { app_key, frame } => [&[2], &app_key.0[..], &bytes(frame)].concat(),
        Case::MicData { network, counter, frame } => {
            [&[3], &network.0[..], &counter.to_le_bytes(), &bytes(frame)].concat()
        }
        Case::DecryptData { network, application, counter, frame } => {
            let keys = [maybe_key(network), maybe_key(application)].concat();
            [&[4], &keys[..], &counter.to_le_bytes(), &bytes(frame)].concat()
        }
        Case::DecryptDataChecked { network, application, counter, frame } => {
            let keys = [&network.0[..], &maybe_key(application)].concat();
            [&[5], &keys[..], &counter.to_le_bytes(), &bytes(frame)].concat()
        }
        Case::DecryptJoinAccept { app_key, frame } => [&[6], &app_key.0[..], &bytes(frame)].concat(),
        Case::DecryptJoinAcceptChecked { app_key, frame } => [&[7], &app_key.0[..], &bytes(frame)].concat(),
        Case::SessionKeys { app_key, dev_nonce, frame } => [&[8], &app_key.0[..], dev_nonce, &bytes(frame)].concat(),
        Case::BuildJoinRequest(call) => join_request(call),
        Case::BuildJoinAccept(call) => join_accept(call),
        Case::BuildData(call) => data(call),
        Case::Amend(call) => amend(12, call, amendments(&call.amendments)),
        Case::Read { frame } => [&[13], &bytes(frame)[..]].concat(),
        Case::ReadClearJoinAccept { frame } => [&[14], &bytes(frame)[..]].concat(),
        Case::Hold(call) => hold(call),
        Case::ReadJoinRequest { frame } => [&[16], &bytes(frame)[..]].concat(),
        Case::AmendLent(call) => amend(17, call, list(&call.amendments)),
        Case::ReadCommands { uplink, offset, bytes: list } => {
            [&[18, (*uplink).into()], &offset.to_le_bytes()[..], &bytes(list)].concat()
        }
        Case::WriteCommand(call) => write_command(call),
        Case::FrameCommands { frame } => [&[20], &bytes(frame)[..]].concat(),
    }
}

/// A record: the body's length, then the body.
pub fn record(case: &Case) -> Vec<u8> {
    bytes(&encode(case))
}
