//! The crate's reader on what the oracle built, also where the crate's builders are no judge.

use crate::opened::{parsed_data, parsed_join_accept, parsed_join_request};
use crate::records::{BuildData, BuildJoinAccept, BuildJoinRequest};
use crate::Judge;
use lorawan::keys::AppKey;
use lorawan::parser::{CfList, DataHeader};

fn frame_of(answer: &[u8]) -> Vec<u8> {
    let length = usize::from(u16::from_le_bytes([answer[1], answer[2]]));
    answer[3..3 + length].to_vec()
}

pub fn join_request<F: Judge>(call: &BuildJoinRequest, answer: &[u8]) -> bool {
    let mut frame = frame_of(answer);
    let Ok(request) = parsed_join_request::<F>(&mut frame) else { return false };
    request.validate_mic(&call.app_key)
        && request.app_eui().as_ref() == call.app_eui
        && request.dev_eui().as_ref() == call.dev_eui
        && request.dev_nonce().as_ref() == call.dev_nonce
}

fn channels(list: Option<CfList>) -> Option<Vec<u32>> {
    match list {
        Some(CfList::DynamicChannel(channels)) => Some(channels.iter().map(|c| c.value() / 100).collect()),
        _ => None,
    }
}

pub fn join_accept<F: Judge>(call: &BuildJoinAccept, answer: &[u8]) -> bool {
    let mut frame = frame_of(answer);
    let key = AppKey::from(call.app_key.0);
    let Ok(accept) = parsed_join_accept::<F>(&mut frame) else { return false };
    let clear = accept.decrypt(&key);
    let filled = call.channels.clone().map(|mut list| {
        list.resize(5, 0);
        list
    });
    clear.validate_mic(&key)
        && clear.app_nonce().as_ref() == call.app_nonce
        && clear.net_id().as_ref() == call.net_id
        && clear.dev_addr().as_ref() == call.dev_addr
        && clear.dl_settings().raw_value() == call.dl_settings
        && clear.rx_delay() == call.rx_delay % 16
        && channels(clear.c_f_list()) == filled
}

/// Fields, FOpts and the decrypted payload; the crate reads a port with an empty payload as absent.
pub fn data<F: Judge>(call: &BuildData, answer: &[u8]) -> bool {
    let mut frame = frame_of(answer);
    let Ok(data) = parsed_data::<F>(&mut frame) else { return false };
    let zero = call.port == Some(0);
    let (fopts, payload) = if zero { (&[][..], &call.commands[..]) } else { (&call.commands[..], &call.payload[..]) };
    let port = if payload.is_empty() { None } else { call.port };
    if !data.validate_mic(&call.network, call.counter) || data.f_port() != port {
        return false;
    }
    let Ok(open) = data.decrypt(Some(&call.network), Some(&call.application), call.counter) else { return false };
    let (fhdr, bytes) = (open.fhdr(), open.as_data_bytes());
    open.is_confirmed() == call.confirmed
        && open.is_uplink() == call.uplink
        && fhdr.dev_addr().as_ref() == call.dev_addr
        && fhdr.fctrl().raw_value() == call.fctrl | fopts.len() as u8
        && fhdr.fcnt() == call.counter as u16
        && fhdr.data() == fopts
        && bytes[bytes.len() - 4 - payload.len()..bytes.len() - 4] == *payload
}
