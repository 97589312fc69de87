//! The crate's builders, in the part of their inputs where equality with them is due.

use crate::records::{BuildData, BuildJoinAccept, BuildJoinRequest};
use crate::{number_of_creator, Judge, Judged};
use lorawan::creator::{DataPayloadCreator, Error, JoinAcceptCreator, JoinRequestCreator};
use lorawan::keys::{AppKey, AppSKey, NewSKey};
use lorawan::maccommands::SerializableMacCommand;
use lorawan::parser::FCtrl;

/// Every byte of a lent output slice ahead of the call.
pub const FILL: u8 = 0xA5;

/// Raw command bytes as the crate wants them: an identifier and the rest.
pub struct RawCommands<'a>(pub &'a [u8]);

impl SerializableMacCommand for RawCommands<'_> {
    fn payload_bytes(&self) -> &[u8] {
        &self.0[1..]
    }

    fn cid(&self) -> u8 {
        self.0[0]
    }

    fn payload_len(&self) -> usize {
        self.0.len() - 1
    }
}

/// A success gives number, length and the whole slice. A refusal gives its number only: the crate's slice is part
/// written by then.
fn with_slice(built: Result<usize, Error>, slice: Vec<u8>) -> Judged {
    match built {
        Err(error) => Judged::Number(number_of_creator(&error)),
        Ok(length) => {
            let mut whole = vec![0];
            whole.extend((length as u16).to_le_bytes());
            whole.extend(slice);
            Judged::Whole(whole)
        }
    }
}

/// Due for a slice of exactly 23 bytes: the crate returns the entire slice.
pub fn join_request<F: Judge>(call: &BuildJoinRequest) -> Judged {
    if call.room != 23 {
        return Judged::Outside;
    }
    let mut slice = vec![FILL; call.room];
    let built = JoinRequestCreator::with_options(&mut slice[..], F::default()).map(|mut creator| {
        creator.set_app_eui(&call.app_eui).set_dev_eui(&call.dev_eui).set_dev_nonce(&call.dev_nonce);
        creator.build(&AppKey::from(call.app_key.0)).len()
    });
    with_slice(built, slice)
}

/// Due for a slice of exactly 17 bytes and no list.
pub fn join_accept<F: Judge>(call: &BuildJoinAccept) -> Judged {
    if call.room != 17 || call.channels.is_some() {
        return Judged::Outside;
    }
    let mut slice = vec![FILL; call.room];
    let built = JoinAcceptCreator::with_options(&mut slice[..], F::default()).and_then(|mut creator| {
        creator
            .set_app_nonce(&call.app_nonce)
            .set_net_id(&call.net_id)
            .set_dev_addr(&call.dev_addr)
            .set_dl_settings(call.dl_settings)
            .set_rx_delay(call.rx_delay);
        creator.build(&call.app_key).map(|frame| frame.len())
    });
    with_slice(built, slice)
}

/// Whether refusal 12 or 13, which the crate does not have, is the one to be given.
fn refused_above_eleven(call: &BuildData) -> bool {
    let zero = call.port == Some(0);
    let refused = (call.commands.len() > 15 && !zero)
        || (zero && !call.payload.is_empty())
        || (call.port.is_none() && !call.payload.is_empty());
    let length = 8 + call.commands.len() + usize::from(call.port.is_some()) + call.payload.len() + 4;
    call.room >= 255 && (call.fctrl & 0x0f != 0 || (!refused && length > 255))
}

/// Due where no refusal above 11 applies, from a fresh creator.
pub fn data<F: Judge>(call: &BuildData) -> Judged {
    if refused_above_eleven(call) {
        return Judged::Outside;
    }
    let mut slice = vec![FILL; call.room];
    let raw = RawCommands(&call.commands);
    let commands: &[&dyn SerializableMacCommand] = if call.commands.is_empty() { &[] } else { &[&raw] };
    let keys = (NewSKey::from(call.network.0), AppSKey::from(call.application.0));
    let built = DataPayloadCreator::with_options(&mut slice[..], F::default()).and_then(|mut creator| {
        creator
            .set_confirmed(call.confirmed)
            .set_uplink(call.uplink)
            .set_dev_addr(&call.dev_addr)
            .set_fctrl(&FCtrl::new(call.fctrl, call.uplink))
            .set_fcnt(call.counter);
        if let Some(port) = call.port {
            creator.set_f_port(port);
        }
        creator.build(&call.payload, commands, &keys.0, &keys.1).map(|frame| frame.len())
    });
    with_slice(built, slice)
}
