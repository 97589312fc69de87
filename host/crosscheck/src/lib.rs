//! The crate lorawan 0.9.0 as judge of the oracle's answers.

pub mod amended;
pub mod built;
pub mod commands;
pub mod held;
pub mod opened;
pub mod read_back;
pub mod records;
pub mod refusals;

use lorawan::keys::CryptoFactory;
use lorawan::{creator, parser};
use records::Case;
use refusals::End;

/// A crypto factory that the crate's builders take.
pub trait Judge: CryptoFactory + Default {}

impl<F: CryptoFactory + Default> Judge for F {}

/// What the crate says to a case.
pub enum Judged {
    /// docs/RULES.md does not hold the two equal here.
    Outside,
    /// Only the number is due, without a place: the crate leaves the caller's bytes changed where ours must stay.
    Number(u8),
    /// The answer whole; the place of a refusal is the one that the rules name.
    Whole(Vec<u8>),
    /// A port with nothing behind it, read (row 28 of docs/DIFFERENCES.md): the crate's answer, and what ours has to be. None
    /// where the crate does not say what the row says.
    PortAlone { theirs: Vec<u8>, ours: Option<Vec<u8>> },
    /// Lists of MAC commands of which one has a fault, where the crate says nothing or panics: its commands ahead of the fault,
    /// and the end that the rules name.
    ToFault(Vec<u8>),
}

pub fn number_of_parser(error: &parser::Error) -> u8 {
    match error {
        parser::Error::InvalidPayload => 1,
        parser::Error::UnsupportedMajorVersion => 2,
        parser::Error::InvalidMessageType => 3,
        parser::Error::InvalidData => 4,
        parser::Error::InvalidMic => 5,
        parser::Error::InvalidKey => 6,
    }
}

pub fn number_of_creator(error: &creator::Error) -> u8 {
    match error {
        creator::Error::BufferTooShort => 7,
        creator::Error::InvalidChannelList => 8,
        creator::Error::MacCommandTooBigForFOpts => 9,
        creator::Error::DataAndMacCommandsInPayloadNotAllowed => 10,
        creator::Error::FRMPayloadWithFportZero => 11,
    }
}

/// The frame that a call reads first, if it reads one.
fn frame_read(case: &Case) -> Option<&[u8]> {
    match case {
        Case::MicJoinRequest { frame, .. }
        | Case::MicJoinAccept { frame, .. }
        | Case::MicData { frame, .. }
        | Case::DecryptData { frame, .. }
        | Case::DecryptDataChecked { frame, .. }
        | Case::DecryptJoinAccept { frame, .. }
        | Case::DecryptJoinAcceptChecked { frame, .. }
        | Case::SessionKeys { frame, .. }
        | Case::Read { frame }
        | Case::ReadClearJoinAccept { frame }
        | Case::ReadJoinRequest { frame }
        | Case::FrameCommands { frame } => Some(frame),
        Case::Amend(call) | Case::AmendLent(call) => Some(&call.frame),
        Case::Hold(call) => Some(&call.frame),
        Case::BuildJoinRequest(_) | Case::BuildJoinAccept(_) | Case::BuildData(_) => None,
        Case::ReadCommands { .. } | Case::WriteCommand(_) => None,
    }
}

/// What a call ends in by its number: the place is the one that the rules name.
pub fn end_due(case: &Case, number: u8) -> End {
    End::on(frame_read(case).unwrap_or(&[]), number)
}

/// The crate's answer, where equality is due.
pub fn judge<F: Judge>(case: &Case) -> Judged {
    if frame_read(case).is_some_and(|frame| frame.len() > 255) {
        return Judged::Outside;
    }
    match case {
        Case::MicJoinRequest { app_key, frame } => opened::mic_join_request::<F>(app_key, frame),
        Case::MicJoinAccept { app_key, frame } => opened::mic_join_accept::<F>(app_key, frame),
        Case::MicData { network, counter, frame } => opened::mic_data::<F>(network, *counter, frame),
        Case::DecryptData { network, application, counter, frame } => {
            opened::decrypt_data::<F>(network.as_ref(), application.as_ref(), *counter, frame)
        }
        Case::DecryptDataChecked { network, application, counter, frame } => {
            opened::decrypt_data_checked::<F>(network, application.as_ref(), *counter, frame)
        }
        Case::DecryptJoinAccept { app_key, frame } => opened::decrypt_join_accept::<F>(app_key, frame),
        Case::DecryptJoinAcceptChecked { app_key, frame } => opened::decrypt_join_accept_checked::<F>(app_key, frame),
        Case::SessionKeys { app_key, dev_nonce, frame } => opened::session_keys::<F>(app_key, *dev_nonce, frame),
        Case::BuildJoinRequest(call) => built::join_request::<F>(call),
        Case::BuildJoinAccept(call) => built::join_accept::<F>(call),
        Case::BuildData(call) => built::data::<F>(call),
        Case::Amend(call) => amended::opening::<F>(call),
        Case::Read { frame } => opened::read::<F>(frame),
        Case::ReadClearJoinAccept { frame } => opened::read_clear_join_accept::<F>(frame),
        Case::ReadJoinRequest { frame } => opened::read_join_request::<F>(frame),
        Case::AmendLent(call) => amended::lent::<F>(call),
        Case::Hold(call) => held::opening::<F>(call),
        Case::ReadCommands { uplink, offset, bytes } => commands::read(*uplink, *offset, bytes),
        Case::WriteCommand(call) => commands::write(call),
        Case::FrameCommands { frame } => commands::of_frame::<F>(frame),
    }
}

/// Whether the crate's reader finds in what was built, amended, held or written what was asked for; none for other answers.
pub fn read_back<F: Judge>(case: &Case, answer: &[u8]) -> Option<bool> {
    if answer[0] != 0 {
        return None;
    }
    match case {
        Case::BuildJoinRequest(call) => Some(read_back::join_request::<F>(call, answer)),
        Case::BuildJoinAccept(call) => Some(read_back::join_accept::<F>(call, answer)),
        Case::BuildData(call) => Some(read_back::data::<F>(call, answer)),
        Case::Amend(call) => Some(amended::read_back::<F>(call, answer)),
        Case::AmendLent(call) => Some(amended::lent_read_back::<F>(call, answer)),
        Case::Hold(call) => Some(held::read_back::<F>(call, answer)),
        Case::WriteCommand(call) => Some(commands::read_back(call, answer)),
        _ => None,
    }
}
