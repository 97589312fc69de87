//! Amendments, which the crate does not have: its parts judge the opening, and its reader the amended frame.

use crate::opened::parsed_data;
use crate::records::Amend;
use crate::refusals::End;
use crate::{Judge, Judged};
use lorawan::keys::AES128;
use lorawan::parser::DataHeader;

const INVALID_MIC: u8 = 5;
const COUNTER_MISMATCH: u8 = 14;
pub const OFFSET_OUTSIDE: u8 = 15;

pub fn opening_number<F: Judge>(frame: &[u8], network: &AES128, counter: u32) -> u8 {
    let mut frame = frame.to_vec();
    match parsed_data::<F>(&mut frame) {
        Err(number) => number,
        Ok(data) if data.fhdr().fcnt() != counter as u16 => COUNTER_MISMATCH,
        Ok(data) if !data.validate_mic(network, counter) => INVALID_MIC,
        Ok(_) => 0,
    }
}

/// The opening's number; if it is refused the rest of the answer too, for nothing may change then.
pub fn opening<F: Judge>(call: &Amend) -> Judged {
    match opening_number::<F>(&call.frame, &call.network, call.counter) {
        0 => Judged::Number(0),
        number => {
            let outside = End::refused(OFFSET_OUTSIDE).bytes().repeat(call.amendments.len());
            Judged::Whole([&End::on(&call.frame, number).bytes()[..], &outside, &call.frame].concat())
        }
    }
}

/// A list on a frame that is lent: its number, and if it is refused the frame too, which stays then.
pub fn lent<F: Judge>(call: &Amend) -> Judged {
    let outside = |length: usize| call.amendments.iter().any(|&(offset, _)| offset as usize >= length);
    let number = match opening_number::<F>(&call.frame, &call.network, call.counter) {
        0 if outside(call.frame.len().saturating_sub(13 + usize::from(call.frame[5] % 16))) => OFFSET_OUTSIDE,
        number => number,
    };
    match number {
        0 => Judged::Number(0),
        _ => Judged::Whole([&End::on(&call.frame, number).bytes()[..], &call.frame].concat()),
    }
}

/// The frame without its MIC, its payload decrypted by the crate, if the crate finds the MIC good.
pub fn opened<F: Judge>(frame: &[u8], network: &AES128, application: &AES128, counter: u32) -> Option<Vec<u8>> {
    let mut frame = frame.to_vec();
    parsed_data::<F>(&mut frame).ok()?.decrypt_if_mic_ok(network, application, counter).ok()?;
    frame.truncate(frame.len() - 4);
    Some(frame)
}

/// An accepted opening with the end of each amendment.
pub fn read_back<F: Judge>(call: &Amend, answer: &[u8]) -> bool {
    let (ends, frame) = End::split_all(&answer[1..], call.amendments.len());
    holds::<F>(call, &ends, frame)
}

/// An accepted list on a frame that is lent: every amendment was made.
pub fn lent_read_back<F: Judge>(call: &Amend, answer: &[u8]) -> bool {
    holds::<F>(call, &vec![End::ACCEPTED; call.amendments.len()], &answer[1..])
}

/// Whether the crate opens the amended frame too, and finds in it the original with the accepted amendments made to its
/// payload, which is all that follows the port.
fn holds<F: Judge>(call: &Amend, ends: &[End], frame: &[u8]) -> bool {
    let open = |frame: &[u8]| opened::<F>(frame, &call.network, &call.application, call.counter);
    let (Some(mut before), Some(after)) = (open(&call.frame), open(frame)) else { return false };
    let start = 9 + usize::from(call.frame[5] % 16);
    for (&(offset, value), &end) in call.amendments.iter().zip(ends) {
        match before.get_mut(start.saturating_add(offset as usize)) {
            Some(byte) if end == End::ACCEPTED => *byte = value,
            None if end == End::refused(OFFSET_OUTSIDE) => {}
            _ => return false,
        }
    }
    before == after
}
