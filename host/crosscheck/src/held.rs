//! Frames held open, which the crate does not have: its parts judge the opening, and its reader what is taken out.

use crate::amended::{opened, opening_number, OFFSET_OUTSIDE};
use crate::built::FILL;
use crate::records::{HeldCall, Hold};
use crate::refusals::End;
use crate::{Judge, Judged};

const BUFFER_TOO_SHORT: u8 = 7;

/// The answer of taking a frame out into a slice of that room: how it ended, length, slice.
fn taken(frame: &[u8], room: usize) -> Vec<u8> {
    let mut slice = vec![FILL; room];
    match slice.get_mut(..frame.len()) {
        None => [&End::refused(BUFFER_TOO_SHORT).bytes()[..], &[0, 0], &slice].concat(),
        Some(start) => {
            start.copy_from_slice(frame);
            [&[0], &(frame.len() as u16).to_le_bytes()[..], &slice].concat()
        }
    }
}

/// The opening's number; if it is refused the rest of the answer too: a frame of no bytes is held then.
pub fn opening<F: Judge>(call: &Hold) -> Judged {
    match opening_number::<F>(&call.frame, &call.network, call.counter) {
        0 => Judged::Number(0),
        number => {
            let ends = call.calls.iter().flat_map(|made| make(&mut [], made).bytes());
            let opening = End::on(&call.frame, number).bytes();
            Judged::Whole(opening.into_iter().chain(ends).chain(taken(&[], call.room)).collect())
        }
    }
}

/// Makes a call on the payload of a clear frame, whole or not at all.
fn make(payload: &mut [u8], made: &HeldCall) -> End {
    if made.amendments.iter().any(|&(offset, _)| offset as usize >= payload.len()) {
        return End::refused(OFFSET_OUTSIDE);
    }
    made.amendments.iter().for_each(|&(offset, value)| payload[offset as usize] = value);
    End::ACCEPTED
}

/// An accepted opening: each call ended as is due, the frame is taken out if it fits, and the crate opens it too and
/// finds in it the original with the accepted calls made.
pub fn read_back<F: Judge>(call: &Hold, answer: &[u8]) -> bool {
    let (ends, out) = End::split_all(&answer[1..], call.calls.len());
    let open = |frame: &[u8]| opened::<F>(frame, &call.network, &call.application, call.counter);
    let Some(mut clear) = open(&call.frame) else { return false };
    let start = clear.len().min(9 + usize::from(clear[5] % 16));
    let due: Vec<End> = call.calls.iter().map(|made| make(&mut clear[start..], made)).collect();
    let length = call.frame.len();
    if ends != due || call.room < length {
        return ends == due && out == taken(&call.frame, call.room);
    }
    let Some(frame) = out.get(3..3 + length) else { return false };
    out == taken(frame, call.room) && open(frame) == Some(clear)
}
