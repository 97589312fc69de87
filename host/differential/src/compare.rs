//! One case: the crate's answer against the port's where equality is due, and the written rule where it is not.

use crate::commands::number_of_writing;
use crate::encode::encode;
use crate::port::{answer, refusal_of, refused};
use crosscheck::records::{hex, Amend, BuildData, BuildJoinAccept, Case, Hold};
use crosscheck::refusals::End;
use crosscheck::{end_due, held, judge, read_back, Judged};
use factory::OpenSsl;
use lorawan::keys::AES128;

#[derive(Clone, Copy, Default)]
pub struct Tally {
    pub cases: usize,
    pub whole: usize,
    pub port_alone: usize,
    pub to_fault: usize,
    pub by_number: usize,
    pub outside: usize,
    pub read_back: usize,
    pub differences: usize,
}

fn data_number(call: &BuildData) -> u8 {
    if call.fctrl & 0x0f == 0 {
        12
    } else {
        13
    }
}

fn join_accept_number(call: &BuildJoinAccept) -> u8 {
    let list = call.channels.as_deref();
    let room = if list.is_some() { 33 } else { 17 };
    match list.unwrap_or(&[]) {
        channels if channels.len() > 5 || channels.iter().any(|&channel| channel > 0xff_ffff) => 8,
        _ if call.room < room => 7,
        _ => 0,
    }
}

/// The number that is due where the crate is no judge.
fn number_outside(case: &Case) -> u8 {
    match case {
        Case::BuildJoinRequest(call) if call.room < 23 => 7,
        Case::BuildJoinRequest(_) => 0,
        Case::BuildJoinAccept(call) => join_accept_number(call),
        Case::BuildData(call) => data_number(call),
        Case::WriteCommand(call) => number_of_writing(call.uplink, call.identifier, &call.values),
        _ => 12, // the rest read a frame, here one over 255 bytes
    }
}

/// A builder's slice past the frame must stay as it was.
fn past_the_frame_stays(case: &Case, ours: &[u8]) -> bool {
    match case {
        Case::BuildJoinRequest(_) | Case::BuildJoinAccept(_) | Case::BuildData(_) => {
            let length = usize::from(u16::from_le_bytes([ours[1], ours[2]]));
            ours[3 + length..].iter().all(|&byte| byte == crate::port::FILL)
        }
        _ => true,
    }
}

/// The same history as one list of its accepted amendments, made on the frame as bytes: its end and the frame.
fn made_at_once(call: &Hold, ends: &[End]) -> Vec<u8> {
    let accepted = call.calls.iter().zip(ends).filter(|(_, &end)| end == End::ACCEPTED);
    answer(&Case::AmendLent(Amend {
        network: AES128(call.network.0),
        application: AES128(call.application.0),
        counter: call.counter,
        frame: call.frame.clone(),
        amendments: accepted.flat_map(|(made, _)| made.amendments.clone()).collect(),
    }))
}

/// What the crate, or the call on the frame as bytes, says to a history on a frame held open; none if the same.
fn holding_differs(case: &Case, call: &Hold, ours: &[u8]) -> Option<String> {
    let number = match judge::<OpenSsl>(case) {
        Judged::Outside => number_outside(case),
        Judged::Number(number) => number,
        Judged::Whole(answer) | Judged::ToFault(answer) | Judged::PortAlone { theirs: answer, .. } => answer[0],
    };
    let due = end_due(case, number);
    if End::split(ours).0 != due {
        return Some(hex(&due.bytes()));
    }
    if number != 0 {
        return None;
    }
    if !held::read_back::<OpenSsl>(call, ours) {
        return Some("reads it otherwise".into());
    }
    let (ends, taken) = End::split_all(&ours[1..], call.calls.len());
    let at_once = made_at_once(call, &ends);
    let same = at_once[0] == 0 && (taken[0] != 0 || taken[3..].starts_with(&at_once[1..]));
    (!same).then(|| format!("is no judge, one list gives {}", hex(&at_once)))
}

impl Tally {
    fn differs(&mut self, case: &Case, ours: &[u8], crate_says: &str) {
        self.differences += 1;
        if self.differences <= 20 {
            println!("difference: case {}, port {}, crate {crate_says}", hex(&encode(case)), hex(ours));
        }
    }

    fn judged(&mut self, case: &Case, ours: &[u8]) -> Option<String> {
        match judge::<OpenSsl>(case) {
            Judged::Outside => {
                self.outside += 1;
                let due = end_due(case, number_outside(case));
                (End::split(ours).0 != due).then(|| format!("is no judge here, {} is due", hex(&due.bytes())))
            }
            Judged::Number(number) => {
                self.by_number += 1;
                let due = End::refused(number);
                (End::split(ours).0 != due).then(|| hex(&due.bytes()))
            }
            Judged::Whole(theirs) => {
                self.whole += 1;
                (ours != theirs).then(|| hex(&theirs))
            }
            Judged::PortAlone { theirs, ours: due } => {
                self.port_alone += 1;
                (due.as_deref() != Some(ours)).then(|| format!("{} (row 28)", hex(&theirs)))
            }
            Judged::ToFault(theirs) => {
                self.to_fault += 1;
                (ours != theirs).then(|| hex(&theirs))
            }
        }
    }

    /// Runs both on a case.
    pub fn case(&mut self, case: &Case) {
        self.cases += 1;
        if self.cases.is_multiple_of(500_000) {
            eprintln!("{} cases, {} differences so far", self.cases, self.differences);
        }
        let ours = answer(case);
        if refusal_of(case, &ours).is_some_and(|end| ours != refused(case, end)) {
            self.differs(case, &ours, "(a refusal that is not bare)");
        }
        if let Case::Hold(call) = case {
            self.by_number += 1;
            self.read_back += usize::from(ours[0] == 0);
            if let Some(says) = holding_differs(case, call, &ours) {
                self.differs(case, &ours, &says);
            }
            return;
        }
        if let Some(says) = self.judged(case, &ours) {
            self.differs(case, &ours, &says);
        }
        if let Some(good) = read_back::<OpenSsl>(case, &ours) {
            self.read_back += 1;
            if !good || !past_the_frame_stays(case, &ours) {
                self.differs(case, &ours, "reads it otherwise");
            }
        }
    }
}
