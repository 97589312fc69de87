//! The port on a case, its answer laid out as the oracle lays it out. Whatever is lent lies between guard bytes.

use crate::commands::{command, values};
use crosscheck::records::{Amend, BuildData, BuildJoinAccept, BuildJoinRequest, Case, HeldCall, Hold, WriteCommand};
use crosscheck::refusals::End;
use lorawan::keys::AES128;
use zinovoky::*;

/// Every byte of a lent output slice ahead of the call.
pub const FILL: u8 = 0xA5;
const GUARD: [u8; 8] = [0xE7; 8];

/// Lends a copy of the bytes to a call; gives back the call's answer and the bytes as they then stand. The guard bytes
/// on both sides must stay.
fn lent<T>(bytes: &[u8], call: impl FnOnce(&mut [u8]) -> T) -> (T, Vec<u8>) {
    let mut held = [&GUARD, bytes, &GUARD].concat();
    let end = GUARD.len() + bytes.len();
    let answer = call(&mut held[GUARD.len()..end]);
    assert!(held.starts_with(&GUARD) && held[end..] == GUARD, "a byte outside the lent slice was written");
    (answer, held[GUARD.len()..end].to_vec())
}

/// A refusal as the port says it, number and place.
fn refusal(refusal: Refusal) -> End {
    End { number: refusal.number(), place: refusal.place as u64 }
}

fn end<T>(answer: &Result<T>) -> End {
    answer.as_ref().err().map_or(End::ACCEPTED, |&why| refusal(why))
}

fn tested(answer: Result<bool>) -> Vec<u8> {
    [end(&answer).bytes(), vec![answer.unwrap_or(false).into()]].concat()
}

fn changed(frame: &[u8], call: impl FnOnce(&mut [u8]) -> Result<()>) -> Vec<u8> {
    let (answer, frame) = lent(frame, call);
    [end(&answer).bytes(), frame].concat()
}

fn built(room: usize, call: impl FnOnce(&mut [u8]) -> Result<usize>) -> Vec<u8> {
    let (answer, slice) = lent(&vec![FILL; room], call);
    let length = (answer.unwrap_or(0) as u16).to_le_bytes();
    [&end(&answer).bytes()[..], &length, &slice].concat()
}

fn place(frame: &[u8], part: &[u8]) -> [u8; 2] {
    let from = part.as_ptr() as usize - frame.as_ptr() as usize;
    [from as u8, (from + part.len()) as u8]
}

fn data_read(frame: &[u8], data: &DataFields) -> Vec<u8> {
    let mut out = vec![0, data.kind() as u8];
    out.extend(data.dev_addr());
    out.push(data.fctrl());
    out.extend([data.adr(), data.adr_ack_req(), data.ack(), data.f_pending()].map(u8::from));
    out.extend(data.fcnt().to_le_bytes());
    out.extend(place(frame, data.fopts()));
    out.extend(data.port().map_or([0, 0], |port| [1, port]));
    let (kind, [from, to]) = match data.payload() {
        Payload::None => (0, [0, 0]),
        Payload::Data(part) => (1, place(frame, part)),
        Payload::Commands(part) => (2, place(frame, part)),
    };
    out.extend([kind, from, to]);
    out.extend(data.mic());
    out
}

fn request_fields(fields: &JoinRequestFields) -> Vec<u8> {
    [&fields.app_eui[..], &fields.dev_eui, &fields.dev_nonce, &fields.mic].concat()
}

fn request_reading(frame: &[u8]) -> Vec<u8> {
    match JoinRequestFields::read(frame) {
        Err(why) => refusal(why).bytes(),
        Ok(fields) => [vec![0], request_fields(&fields)].concat(),
    }
}

fn reading(frame: &[u8]) -> Vec<u8> {
    match read(frame) {
        Err(why) => refusal(why).bytes(),
        Ok(Reading::JoinRequest(fields)) => [vec![0, 0], request_fields(&fields)].concat(),
        Ok(Reading::JoinAccept { length }) => vec![0, 1, length as u8],
        Ok(Reading::Data(data)) => data_read(frame, &data),
    }
}

fn clear_reading(frame: &[u8]) -> Vec<u8> {
    let clear = match ClearJoinAccept::read(frame) {
        Err(why) => return refusal(why).bytes(),
        Ok(clear) => clear,
    };
    let numbers = [clear.dl_settings(), clear.rx_delay()];
    let mut out = [&[0], clear.app_nonce(), clear.net_id(), clear.dev_addr(), clear.mic(), &numbers].concat();
    match (clear.channels(), clear.channel_mask()) {
        (Some(channels), _) => {
            out.push(1);
            out.extend(channels.iter().flat_map(|channel| channel.to_le_bytes()));
        }
        (None, Some(mask)) => {
            out.push(2);
            out.extend(mask);
        }
        (None, None) => out.push(0),
    }
    out
}

fn join_request(call: &BuildJoinRequest) -> Vec<u8> {
    let fields = JoinRequest { app_eui: call.app_eui, dev_eui: call.dev_eui, dev_nonce: call.dev_nonce };
    built(call.room, |out| fields.build_into(&AppKey(call.app_key.0), out))
}

fn join_accept(call: &BuildJoinAccept) -> Vec<u8> {
    let fields = JoinAccept {
        app_nonce: call.app_nonce,
        net_id: call.net_id,
        dev_addr: call.dev_addr,
        dl_settings: call.dl_settings,
        rx_delay: call.rx_delay,
        channels: call.channels.as_deref(),
    };
    built(call.room, |out| fields.build_into(&AppKey(call.app_key.0), out))
}

fn kind(confirmed: bool, uplink: bool) -> DataKind {
    match (confirmed, uplink) {
        (false, true) => DataKind::UnconfirmedUp,
        (false, false) => DataKind::UnconfirmedDown,
        (true, true) => DataKind::ConfirmedUp,
        (true, false) => DataKind::ConfirmedDown,
    }
}

/// The commands of a list that reads to its end and is what writing them gives.
fn as_commands(direction: Direction, bytes: &[u8]) -> Option<Vec<Command>> {
    let found: Result<Vec<_>> = read_commands(direction, bytes).collect();
    let commands: Vec<Command> = found.ok()?.into_iter().map(|(_, command)| command).collect();
    let mut again = vec![0; bytes.len()];
    (write_commands(&commands, &mut again) == Ok(bytes.len()) && again == bytes).then_some(commands)
}

/// Where the bytes are commands, building with those must give the same.
fn data(call: &BuildData) -> Vec<u8> {
    let fields = Data {
        kind: kind(call.confirmed, call.uplink),
        dev_addr: call.dev_addr,
        fctrl: call.fctrl,
        counter: call.counter,
        port: call.port,
        commands: &call.commands,
        payload: &call.payload,
    };
    let keys = (NwkSKey(call.network.0), AppSKey(call.application.0));
    if let Some(commands) = as_commands(fields.kind.direction(), &call.commands) {
        let same = fields.build_with(&commands, &keys.0, &keys.1) == fields.build(&keys.0, &keys.1);
        assert!(same, "commands and their bytes give two frames");
    }
    built(call.room, |out| fields.build_into(&keys.0, &keys.1, out))
}

fn listed(amendments: &[(u32, u8)]) -> Vec<Amendment> {
    amendments.iter().map(|&(offset, value)| Amendment::new(offset as usize, value)).collect()
}

fn amended_lent(call: &Amend) -> Vec<u8> {
    let (list, keys) = (listed(&call.amendments), (NwkSKey(call.network.0), AppSKey(call.application.0)));
    changed(&call.frame, |frame| amend(frame, &keys.0, &keys.1, call.counter, &list))
}

fn opened(frame: &[u8], network: &AES128, application: &AES128, counter: u32) -> Result<OpenFrame> {
    OpenFrame::open(frame, &NwkSKey(network.0), &AppSKey(application.0), counter)
}

/// The opening's end, each amendment's, and the frame. Where the opening is refused there is no open frame.
fn amended(call: &Amend) -> Vec<u8> {
    match opened(&call.frame, &call.network, &call.application, call.counter) {
        Err(why) => refusal(why).bytes(),
        Ok(mut open) => {
            let made = |&(offset, value): &(u32, u8)| end(&open.amend(offset as usize, value)).bytes();
            let ends: Vec<u8> = call.amendments.iter().flat_map(made).collect();
            [&[0], &ends[..], &open.frame().expect("room for every frame")].concat()
        }
    }
}

fn held_call(open: &mut OpenFrame, call: &HeldCall) -> End {
    let before = open.frame();
    let answer = match call.amendments[..] {
        [(offset, value)] if !call.list => open.amend(offset as usize, value),
        _ => open.amend_list(&listed(&call.amendments)),
    };
    assert!(answer.is_ok() || open.frame() == before, "a refused amendment changed the frame");
    end(&answer)
}

/// The opening's end, each call's, and the frame taken out. Where the opening is refused there is no open frame.
fn held(call: &Hold) -> Vec<u8> {
    match opened(&call.frame, &call.network, &call.application, call.counter) {
        Err(why) => refusal(why).bytes(),
        Ok(mut open) => {
            let ends: Vec<u8> = call.calls.iter().flat_map(|made| held_call(&mut open, made).bytes()).collect();
            [&[0], &ends[..], &built(call.room, |slice| open.frame_into(slice))].concat()
        }
    }
}

fn keys(clear: &[u8], dev_nonce: &[u8; 2], app_key: &AES128) -> Vec<u8> {
    match session_keys(clear, dev_nonce, &AppKey(app_key.0)) {
        Err(why) => [refusal(why).bytes(), vec![0; 32]].concat(),
        Ok(keys) => [&[0], &keys.nwk_skey.0[..], &keys.app_skey.0].concat(),
    }
}

fn direction(uplink: bool) -> Direction {
    if uplink {
        Direction::Up
    } else {
        Direction::Down
    }
}

/// The bytes of one command; none where it is refused, which what was read must not be.
fn written(command: &Command) -> Vec<u8> {
    let mut out = [0; 6];
    let end = command.write(&mut out, 0).unwrap_or(0);
    out[..end].to_vec()
}

/// The whole list at once is its commands one by one, and with a byte too little nothing.
fn written_at_once(commands: &[Command]) {
    let each: Vec<Vec<u8>> = commands.iter().map(written).collect();
    if each.contains(&Vec::new()) {
        return;
    }
    let one_by_one = &each.concat()[..];
    let (answer, slice) = lent(&vec![FILL; one_by_one.len() + 1], |out| write_commands(commands, out));
    assert!(answer == Ok(one_by_one.len()) && slice == [one_by_one, &[FILL]].concat(), "a list is not its commands");
    if let [ahead @ .., last] = commands {
        let short = vec![FILL; one_by_one.len() - 1];
        let (answer, slice) = lent(&short, |out| write_commands(commands, out));
        let refusal = Reason::BufferTooShort.at(0);
        let due = ListRefusal { index: ahead.len(), command: *last, refusal };
        assert!(answer == Err(due) && slice == short, "a refused list changed a byte");
    }
}

/// Each command with its places and values, and what writing it gives; then how the list ended.
fn commands_read(mut list: Commands) -> Vec<u8> {
    let (mut out, mut commands) = (Vec::new(), Vec::new());
    let end = loop {
        let (at, command) = match list.next() {
            None => break End::ACCEPTED,
            Some(Err(why)) => break refusal(why),
            Some(Ok(found)) => found,
        };
        let bytes = written(&command);
        out.push(command.identifier());
        out.extend([at, list.offset()].iter().flat_map(|&place| (place as u16).to_le_bytes()));
        out.extend(values(&command).iter().flat_map(|value| value.to_le_bytes()));
        out.push(bytes.len() as u8);
        out.extend(bytes);
        commands.push(command);
    };
    assert!(list.next().is_none(), "a list goes on behind its end");
    written_at_once(&commands);
    [out, vec![0], end.bytes()].concat()
}

fn frame_commands(frame: &[u8]) -> Vec<u8> {
    match read(frame) {
        Err(why) => refusal(why).bytes(),
        Ok(Reading::Data(data)) => {
            let uplink = data.kind().is_uplink().into();
            [vec![0, uplink], commands_read(data.fopts_commands()), commands_read(data.payload_commands())].concat()
        }
        Ok(_) => refusal(Reason::InvalidData.at(0)).bytes(),
    }
}

/// None where Rust's types cannot say the command.
pub fn write_command(call: &WriteCommand) -> Option<Vec<u8>> {
    let command = command(call.uplink, call.identifier, call.values)?;
    Some(built(call.room, |out| command.write(out, call.offset as usize)))
}

/// The port's answer.
pub fn answer(case: &Case) -> Vec<u8> {
    let network = |key: &AES128| NwkSKey(key.0);
    let application = |key: &Option<AES128>| key.as_ref().map(|key| AppSKey(key.0));
    match case {
        Case::MicJoinRequest { app_key, frame } => tested(join_request_mic(frame, &AppKey(app_key.0))),
        Case::MicJoinAccept { app_key, frame } => tested(join_accept_mic(frame, &AppKey(app_key.0))),
        Case::MicData { network: key, counter, frame } => tested(data_mic(frame, &network(key), *counter)),
        Case::DecryptData { network: key, application: app, counter, frame } => changed(frame, |frame| {
            decrypt_data(frame, key.as_ref().map(network).as_ref(), application(app).as_ref(), *counter)
        }),
        Case::DecryptDataChecked { network: key, application: app, counter, frame } => {
            changed(frame, |frame| decrypt_data_checked(frame, &network(key), application(app).as_ref(), *counter))
        }
        Case::DecryptJoinAccept { app_key, frame } => {
            changed(frame, |frame| decrypt_join_accept(frame, &AppKey(app_key.0)))
        }
        Case::DecryptJoinAcceptChecked { app_key, frame } => {
            changed(frame, |frame| decrypt_join_accept_checked(frame, &AppKey(app_key.0)))
        }
        Case::SessionKeys { app_key, dev_nonce, frame } => keys(frame, dev_nonce, app_key),
        Case::BuildJoinRequest(call) => join_request(call),
        Case::BuildJoinAccept(call) => join_accept(call),
        Case::BuildData(call) => data(call),
        Case::Amend(call) => amended(call),
        Case::Read { frame } => reading(frame),
        Case::ReadClearJoinAccept { frame } => clear_reading(frame),
        Case::Hold(call) => held(call),
        Case::ReadJoinRequest { frame } => request_reading(frame),
        Case::AmendLent(call) => amended_lent(call),
        Case::ReadCommands { uplink, offset, bytes } => {
            commands_read(Commands::starting_at(direction(*uplink), bytes, *offset as usize))
        }
        Case::WriteCommand(call) => write_command(call).expect("a command that Rust's types can say"),
        Case::FrameCommands { frame } => frame_commands(frame),
    }
}

/// How a call was refused, if it was; reading a list is not: a fault stands behind its commands.
pub fn refusal_of(case: &Case, answer: &[u8]) -> Option<End> {
    match case {
        Case::ReadCommands { .. } => None,
        _ => Some(End::split(answer).0).filter(|&end| end != End::ACCEPTED),
    }
}

/// What a refusal must look like: number and place, zeros, and the caller's bytes as they were.
pub fn refused(case: &Case, end: End) -> Vec<u8> {
    let with = |rest: &[u8]| [&end.bytes(), rest].concat();
    let slice = |room: usize| with(&[&[0, 0], &vec![FILL; room][..]].concat());
    match case {
        Case::MicJoinRequest { .. } | Case::MicJoinAccept { .. } | Case::MicData { .. } => with(&[0]),
        Case::DecryptData { frame, .. }
        | Case::DecryptDataChecked { frame, .. }
        | Case::DecryptJoinAccept { frame, .. }
        | Case::DecryptJoinAcceptChecked { frame, .. } => with(frame),
        Case::AmendLent(call) => with(&call.frame),
        Case::SessionKeys { .. } => with(&[0; 32]),
        Case::BuildJoinRequest(call) => slice(call.room),
        Case::BuildJoinAccept(call) => slice(call.room),
        Case::BuildData(call) => slice(call.room),
        Case::WriteCommand(call) => slice(call.room),
        Case::Read { .. } | Case::ReadClearJoinAccept { .. } | Case::ReadJoinRequest { .. } => with(&[]),
        Case::Amend(_) | Case::Hold(_) | Case::ReadCommands { .. } | Case::FrameCommands { .. } => with(&[]),
    }
}
