//! The crate on frames: reading, MIC tests, decryption, session keys. Answers are laid out as the oracle lays them out.

use crate::refusals::End;
use crate::{number_of_parser, Judge, Judged};
use generic_array::GenericArray;
use lorawan::keys::{AppKey, Decrypter, AES128};
use lorawan::parser::*;

type Data<'a, F> = EncryptedDataPayload<&'a mut [u8], F>;
type Accept<'a, F> = EncryptedJoinAcceptPayload<&'a mut [u8], F>;

/// Refusal 4: a frame that is accepted, but of another type than the call needs.
const OTHER_TYPE: u8 = 4;
const INVALID_MIC: u8 = 5;

fn parsed<F: Judge>(frame: &mut [u8]) -> Result<PhyPayload<&mut [u8], F>, u8> {
    parse_with_factory(frame, F::default()).map_err(|e| number_of_parser(&e))
}

pub fn parsed_data<F: Judge>(frame: &mut [u8]) -> Result<Data<'_, F>, u8> {
    match parsed(frame)? {
        PhyPayload::Data(DataPayload::Encrypted(data)) => Ok(data),
        _ => Err(OTHER_TYPE),
    }
}

pub fn parsed_join_accept<F: Judge>(frame: &mut [u8]) -> Result<Accept<'_, F>, u8> {
    match parsed(frame)? {
        PhyPayload::JoinAccept(JoinAcceptPayload::Encrypted(accept)) => Ok(accept),
        _ => Err(OTHER_TYPE),
    }
}

pub fn parsed_join_request<F: Judge>(frame: &mut [u8]) -> Result<JoinRequestPayload<&mut [u8], F>, u8> {
    match parsed(frame)? {
        PhyPayload::JoinRequest(request) => Ok(request),
        _ => Err(OTHER_TYPE),
    }
}

/// The crate has no constructor from clear bytes, so they are enciphered first as a builder would do it.
fn clear_join_accept<'a, F: Judge>(
    frame: &'a mut [u8],
    key: &AES128,
) -> Result<DecryptedJoinAcceptPayload<&'a mut [u8], F>, u8> {
    parsed_join_accept::<F>(frame)?;
    let cipher = F::default().new_dec(key);
    for block in frame[1..].chunks_exact_mut(16) {
        cipher.decrypt_block(GenericArray::from_mut_slice(block));
    }
    Ok(parsed_join_accept::<F>(frame)?.decrypt(&AppKey::from(key.0)))
}

fn tested(frame: &[u8], answer: Result<bool, u8>) -> Judged {
    Judged::Whole(match answer {
        Ok(yes) => vec![0, yes.into()],
        Err(number) => [End::on(frame, number).bytes(), vec![0]].concat(),
    })
}

pub fn mic_join_request<F: Judge>(key: &AES128, frame: &[u8]) -> Judged {
    tested(frame, parsed_join_request::<F>(&mut frame.to_vec()).map(|request| request.validate_mic(key)))
}

pub fn mic_join_accept<F: Judge>(key: &AES128, frame: &[u8]) -> Judged {
    let mut copy = frame.to_vec();
    tested(frame, clear_join_accept::<F>(&mut copy, key).map(|clear| clear.validate_mic(&AppKey::from(key.0))))
}

pub fn mic_data<F: Judge>(key: &AES128, counter: u32, frame: &[u8]) -> Judged {
    tested(frame, parsed_data::<F>(&mut frame.to_vec()).map(|data| data.validate_mic(key, counter)))
}

/// How the call ended, then the caller's bytes as they stand afterwards.
fn with_frame(answer: Result<(), u8>, frame: Vec<u8>) -> Judged {
    let mut whole = End::on(&frame, answer.err().unwrap_or(0)).bytes();
    whole.extend(frame);
    Judged::Whole(whole)
}

pub fn decrypt_data<F: Judge>(
    network: Option<&AES128>,
    application: Option<&AES128>,
    counter: u32,
    frame: &[u8],
) -> Judged {
    let mut frame = frame.to_vec();
    let answer = parsed_data::<F>(&mut frame)
        .and_then(|data| data.decrypt(network, application, counter).map(drop).map_err(|e| number_of_parser(&e)));
    with_frame(answer, frame)
}

/// With both keys by the crate's own call; otherwise in the order of its default_crypto.rs.
fn checked<F: Judge>(data: Data<F>, network: &AES128, application: Option<&AES128>, counter: u32) -> Result<(), u8> {
    if let Some(application) = application {
        return data.decrypt_if_mic_ok(network, application, counter).map(drop).map_err(|_| INVALID_MIC);
    }
    if !data.validate_mic(network, counter) {
        return Err(INVALID_MIC);
    }
    data.decrypt(Some(network), None, counter).map(drop).map_err(|e| number_of_parser(&e))
}

pub fn decrypt_data_checked<F: Judge>(
    network: &AES128,
    application: Option<&AES128>,
    counter: u32,
    frame: &[u8],
) -> Judged {
    let mut frame = frame.to_vec();
    let answer = parsed_data::<F>(&mut frame).and_then(|data| checked(data, network, application, counter));
    with_frame(answer, frame)
}

pub fn decrypt_join_accept<F: Judge>(key: &AES128, frame: &[u8]) -> Judged {
    let mut frame = frame.to_vec();
    let answer = parsed_join_accept::<F>(&mut frame).map(|accept| drop(accept.decrypt(&AppKey::from(key.0))));
    with_frame(answer, frame)
}

/// The parser first, since the crate's checked constructor skips the version test.
pub fn decrypt_join_accept_checked<F: Judge>(key: &AES128, frame: &[u8]) -> Judged {
    let mut frame = frame.to_vec();
    let answer = parsed_join_accept::<F>(&mut frame).map(drop).and_then(|()| {
        DecryptedJoinAcceptPayload::new_with_factory(&mut frame[..], &AppKey::from(key.0), F::default())
            .map(drop)
            .map_err(|e| number_of_parser(&e))
    });
    match answer {
        Err(INVALID_MIC) => Judged::Number(INVALID_MIC), // the crate leaves the frame decrypted
        _ => with_frame(answer, frame),
    }
}

pub fn session_keys<F: Judge>(key: &AES128, dev_nonce: [u8; 2], frame: &[u8]) -> Judged {
    let mut copy = frame.to_vec();
    Judged::Whole(match clear_join_accept::<F>(&mut copy, key) {
        Err(number) => [End::on(frame, number).bytes(), vec![0; 32]].concat(),
        Ok(clear) => {
            let (key, nonce) = (AppKey::from(key.0), DevNonce::from(dev_nonce));
            let network = clear.derive_newskey(&nonce, &key);
            let application = clear.derive_appskey(&nonce, &key);
            [&[0], network.as_ref(), application.as_ref()].concat()
        }
    })
}

/// Where a part of the frame begins and ends, told from the addresses.
fn place(frame: &[u8], part: &[u8]) -> [u8; 2] {
    let from = part.as_ptr() as usize - frame.as_ptr() as usize;
    [from as u8, (from + part.len()) as u8]
}

fn read_data<F: Judge>(data: Data<F>, mtype: u8) -> Vec<u8> {
    let key = AES128([0; 16]);
    let (port, mic) = (data.f_port(), data.mic());
    let open = data.decrypt(Some(&key), Some(&key), 0).expect("both keys are given");
    let (fhdr, bytes) = (open.fhdr(), open.as_data_bytes());
    let fctrl = fhdr.fctrl();
    let mut out = vec![0, mtype];
    out.extend(fhdr.dev_addr().as_ref());
    out.push(fctrl.raw_value());
    out.extend([fctrl.adr(), fctrl.adr_ack_req(), fctrl.ack(), fctrl.f_pending()].map(u8::from));
    out.extend(fhdr.fcnt().to_le_bytes());
    out.extend(place(bytes, fhdr.data()));
    out.extend(port.map_or([0, 0], |port| [1, port]));
    out.extend(match open.frm_payload() {
        FRMPayload::None => [0; 3],
        FRMPayload::Data(part) => [1, place(bytes, part)[0], place(bytes, part)[1]],
        FRMPayload::MACCommands(part) => [2, place(bytes, part.data())[0], place(bytes, part.data())[1]],
    });
    out.extend(mic.0);
    out
}

fn request_fields<F: Judge>(request: &JoinRequestPayload<&mut [u8], F>) -> Vec<u8> {
    let (app, dev, nonce) = (request.app_eui(), request.dev_eui(), request.dev_nonce());
    [app.as_ref(), dev.as_ref(), nonce.as_ref(), &request.mic().0[..]].concat()
}

pub fn read_join_request<F: Judge>(frame: &[u8]) -> Judged {
    let mut copy = frame.to_vec();
    Judged::Whole(match parsed_join_request::<F>(&mut copy) {
        Err(number) => End::on(frame, number).bytes(),
        Ok(request) => [vec![0], request_fields(&request)].concat(),
    })
}

/// The port of a data frame that has nothing behind it.
fn port_alone(frame: &[u8]) -> Option<u8> {
    let header = 7 + usize::from(frame[5] % 16);
    (frame.len() == header + 6).then(|| frame[1 + header])
}

/// Where `read_data` puts the port and, behind it, the payload.
const PORT_AT: usize = 15;

/// What the crate reads of a port with nothing behind it: no port, and data of no byte. By the rules the port is there, and 0
/// says that commands follow.
fn with_port(port: u8, theirs: Vec<u8>) -> Judged {
    let mut ours = theirs.clone();
    ours[PORT_AT..PORT_AT + 3].copy_from_slice(&[1, port, if port == 0 { 2 } else { 1 }]);
    let as_written = theirs[PORT_AT..PORT_AT + 3] == [0, 0, 1] && theirs[PORT_AT + 3] == theirs[PORT_AT + 4];
    Judged::PortAlone { theirs, ours: as_written.then_some(ours) }
}

pub fn read<F: Judge>(frame: &[u8]) -> Judged {
    let mtype = frame.first().map_or(0, |first| first >> 5);
    let mut copy = frame.to_vec();
    Judged::Whole(match parsed::<F>(&mut copy) {
        Err(number) => End::on(frame, number).bytes(),
        Ok(PhyPayload::JoinRequest(request)) => [vec![0, mtype], request_fields(&request)].concat(),
        Ok(PhyPayload::JoinAccept(accept)) => vec![0, mtype, accept.as_bytes().len() as u8],
        Ok(PhyPayload::Data(DataPayload::Encrypted(data))) => {
            let theirs = read_data(data, mtype);
            match port_alone(frame) {
                Some(port) => return with_port(port, theirs),
                None => theirs,
            }
        }
        Ok(PhyPayload::Data(DataPayload::Decrypted(_))) => unreachable!("the parser decrypts nothing"),
    })
}

fn listed(list: Option<CfList>) -> Vec<u8> {
    match list {
        None => vec![0],
        Some(CfList::DynamicChannel(channels)) => {
            let units = channels.iter().flat_map(|c| (c.value() / 100).to_le_bytes());
            std::iter::once(1).chain(units).collect()
        }
        Some(CfList::FixedChannel(mask)) => std::iter::once(2).chain((0..9).map(|i| mask.get_index(i))).collect(),
    }
}

pub fn read_clear_join_accept<F: Judge>(frame: &[u8]) -> Judged {
    let mut copy = frame.to_vec();
    Judged::Whole(match clear_join_accept::<F>(&mut copy, &AES128([7; 16])) {
        Err(number) => End::on(frame, number).bytes(),
        Ok(clear) => {
            let numbers = [clear.dl_settings().raw_value(), clear.rx_delay()];
            let (nonce, net, addr) = (clear.app_nonce(), clear.net_id(), clear.dev_addr());
            let parts = [nonce.as_ref(), net.as_ref(), addr.as_ref(), &clear.mic().0, &numbers].concat();
            [&[0], &parts[..], &listed(clear.c_f_list())].concat()
        }
    })
}
