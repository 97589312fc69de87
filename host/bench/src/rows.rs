//! What is measured: each row is one call on one input, by the port and by the crate over both ciphers.

use crate::reference::{self, Cipher};
use factory::{OpenSsl, Soft};
use std::hint::black_box;
use zinovoky::*;

pub type Call = Box<dyn FnMut()>;

pub struct Row {
    pub what: &'static str,
    /// Bytes of the frame, or of the commands.
    pub size: usize,
    /// Who does it, and the call: the port on a frame held open, the port, the port afresh (where it amends), the crate
    /// over either cipher, or without one.
    pub calls: Vec<(&'static str, Call)>,
}

const KEYS: ([u8; 16], [u8; 16]) = ([2; 16], [1; 16]);
const COUNTER: u32 = 76543;
static PAYLOAD: [u8; 242] = [0x5a; 242];

/// The fields of a data frame of 12 bytes, or of more than 13.
fn fields(size: usize) -> Data<'static> {
    let payload = &PAYLOAD[..size.saturating_sub(13)];
    Data {
        kind: DataKind::UnconfirmedUp,
        dev_addr: [4, 3, 2, 1],
        fctrl: 0x80,
        counter: COUNTER,
        port: (size > 12).then_some(1),
        commands: &[],
        payload,
    }
}

fn frame(size: usize) -> Vec<u8> {
    let frame = fields(size).build(&NwkSKey(KEYS.0), &AppSKey(KEYS.1)).expect("a good frame");
    assert_eq!(frame.len(), size);
    frame.to_vec()
}

/// Lends a buffer of its own to the call, again and again.
pub fn with(mut buffer: Vec<u8>, mut call: impl FnMut(&mut [u8]) + 'static) -> Call {
    Box::new(move || call(black_box(&mut buffer)))
}

fn row(what: &'static str, size: usize, port: Call, soft: Call, openssl: Call) -> Row {
    Row { what, size, calls: vec![("port", port), ("aes-soft", soft), ("OpenSSL", openssl)] }
}

fn read_row(size: usize) -> Row {
    let port = with(frame(size), |frame| {
        let Ok(Reading::Data(data)) = read(frame) else { panic!("the bench reads good data frames") };
        black_box((data.dev_addr(), data.fctrl(), data.fcnt(), data.fopts()));
        black_box((data.port(), data.kind().is_uplink(), data.kind().is_confirmed(), data.mic()));
    });
    row("read", size, port, with(frame(size), reference::read::<Soft>), with(frame(size), reference::read::<OpenSsl>))
}

fn mic_row(size: usize) -> Row {
    fn theirs<F: Cipher>(size: usize) -> Call {
        with(frame(size), |frame| assert!(reference::mic::<F>(frame, &KEYS.0, COUNTER)))
    }
    let port = with(frame(size), |frame| assert_eq!(data_mic(frame, &NwkSKey(KEYS.0), COUNTER), Ok(true)));
    row("MIC test", size, port, theirs::<Soft>(size), theirs::<OpenSsl>(size))
}

/// Decryption in place; done twice it is the frame again.
fn decrypt_row(size: usize) -> Row {
    fn theirs<F: Cipher>(size: usize) -> Call {
        with(frame(size), |frame| reference::decrypt::<F>(frame, &KEYS.0, &KEYS.1, COUNTER))
    }
    let port = with(frame(size), |frame| {
        assert!(decrypt_data(frame, Some(&NwkSKey(KEYS.0)), Some(&AppSKey(KEYS.1)), COUNTER).is_ok())
    });
    row("decryption", size, port, theirs::<Soft>(size), theirs::<OpenSsl>(size))
}

fn data_by_port(size: usize) -> Call {
    with(vec![0; 255], move |out| {
        assert_eq!(fields(size).build_into(&NwkSKey(KEYS.0), &AppSKey(KEYS.1), out), Ok(size));
    })
}

fn data_by_crate<F: Cipher>(size: usize) -> Call {
    with(vec![0; 255], move |out| assert_eq!(reference::build_data::<F>(&fields(size), &KEYS, out), size))
}

fn data_row(size: usize) -> Row {
    row("building data", size, data_by_port(size), data_by_crate::<Soft>(size), data_by_crate::<OpenSsl>(size))
}

fn join_request_row() -> Row {
    const FIELDS: JoinRequest = JoinRequest { app_eui: [1; 8], dev_eui: [2; 8], dev_nonce: [3; 2] };
    fn theirs<F: Cipher>() -> Call {
        with(vec![0; 23], |out| assert_eq!(reference::build_join_request::<F>(&FIELDS, &KEYS.0, out), 23))
    }
    let port = with(vec![0; 23], |out| assert_eq!(FIELDS.build_into(&AppKey(KEYS.0), out), Ok(23)));
    row("building a join-request", 23, port, theirs::<Soft>(), theirs::<OpenSsl>())
}

fn join_accept_row() -> Row {
    const FIELDS: JoinAccept =
        JoinAccept { app_nonce: [1; 3], net_id: [2; 3], dev_addr: [3; 4], dl_settings: 4, rx_delay: 5, channels: None };
    fn theirs<F: Cipher>() -> Call {
        with(vec![0; 17], |out| assert_eq!(reference::build_join_accept::<F>(&FIELDS, &KEYS.0, out), 17))
    }
    let port = with(vec![0; 17], |out| assert_eq!(FIELDS.build_into(&AppKey(KEYS.0), out), Ok(17)));
    row("building a join-accept", 17, port, theirs::<Soft>(), theirs::<OpenSsl>())
}

/// Amendments at these offsets.
fn list(offsets: &[usize]) -> Vec<Amendment> {
    offsets.iter().enumerate().map(|(i, &offset)| Amendment::new(offset, i as u8)).collect()
}

/// Eight offsets over the whole payload: 34 apart in a frame of 255 bytes.
fn spread(size: usize) -> [usize; 8] {
    std::array::from_fn(|i| i * ((size - 14) / 7))
}

/// Opening, amendments at these offsets, and the frame.
fn amend_by_port(size: usize, offsets: &[usize]) -> Call {
    let list = list(offsets);
    with(frame(size), move |frame| {
        assert!(amend(frame, &NwkSKey(KEYS.0), &AppSKey(KEYS.1), COUNTER, &list).is_ok());
    })
}

/// The same frame built afresh stands beside it.
fn amend_row(what: &'static str, size: usize, offsets: &[usize]) -> Row {
    let amended = amend_by_port(size, offsets);
    let mut row = row(what, size, amended, data_by_crate::<Soft>(size), data_by_crate::<OpenSsl>(size));
    row.calls.insert(1, ("afresh", data_by_port(size)));
    row
}

fn open(frame: &[u8]) -> OpenFrame {
    OpenFrame::open(frame, &NwkSKey(KEYS.0), &AppSKey(KEYS.1), COUNTER).expect("a good frame")
}

/// A call on a frame that is held open all the while.
fn held(size: usize, mut call: impl FnMut(&mut OpenFrame) -> Result<()> + 'static) -> Call {
    let mut held = open(&frame(size));
    Box::new(move || assert!(call(black_box(&mut held)).is_ok()))
}

/// Beside a call on a frame held open: the same amendments of the frame as bytes, and the frame built afresh.
fn held_row(what: &'static str, size: usize, offsets: &[usize], call: Call) -> Row {
    Row {
        what,
        size,
        calls: vec![("held", call), ("port", amend_by_port(size, offsets)), ("afresh", data_by_port(size))],
    }
}

/// Opening has with it the bytes that hold the frame, taken from the heap and cleared in the end.
fn held_rows(size: usize) -> [Row; 4] {
    let (last, spread) = (size - 14, spread(size));
    let opening = with(frame(size), |frame| drop(black_box(open(frame))));
    let eight = list(&spread);
    [
        held_row("held open: opening", size, &[], opening),
        held_row("held open: the first byte", size, &[0], held(size, |open| open.amend(0, 7))),
        held_row("held open: the last byte", size, &[last], held(size, move |open| open.amend(last, 7))),
        held_row("held open: eight bytes, spread", size, &spread, held(size, move |open| open.amend_list(&eight))),
    ]
}

pub fn all() -> Vec<Row> {
    const SIZES: [usize; 3] = [12, 50, 255];
    let mut rows = Vec::new();
    rows.extend(SIZES.map(read_row));
    rows.extend(SIZES.map(mic_row));
    rows.extend(SIZES.map(decrypt_row));
    rows.extend(SIZES.map(data_row));
    rows.extend([join_request_row(), join_accept_row()]);
    for size in [50, 255] {
        rows.push(amend_row("opening alone", size, &[]));
        rows.push(amend_row("amending the first byte", size, &[0]));
        rows.push(amend_row("amending the last byte", size, &[size - 14]));
        rows.push(amend_row("amending eight bytes", size, &[0, 1, 2, 3, 4, 5, 6, 7]));
    }
    rows.extend([50, 255].into_iter().flat_map(held_rows));
    rows
}
