//! The intended differences: each is run on both, on the smallest input that shows it, and held to what
//! docs/DIFFERENCES.md says. What the crate does is written here as the crate's own answer or panic.

use crate::intended_commands as commands;
use crosscheck::built::RawCommands;
use crosscheck::opened::{parsed_data, parsed_join_accept};
use crosscheck::records::hex;
use factory::OpenSsl;
use lorawan::creator::{DataPayloadCreator, JoinAcceptCreator, JoinRequestCreator};
use lorawan::keys::{AppKey, AppSKey, NewSKey, AES128};
use lorawan::maccommands::Frequency;
use lorawan::parser::*;
use std::panic;
use zinovoky as port;

pub(crate) const FILL: u8 = 0xA5;

/// Both outcomes in words, and whether they are the ones that are written down.
pub(crate) struct Shown {
    crate_says: String,
    port_says: String,
    as_written: bool,
}

pub(crate) fn shown(crate_says: String, port_says: String, crate_due: &str, port_due: &str) -> Shown {
    let as_written = crate_says == crate_due && port_says == port_due;
    Shown { crate_says, port_says, as_written }
}

/// What a call of the crate comes to, a panic included.
pub(crate) fn said(call: impl FnOnce() -> String + panic::UnwindSafe) -> String {
    panic::catch_unwind(call).unwrap_or_else(|_| "panics".into())
}

/// The number, the place where there is one, and whether a byte was changed.
pub(crate) fn refused<T>(answer: port::Result<T>, unchanged: bool) -> String {
    let (number, place) = answer.err().map_or((0, 0), |refusal| (refusal.number(), refusal.place));
    let at = if place == 0 { String::new() } else { format!(" at {place}") };
    format!("{number}{at}, {}", if unchanged { "unchanged" } else { "changed" })
}

const LISTED: port::JoinAccept = port::JoinAccept {
    app_nonce: [1; 3],
    net_id: [1; 3],
    dev_addr: [1; 4],
    dl_settings: 2,
    rx_delay: 1,
    channels: Some(&[0x84_6e58, 0x84_6688]),
};

/// The frame and whether the crate's reader finds its MIC good.
fn with_mic(frame: &[u8]) -> String {
    let (mut copy, key) = (frame.to_vec(), AppKey::from([1; 16]));
    let good = parsed_join_accept::<OpenSsl>(&mut copy).is_ok_and(|accept| accept.decrypt(&key).validate_mic(&key));
    format!("{}, MIC {}", hex(frame), if good { "good" } else { "bad" })
}

fn channel_list() -> Shown {
    let crate_says = said(|| {
        let channels = [Frequency::from(&[0x58, 0x6e, 0x84]), Frequency::from(&[0x88, 0x66, 0x84])];
        let mut creator = JoinAcceptCreator::with_options([0; 33], OpenSsl).unwrap();
        creator.set_app_nonce(&[1; 3]).set_net_id(&[1; 3]).set_dev_addr(&[1; 4]).set_dl_settings(2).set_rx_delay(1);
        creator.set_c_f_list(channels).unwrap();
        with_mic(creator.build(&AES128([1; 16])).unwrap())
    });
    shown(
        crate_says,
        LISTED.build(&port::AppKey([1; 16])).map_or("refused".into(), |frame| with_mic(&frame)),
        "204ae1eb3e9874de9a6ab9c7d4b295cbfa66840000000000000000000000000000, MIC bad",
        "2068b2974995c64548a5648f780ad70a773f7f796e1925eb846238a19aeb55222a, MIC good",
    )
}

fn list_into_seventeen() -> Shown {
    let crate_says = said(|| {
        let mut creator = JoinAcceptCreator::with_options([FILL; 17], OpenSsl).unwrap();
        creator.set_c_f_list([Frequency::from(&[1, 2, 3]), Frequency::from(&[4, 5, 6])]).map(|_| ()).unwrap();
        "accepts".into()
    });
    let mut slice = [FILL; 17];
    let answer = LISTED.build_into(&port::AppKey([1; 16]), &mut slice);
    shown(crate_says, refused(answer, slice == [FILL; 17]), "panics", "7, unchanged")
}

fn long_frame() -> Shown {
    let frame = [0x40; 256];
    let crate_says = match parsed_data::<OpenSsl>(&mut frame.clone()) {
        Ok(data) => format!("accepts {} bytes", data.as_data_bytes().len()),
        Err(number) => format!("{number}"),
    };
    shown(crate_says, refused(port::read(&frame), true), "accepts 256 bytes", "12 at 256, unchanged")
}

const KEYS: ([u8; 16], [u8; 16]) = ([2; 16], [1; 16]);
const BARE: port::Data = port::Data {
    kind: port::DataKind::UnconfirmedUp,
    dev_addr: [0; 4],
    fctrl: 0,
    counter: 0,
    port: None,
    commands: &[],
    payload: &[],
};

/// The crate's data builder on a slice of so many bytes: the frame's length or a word, and the slice.
fn crate_built(room: usize, fields: &port::Data) -> (String, Vec<u8>) {
    let mut slice = vec![FILL; room];
    let raw = RawCommands(fields.commands);
    let built = panic::catch_unwind(panic::AssertUnwindSafe(|| {
        let mut creator = DataPayloadCreator::with_options(&mut slice[..], OpenSsl)?;
        creator.set_dev_addr(&fields.dev_addr).set_fctrl(&FCtrl::new(fields.fctrl, true)).set_fcnt(fields.counter);
        if let Some(port) = fields.port {
            creator.set_f_port(port);
        }
        let commands: &[&dyn lorawan::maccommands::SerializableMacCommand] =
            if fields.commands.is_empty() { &[] } else { &[&raw] };
        let (network, application) = (NewSKey::from(KEYS.0), AppSKey::from(KEYS.1));
        creator.build(fields.payload, commands, &network, &application).map(|frame| frame.len())
    }));
    let said = match built {
        Err(_) => "panics".into(),
        Ok(Err(error)) => format!("{error:?}"),
        Ok(Ok(length)) => format!("{length} bytes"),
    };
    (said, slice)
}

fn port_built(room: usize, fields: &port::Data) -> String {
    let mut slice = vec![FILL; room];
    let answer = fields.build_into(&port::NwkSKey(KEYS.0), &port::AppSKey(KEYS.1), &mut slice);
    refused(answer, slice.iter().all(|&byte| byte == FILL))
}

fn long_building() -> Shown {
    let fields = port::Data { port: Some(1), payload: &[0; 243], ..BARE };
    shown(crate_built(256, &fields).0, port_built(256, &fields), "256 bytes", "12, unchanged")
}

fn long_building_into_255() -> Shown {
    let fields = port::Data { port: Some(1), payload: &[0; 243], ..BARE };
    shown(crate_built(255, &fields).0, port_built(255, &fields), "panics", "12, unchanged")
}

/// The crate writes the nibble, so that its own reader looks for FOpts that are not there.
fn fopts_len_set() -> Shown {
    let fields = port::Data { fctrl: 1, ..BARE };
    let (said, mut slice) = crate_built(255, &fields);
    let read = parsed_data::<OpenSsl>(&mut slice[..12]).err().unwrap_or(0);
    shown(format!("{said}, read: {read}"), port_built(255, &fields), "12 bytes, read: 4", "13, unchanged")
}

/// Two lengths are put into one nibble.
fn fopts_len_set_with_commands() -> Shown {
    let fields = port::Data { fctrl: 2, commands: &[2], ..BARE };
    let (said, slice) = crate_built(255, &fields);
    shown(format!("{said}, FCtrl {:02x}", slice[5]), port_built(255, &fields), "13 bytes, FCtrl 03", "13, unchanged")
}

fn refused_building() -> Shown {
    let fields = port::Data { payload: &[0], ..BARE };
    let (said, slice) = crate_built(255, &fields);
    let written = slice.iter().filter(|&&byte| byte != FILL).count();
    shown(
        format!("{said}, {written} bytes written"),
        port_built(255, &fields),
        "FRMPayloadWithFportZero, 8 bytes written",
        "11, unchanged",
    )
}

fn refused_checked_join_accept() -> Shown {
    let frame: [u8; 17] = std::array::from_fn(|i| if i == 0 { 0x20 } else { 0 });
    let mut theirs = frame;
    let answer = DecryptedJoinAcceptPayload::new_with_factory(&mut theirs[..], &AppKey::from([0; 16]), OpenSsl).err();
    let mut ours = frame;
    let refusal = port::decrypt_join_accept_checked(&mut ours, &port::AppKey([0; 16]));
    shown(
        format!("{answer:?}, {}", if theirs == frame { "unchanged" } else { "changed" }),
        refused(refusal, ours == frame),
        "Some(InvalidMic), changed",
        "5, unchanged",
    )
}

fn accepted<T, E>(answer: Result<T, E>) -> &'static str {
    match answer {
        Ok(_) => "accepts",
        Err(_) => "refuses",
    }
}

/// The constructors of the four kinds, each on a frame of another major version.
fn direct_constructors() -> Shown {
    let with_first = |first: u8, length: usize| {
        let mut frame = vec![0; length];
        frame[0] = first;
        frame
    };
    let (data, request, accept) = (with_first(0x41, 12), with_first(0x01, 23), with_first(0x21, 17));
    let crate_says = [
        accepted(EncryptedDataPayload::new_with_factory(&data, OpenSsl)),
        accepted(JoinRequestPayload::new_with_factory(&request, OpenSsl)),
        accepted(EncryptedJoinAcceptPayload::new_with_factory(accept.clone(), OpenSsl)),
    ];
    let port_says = [&data, &request, &accept].map(|frame| refused(port::read(frame), true));
    shown(
        crate_says.join(", "),
        port_says.join("; "),
        "accepts, accepts, accepts",
        "2, unchanged; 2, unchanged; 2, unchanged",
    )
}

fn join_request_into_more() -> Shown {
    let (key, mut theirs) = ([1; 16], [0; 24]);
    let length = JoinRequestCreator::with_options(&mut theirs[..], OpenSsl).unwrap().build(&AppKey::from(key)).len();
    let fields = port::JoinRequest { app_eui: [0; 8], dev_eui: [0; 8], dev_nonce: [0; 2] };
    let mut ours = [FILL; 24];
    let answer = fields.build_into(&port::AppKey(key), &mut ours);
    shown(
        format!("{length} bytes, MIC from {}", theirs.iter().take_while(|&&byte| byte == 0).count()),
        format!("{} bytes, byte 23 {:02x}", answer.unwrap_or(0), ours[23]),
        "24 bytes, MIC from 20",
        "23 bytes, byte 23 a5",
    )
}

fn join_accept_into_more() -> Shown {
    let mut theirs = [0; 18];
    let length = JoinAcceptCreator::with_options(&mut theirs[..], OpenSsl)
        .and_then(|mut creator| creator.build(&AES128([1; 16])).map(|frame| frame.len()))
        .unwrap_or(0);
    let mut ours = [FILL; 18];
    let answer = port::JoinAccept { channels: None, ..LISTED }.build_into(&port::AppKey([1; 16]), &mut ours);
    shown(
        format!("returns {length} bytes"),
        format!("{} bytes, byte 17 {:02x}", answer.unwrap_or(0), ours[17]),
        "returns 18 bytes",
        "17 bytes, byte 17 a5",
    )
}

fn join_accept_into_nothing() -> Shown {
    let crate_says = said(|| {
        JoinAcceptCreator::with_options([0; 0], OpenSsl).map(|_| ()).unwrap();
        "accepts".into()
    });
    let fields = port::JoinAccept { channels: None, ..LISTED };
    let answer = fields.build_into(&port::AppKey([1; 16]), &mut []);
    shown(crate_says, refused(answer, true), "panics", "7, unchanged")
}

/// Any length from 1 to 12 does, each at another setter.
fn join_accept_into_short() -> Shown {
    let panics = (1..=12).filter(|&room| {
        said(move || {
            let mut slice = vec![0; room];
            let mut creator = JoinAcceptCreator::with_options(&mut slice[..], OpenSsl).unwrap();
            creator.set_app_nonce(&[1; 3]).set_net_id(&[1; 3]).set_dev_addr(&[1; 4]).set_dl_settings(2).set_rx_delay(1);
            "accepts".into()
        }) == "panics"
    });
    let fields = port::JoinAccept { channels: None, ..LISTED };
    let refusals = (1..=12).filter(|&room| {
        let mut slice = vec![FILL; room];
        let answer = fields.build_into(&port::AppKey([1; 16]), &mut slice);
        refused(answer, slice == vec![FILL; room]) == "7, unchanged"
    });
    shown(
        format!("panics at {} lengths", panics.count()),
        format!("7, unchanged at {} lengths", refusals.count()),
        "panics at 12 lengths",
        "7, unchanged at 12 lengths",
    )
}

/// A creator that is used again keeps the length of the first commands, and a join-accept its first frame.
fn creators_used_again() -> Shown {
    let (network, application) = (NewSKey::from(KEYS.0), AppSKey::from(KEYS.1));
    let mut creator = DataPayloadCreator::with_options([0; 255], OpenSsl).unwrap();
    creator.build(&[], &[&RawCommands(&[2])], &network, &application).unwrap();
    let fctrl = creator.build(&[], &[&RawCommands(&[5, 0])], &network, &application).unwrap()[5];
    let mut creator = JoinAcceptCreator::with_options([0; 17], OpenSsl).unwrap();
    let first = creator.build(&AES128([1; 16])).unwrap().to_vec();
    let same = creator.build(&AES128([2; 16])).unwrap() == first;
    let second = port::Data { commands: &[5, 0], ..BARE };
    let ours = second.build(&port::NwkSKey(KEYS.0), &port::AppSKey(KEYS.1)).map_or(0xff, |frame| frame[5]);
    let fields = port::JoinAccept { channels: None, ..LISTED };
    let differ = fields.build(&port::AppKey([1; 16])) != fields.build(&port::AppKey([2; 16]));
    shown(
        format!("FCtrl {fctrl:02x}, another key {}", if same { "not seen" } else { "seen" }),
        format!("FCtrl {ours:02x}, another key {}", if differ { "seen" } else { "not seen" }),
        "FCtrl 03, another key not seen",
        "FCtrl 02, another key seen",
    )
}

/// The crate's types keep the calls apart; the port answers 4.
fn other_type() -> Shown {
    let mut frame = [0; 23];
    let read = match parsed_data::<OpenSsl>(&mut frame) {
        Ok(_) => "data",
        Err(_) => "a join-request, which has no decryption",
    };
    let answer = port::decrypt_data(&mut frame, None, None, 0);
    shown(read.into(), refused(answer, frame == [0; 23]), "a join-request, which has no decryption", "4, unchanged")
}

/// The crate takes NwkID out of the address's low byte, which is the first in a frame.
fn network_of_an_address() -> Shown {
    let mut frame = [0x40, 1, 2, 3, 4, 0, 0, 0, 0, 0, 0, 0];
    let ours = match port::read(&frame) {
        Ok(port::Reading::Data(data)) => format!("{}", data.nwk_id()),
        other => format!("{other:?}"),
    };
    let theirs = parsed_data::<OpenSsl>(&mut frame).map_or(0xff, |data| data.fhdr().dev_addr().nwk_id());
    shown(format!("{theirs}"), ours, "0", "2")
}

/// The crate says why it refuses, and not where the frame is bad.
fn place_of_a_refusal() -> Shown {
    let frames = [&[0; 11][..], &[0; 22], &[0x40, 0, 0, 0, 0, 1, 0, 0, 0, 0, 0, 0]];
    let crate_says = frames.map(|frame| match parse_with_factory(frame.to_vec(), OpenSsl) {
        Ok(_) => "accepts".into(),
        Err(error) => format!("{error:?}"),
    });
    let port_says = frames.map(|frame| refused(port::read(frame), true));
    shown(
        crate_says.join(", "),
        port_says.join("; "),
        "InvalidPayload, InvalidData, InvalidData",
        "1 at 11, unchanged; 4 at 22, unchanged; 4 at 5, unchanged",
    )
}

/// Port 5 and port 0 with nothing behind them.
fn port_with_nothing_behind_it() -> Shown {
    let frames = [5, 0].map(|port| [0x40, 0, 0, 0, 0, 0, 0, 0, port, 0, 0, 0, 0]);
    let reported = |port: Option<u8>, kind: &str, bytes: &[u8]| format!("{port:?}, {kind} of {} bytes", bytes.len());
    let crate_says = frames.map(|mut frame| {
        let Ok(data) = parsed_data::<OpenSsl>(&mut frame) else { return "refused".into() };
        let (port, key) = (data.f_port(), AES128([0; 16]));
        let Ok(open) = data.decrypt(Some(&key), Some(&key), 0) else { return "not opened".into() };
        match open.frm_payload() {
            FRMPayload::Data(bytes) => reported(port, "data", bytes),
            FRMPayload::MACCommands(commands) => reported(port, "commands", commands.data()),
            FRMPayload::None => "no payload".into(),
        }
    });
    let port_says = frames.map(|frame| match port::read(&frame) {
        Ok(port::Reading::Data(data)) => match data.payload() {
            port::Payload::Data(bytes) => reported(data.port(), "data", bytes),
            port::Payload::Commands(bytes) => reported(data.port(), "commands", bytes),
            port::Payload::None => "no payload".into(),
        },
        other => format!("{other:?}"),
    });
    shown(
        crate_says.join("; "),
        port_says.join("; "),
        "None, data of 0 bytes; None, data of 0 bytes",
        "Some(5), data of 0 bytes; Some(0), commands of 0 bytes",
    )
}

type Difference = (&'static str, fn() -> Shown);

/// In the order of the numbers of the document's rows.
const ALL: [Difference; 28] = [
    ("a join-accept with a channel list", channel_list),
    ("a frame of 256 bytes, read", long_frame),
    ("a frame of 256 bytes, built into 256", long_building),
    ("FCtrl with a length and no commands", fopts_len_set),
    ("FCtrl with a length and commands", fopts_len_set_with_commands),
    ("another major version, direct constructors", direct_constructors),
    ("a join-request into 24 bytes", join_request_into_more),
    ("a join-accept without a list into 18 bytes", join_accept_into_more),
    ("a creator used again", creators_used_again),
    ("a frame of another type", other_type),
    ("a checked join-accept, refused", refused_checked_join_accept),
    ("a refused building", refused_building),
    ("a join-accept into an empty slice", join_accept_into_nothing),
    ("a join-accept into 1 to 12 bytes", join_accept_into_short),
    ("a channel list into 17 bytes", list_into_seventeen),
    ("a frame of 256 bytes, built into 255", long_building_into_255),
    ("NwkID of an address", network_of_an_address),
    ("the place of a refusal", place_of_a_refusal),
    ("faults in a list of commands", commands::silent_faults),
    ("identifier 0x0d", commands::device_time),
    ("answers with reserved bits", commands::acknowledged_with_reserved_bits),
    ("reserved bits written", commands::reserved_bits_written),
    ("a power ahead of a dwell time", commands::power_ahead_of_dwell),
    ("a creator by default", commands::default_creator),
    ("the direction of DevStatusAns", commands::direction_of_a_command),
    ("the direction of a frame's commands", commands::direction_of_a_frame),
    ("a command that lacks one byte", commands::one_byte_missing),
    ("a port with nothing behind it", port_with_nothing_behind_it),
];

/// Shows each and gives how many are not as written.
pub fn show_all() -> usize {
    let hook = panic::take_hook();
    panic::set_hook(Box::new(|_| {}));
    let outcomes: Vec<(&str, Shown)> = ALL.map(|(what, run)| (what, run())).into();
    panic::set_hook(hook);
    let mut wrong = 0;
    for (place, (what, shown)) in outcomes.iter().enumerate() {
        let verdict = if shown.as_written { "as written" } else { "NOT AS WRITTEN" };
        let (theirs, ours) = (&shown.crate_says, &shown.port_says);
        println!("difference {}, {verdict}: {what}: crate: {theirs}; port: {ours}", place + 1);
        wrong += usize::from(!shown.as_written);
    }
    wrong
}
