//! The crate on MAC commands: its iterators read, its creators write. Answers are laid out as the oracle lays them out.
//!
//! The crate's iterator has no refusals: at a fault it ends or panics (docs/DIFFERENCES.md). So it judges the commands ahead
//! of the fault, and the fault's number and place come from docs/RULES.md.

use crate::built::{RawCommands, FILL};
use crate::opened::parsed_data;
use crate::records::WriteCommand;
use crate::refusals::End;
use crate::{Judge, Judged};
use lorawan::keys::AES128;
use lorawan::maccommandcreator::{self, *};
use lorawan::maccommands::*;
use lorawan::parser::{DataHeader, DecryptedDataPayload, FRMPayload};
use std::panic::{self, catch_unwind, AssertUnwindSafe};
use std::sync::Once;

const BUFFER_TOO_SHORT: u8 = 7;
const UNKNOWN_COMMAND: u8 = 16;
const COMMAND_CUT_SHORT: u8 = 17;
const VALUE_OUT_OF_RANGE: u8 = 18;

/// A command as the oracle has it: identifier and five values, zeros behind the last.
#[derive(Clone, Copy, Debug, PartialEq, Eq)]
pub struct Numbers {
    pub identifier: u8,
    pub values: [i32; 5],
}

fn numbers<const N: usize>(identifier: u8, given: [i32; N]) -> Numbers {
    let mut values = [0; 5];
    values[..N].copy_from_slice(&given);
    Numbers { identifier, values }
}

fn hundreds(frequency: Frequency) -> i32 {
    (frequency.value() / 100) as i32
}

/// The place of a power in the table that the crate gives in dBm.
fn eirp_code(dbm: u8) -> i32 {
    let in_dbm = |code: u8| TXParamSetupReqPayload::new_from_raw(&[code]).max_eirp();
    (0..16).find(|&code| in_dbm(code) == dbm).expect("a power of the table").into()
}

/// Every field of a command, by the crate's getters; none for one that LoRaWAN 1.0.2 does not have.
pub fn of_downlink(command: &DownlinkMacCommand) -> Option<Numbers> {
    use DownlinkMacCommand::*;
    let identifier = command.cid();
    Some(match command {
        LinkCheckAns(ans) => numbers(identifier, [ans.margin(), ans.gateway_count()].map(i32::from)),
        LinkADRReq(req) => {
            let mask = u16::from_le_bytes([req.channel_mask().get_index(0), req.channel_mask().get_index(1)]);
            let (redundancy, rates) = (req.redundancy(), [req.data_rate(), req.tx_power()].map(i32::from));
            let last = [redundancy.channel_mask_control(), redundancy.number_of_transmissions()].map(i32::from);
            numbers(identifier, [rates[0], rates[1], mask.into(), last[0], last[1]])
        }
        DutyCycleReq(req) => numbers(identifier, [req.max_duty_cycle_raw().into()]),
        RXParamSetupReq(req) => {
            let settings = req.dl_settings();
            let [offset, rate] = [settings.rx1_dr_offset(), settings.rx2_data_rate()].map(i32::from);
            numbers(identifier, [offset, rate, hundreds(req.frequency())])
        }
        DevStatusReq(_) => numbers(identifier, []),
        NewChannelReq(req) => {
            let range = req.data_rate_range();
            let [max, min] = [range.max_data_rate(), range.min_data_rate()].map(i32::from);
            numbers(identifier, [req.channel_index().into(), hundreds(req.frequency()), max, min])
        }
        RXTimingSetupReq(req) => numbers(identifier, [req.delay().into()]),
        TXParamSetupReq(req) => {
            let [down, up] = [req.downlink_dwell_time(), req.uplink_dwell_time()].map(i32::from);
            numbers(identifier, [down, up, eirp_code(req.max_eirp())])
        }
        DlChannelReq(req) => numbers(identifier, [req.channel_index().into(), hundreds(req.frequency())]),
        DeviceTimeAns(_) => return None,
    })
}

/// The same of a command that goes up.
pub fn of_uplink(command: &UplinkMacCommand) -> Option<Numbers> {
    use UplinkMacCommand::*;
    let identifier = command.cid();
    Some(match command {
        LinkADRAns(ans) => {
            let bits = [ans.powert_ack(), ans.data_rate_ack(), ans.channel_mask_ack()];
            numbers(identifier, bits.map(i32::from))
        }
        RXParamSetupAns(ans) => {
            let bits = [ans.rx1_dr_offset_ack(), ans.rx2_data_rate_ack(), ans.channel_ack()];
            numbers(identifier, bits.map(i32::from))
        }
        DevStatusAns(ans) => numbers(identifier, [ans.battery().into(), ans.margin().into()]),
        NewChannelAns(ans) => numbers(identifier, [ans.data_rate_range_ack(), ans.channel_freq_ack()].map(i32::from)),
        DlChannelAns(ans) => numbers(identifier, [ans.uplink_freq_ack(), ans.channel_freq_ack()].map(i32::from)),
        LinkCheckReq(_) | DutyCycleAns(_) | RXTimingSetupAns(_) | TXParamSetupAns(_) => numbers(identifier, []),
        DeviceTimeReq(_) => return None,
    })
}

/// What the crate's creators make of a command.
#[derive(PartialEq, Eq)]
pub enum Created {
    Bytes(Vec<u8>),
    /// A setter refuses the value.
    Refused,
    /// No setter takes the value, or the one that does lets it spill into other bits.
    CannotBeSaid,
}

/// A value that fits so many bits.
fn bits(value: i32, count: u32) -> Option<u8> {
    u8::try_from(value).ok().filter(|&value| u32::from(value) < 1 << count)
}

fn bit(value: i32) -> Option<bool> {
    bits(value, 1).map(|value| value == 1)
}

fn byte(value: i32) -> Option<u8> {
    value.try_into().ok()
}

fn frequency(value: i32) -> Option<[u8; 3]> {
    let [low, middle, high, above] = value.to_le_bytes();
    (above == 0).then_some([low, middle, high])
}

type Tried = Result<Vec<u8>, maccommandcreator::Error>;

fn link_adr_request([data_rate, tx_power, mask, control, transmissions]: [i32; 5]) -> Option<Tried> {
    let (data_rate, tx_power) = (byte(data_rate)?, byte(tx_power)?);
    let mask = u16::try_from(mask).ok()?.to_le_bytes();
    let redundancy = bits(control, 3)? << 4 | bits(transmissions, 4)?;
    let mut creator = LinkADRReqCreator::new();
    creator.set_channel_mask(mask).set_redundancy(redundancy);
    let set = creator.set_data_rate(data_rate).and_then(|creator| creator.set_tx_power(tx_power)).map(drop);
    Some(set.map(|()| creator.build().to_vec()))
}

/// The power goes last: the setters of the dwell times clear its lowest bit.
fn tx_param_request([down, up, eirp, ..]: [i32; 5]) -> Option<Tried> {
    let (down, up, eirp) = (bit(down)?, bit(up)?, byte(eirp)?);
    let mut creator = TXParamSetupReqCreator::new();
    if down {
        creator.set_downlink_dwell_time();
    }
    if up {
        creator.set_uplink_dwell_time();
    }
    Some(creator.set_max_eirp(eirp).map(|creator| creator.build().to_vec()))
}

/// By the creators of the commands that go down; none where the values cannot be said.
fn created_down(identifier: u8, values: [i32; 5]) -> Option<Tried> {
    let [a, b, c, d, _] = values;
    Some(match identifier {
        2 => Ok(LinkCheckAnsCreator::new().set_margin(byte(a)?).set_gateway_count(byte(b)?).build().to_vec()),
        3 => return link_adr_request(values),
        4 => DutyCycleReqCreator::new().set_max_duty_cycle(bits(a, 4)?).map(|creator| creator.build().to_vec()),
        5 => {
            let settings = bits(a, 3)? << 4 | bits(b, 4)?;
            let mut creator = RXParamSetupReqCreator::new();
            Ok(creator.set_dl_settings(settings).set_frequency(&frequency(c)?).build().to_vec())
        }
        6 => Ok(DevStatusReqCreator::new().build().to_vec()),
        7 => {
            let range = bits(c, 4)? << 4 | bits(d, 4)?;
            let mut creator = NewChannelReqCreator::new();
            creator.set_channel_index(byte(a)?).set_frequency(&frequency(b)?).set_data_rate_range(range);
            Ok(creator.build().to_vec())
        }
        8 => RXTimingSetupReqCreator::new().set_delay(byte(a)?).map(|creator| creator.build().to_vec()),
        9 => return tx_param_request(values),
        10 => {
            let mut creator = DlChannelReqCreator::new();
            Ok(creator.set_channel_index(byte(a)?).set_frequency(&frequency(b)?).build().to_vec())
        }
        _ => return None,
    })
}

fn created_up(identifier: u8, [a, b, c, ..]: [i32; 5]) -> Option<Tried> {
    Some(match identifier {
        2 => Ok(LinkCheckReqCreator::new().build().to_vec()),
        3 => {
            let mut creator = LinkADRAnsCreator::new();
            creator.set_tx_power_ack(bit(a)?).set_data_rate_ack(bit(b)?).set_channel_mask_ack(bit(c)?);
            Ok(creator.build().to_vec())
        }
        4 => Ok(DutyCycleAnsCreator::new().build().to_vec()),
        5 => {
            let mut creator = RXParamSetupAnsCreator::new();
            creator.set_rx1_data_rate_offset_ack(bit(a)?).set_rx2_data_rate_ack(bit(b)?).set_channel_ack(bit(c)?);
            Ok(creator.build().to_vec())
        }
        6 => {
            let (battery, margin) = (byte(a)?, i8::try_from(b).ok()?);
            DevStatusAnsCreator::new().set_battery(battery).set_margin(margin).map(|creator| creator.build().to_vec())
        }
        7 => {
            let mut creator = NewChannelAnsCreator::new();
            Ok(creator.set_data_rate_range_ack(bit(a)?).set_channel_frequency_ack(bit(b)?).build().to_vec())
        }
        8 => Ok(RXTimingSetupAnsCreator::new().build().to_vec()),
        9 => Ok(TXParamSetupAnsCreator::new().build().to_vec()),
        10 => {
            let mut creator = DlChannelAnsCreator::new();
            Ok(creator.set_uplink_frequency_exists_ack(bit(a)?).set_channel_frequency_ack(bit(b)?).build().to_vec())
        }
        _ => return None,
    })
}

pub fn created(uplink: bool, identifier: u8, values: [i32; 5]) -> Created {
    match if uplink { created_up(identifier, values) } else { created_down(identifier, values) } {
        None => Created::CannotBeSaid,
        Some(Err(_)) => Created::Refused,
        Some(Ok(bytes)) => Created::Bytes(bytes),
    }
}

/// The crate's iterator panics where a byte is missing; that is caught, and its message is not for the screen.
fn without_its_messages() {
    static ONCE: Once = Once::new();
    ONCE.call_once(|| {
        let others = panic::take_hook();
        panic::set_hook(Box::new(move |panic| {
            let of_the_crate = |file: &str| file.ends_with("src/maccommands.rs") && !file.contains("zinovoky");
            if !panic.location().is_some_and(|place| of_the_crate(place.file())) {
                others(panic);
            }
        }));
    });
}

/// The commands that the iterator yields ahead of its end, of a panic, or of one that is not in LoRaWAN 1.0.2, and how many bytes
/// they are.
fn yielded<T: SerializableMacCommand>(
    mut commands: impl Iterator<Item = T>,
    of: impl Fn(&T) -> Option<Numbers>,
) -> (Vec<(usize, Numbers)>, usize) {
    without_its_messages();
    let (mut found, mut at) = (Vec::new(), 0);
    let mut next = || catch_unwind(AssertUnwindSafe(|| commands.next())).ok().flatten();
    while let Some((command, numbers)) = next().and_then(|command| of(&command).map(|numbers| (command, numbers))) {
        found.push((at, numbers));
        at += 1 + command.payload_len();
    }
    (found, at)
}

/// A list read by the crate: its commands up to the end or to a fault, and how the rules say that it ends.
struct List {
    uplink: bool,
    /// Each with its place.
    commands: Vec<(usize, Numbers)>,
    stopped: usize,
    end: End,
}

impl List {
    /// Of the bytes from an offset on; places count from the start of the bytes.
    fn read(uplink: bool, bytes: &[u8], offset: usize) -> List {
        let rest = bytes.get(offset..).unwrap_or(&[]);
        let (mut commands, length) = match uplink {
            true => yielded(parse_uplink_mac_commands(rest), of_uplink),
            false => yielded(parse_downlink_mac_commands(rest), of_downlink),
        };
        commands.iter_mut().for_each(|(at, _)| *at += offset);
        let stopped = offset.saturating_add(length);
        let end = match rest.get(length) {
            None => End::ACCEPTED,
            Some(2..=10) => End { number: COMMAND_CUT_SHORT, place: stopped as u64 },
            Some(_) => End { number: UNKNOWN_COMMAND, place: stopped as u64 },
        };
        List { uplink, commands, stopped, end }
    }

    /// Each command: identifier, place, the next one's place, values, and what the creators make of it.
    fn answer(&self) -> Vec<u8> {
        let places = self.commands.iter().skip(1).map(|&(at, _)| at).chain([self.stopped]);
        let mut out = Vec::new();
        for (&(at, command), next) in self.commands.iter().zip(places) {
            let Created::Bytes(bytes) = created(self.uplink, command.identifier, command.values) else {
                panic!("the crate does not write what it reads: {command:?}")
            };
            out.push(command.identifier);
            out.extend([at, next].iter().flat_map(|&place| (place as u16).to_le_bytes()));
            out.extend(command.values.iter().flat_map(|value| value.to_le_bytes()));
            out.push(bytes.len() as u8);
            out.extend(bytes);
        }
        out.push(0);
        out.extend(self.end.bytes());
        out
    }
}

/// Whole where every list reads to its end, else up to the fault.
fn judged(answer: Vec<u8>, lists: &[List]) -> Judged {
    match lists.iter().all(|list| list.end == End::ACCEPTED) {
        true => Judged::Whole(answer),
        false => Judged::ToFault(answer),
    }
}

pub fn read(uplink: bool, offset: u64, bytes: &[u8]) -> Judged {
    let list = List::read(uplink, bytes, offset as usize);
    judged(list.answer(), &[list])
}

/// Due where the values can be said and the offset is inside the slice or at its end.
pub fn write(call: &WriteCommand) -> Judged {
    let mut slice = vec![FILL; call.room];
    match (created(call.uplink, call.identifier, call.values), slice.get_mut(call.offset as usize..)) {
        (Created::Refused, _) => Judged::Number(VALUE_OUT_OF_RANGE),
        (Created::Bytes(bytes), Some(room)) => {
            let (end, past) = match build_mac_commands(&[&RawCommands(&bytes)], room) {
                Err(_) => (End::refused(BUFFER_TOO_SHORT), 0),
                Ok(length) => (End::ACCEPTED, call.offset as u16 + length as u16),
            };
            Judged::Whole([&end.bytes()[..], &past.to_le_bytes(), &slice].concat())
        }
        _ => Judged::Outside,
    }
}

/// An accepted writing: the crate reads one command between the offset and the place past it, with these values.
pub fn read_back(call: &WriteCommand, answer: &[u8]) -> bool {
    let past = usize::from(u16::from_le_bytes([answer[1], answer[2]]));
    let Some(written) = answer.get(3..3 + past) else { return false };
    let list = List::read(call.uplink, written, call.offset as usize);
    let [(_, found)] = list.commands[..] else { return false };
    let fields = created(call.uplink, found.identifier, found.values);
    let given = created(call.uplink, call.identifier, call.values);
    list.end == End::ACCEPTED && fields == given && matches!(given, Created::Bytes(_))
}

/// Encrypts or decrypts the payload of a data frame, which is the same step, and gives the frame as the crate then has it.
fn turned<F: Judge>(frame: &mut [u8]) -> Result<DecryptedDataPayload<&mut [u8]>, u8> {
    let key = AES128([7; 16]);
    Ok(parsed_data::<F>(frame)?.decrypt(Some(&key), Some(&key), 0).expect("both keys are given"))
}

/// The payload is clear: it is encrypted first, and the crate decrypts it.
fn lists_of<F: Judge>(frame: &[u8]) -> Result<(bool, [List; 2]), u8> {
    let mut copy = frame.to_vec();
    turned::<F>(&mut copy)?;
    let clear = turned::<F>(&mut copy)?;
    let (uplink, bytes) = (clear.is_uplink(), clear.as_data_bytes());
    let fopts = List::read(uplink, &bytes[..8 + clear.fhdr().data().len()], 8);
    let payload = match clear.frm_payload() {
        FRMPayload::MACCommands(part) => {
            let end = bytes.len() - 4;
            List::read(uplink, &bytes[..end], end - part.data().len())
        }
        _ => List::read(uplink, &[], 0),
    };
    Ok((uplink, [fopts, payload]))
}

pub fn of_frame<F: Judge>(frame: &[u8]) -> Judged {
    match lists_of::<F>(frame) {
        Err(number) => Judged::Whole(End::on(frame, number).bytes()),
        Ok((uplink, lists)) => {
            let answers = lists.each_ref().map(List::answer).concat();
            judged([vec![0, uplink.into()], answers].concat(), &lists)
        }
    }
}
