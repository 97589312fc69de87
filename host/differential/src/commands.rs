//! MAC commands of the port as the oracle has them, field by field and back, and what the rules say of each field.

use zinovoky::Command::{self, *};

/// What a field holds.
#[derive(Clone, Copy)]
pub enum Field {
    /// So many bits.
    Bits(u32),
    /// Six bits with a sign.
    Margin,
}

use Field::{Bits, Margin};

impl Field {
    pub fn holds(self, value: i32) -> bool {
        match self {
            Bits(count) => (0..1 << count).contains(&value),
            Margin => (-32..32).contains(&value),
        }
    }

    /// The least and the greatest number that Rust's type of the field has.
    pub fn of_type(self) -> (i64, i64) {
        match self {
            Bits(1) => (0, 1),
            Bits(..=8) => (0, u8::MAX.into()),
            Bits(16) => (0, u16::MAX.into()),
            Bits(_) => (0, i32::MAX.into()),
            Margin => (i8::MIN.into(), i8::MAX.into()),
        }
    }
}

/// The fields of each command by identifier, from 2 on, and the bytes behind the identifier.
type Layout = (&'static [Field], usize);

const DOWN: [Layout; 9] = [
    (&[Bits(8), Bits(8)], 2),
    (&[Bits(4), Bits(4), Bits(16), Bits(3), Bits(4)], 4),
    (&[Bits(4)], 1),
    (&[Bits(3), Bits(4), Bits(24)], 4),
    (&[], 0),
    (&[Bits(8), Bits(24), Bits(4), Bits(4)], 5),
    (&[Bits(4)], 1),
    (&[Bits(1), Bits(1), Bits(4)], 1),
    (&[Bits(8), Bits(24)], 4),
];

const UP: [Layout; 9] = [
    (&[], 0),
    (&[Bits(1), Bits(1), Bits(1)], 1),
    (&[], 0),
    (&[Bits(1), Bits(1), Bits(1)], 1),
    (&[Bits(8), Margin], 2),
    (&[Bits(1), Bits(1)], 1),
    (&[], 0),
    (&[], 0),
    (&[Bits(1), Bits(1)], 1),
];

/// None for an identifier that no command has.
pub fn layout(uplink: bool, identifier: u8) -> Option<Layout> {
    let layouts = if uplink { UP } else { DOWN };
    layouts.get(usize::from(identifier.checked_sub(2)?)).copied()
}

fn filled<const N: usize>(given: [i32; N]) -> [i32; 5] {
    let mut values = [0; 5];
    values[..N].copy_from_slice(&given);
    values
}

/// The values in the order of the fields, zeros behind the last.
pub fn values(command: &Command) -> [i32; 5] {
    match *command {
        LinkCheckAns { margin, gateways } => filled([margin, gateways].map(i32::from)),
        LinkADRReq { data_rate, tx_power, mask, control, transmissions } => {
            [data_rate.into(), tx_power.into(), mask.into(), control.into(), transmissions.into()]
        }
        DutyCycleReq { max } => filled([max.into()]),
        RXParamSetupReq { rx1_offset, rx2_data_rate, frequency } => {
            filled([rx1_offset.into(), rx2_data_rate.into(), frequency as i32])
        }
        NewChannelReq { index, frequency, max_data_rate, min_data_rate } => {
            filled([index.into(), frequency as i32, max_data_rate.into(), min_data_rate.into()])
        }
        RXTimingSetupReq { delay } => filled([delay.into()]),
        TxParamSetupReq { downlink_dwell, uplink_dwell, max_eirp } => {
            filled([downlink_dwell.into(), uplink_dwell.into(), max_eirp.into()])
        }
        DlChannelReq { index, frequency } => filled([index.into(), frequency as i32]),
        LinkADRAns { power, data_rate, mask } => filled([power, data_rate, mask].map(i32::from)),
        RXParamSetupAns { rx1_offset, rx2_data_rate, channel } => {
            filled([rx1_offset, rx2_data_rate, channel].map(i32::from))
        }
        DevStatusAns { battery, margin } => filled([battery.into(), margin.into()]),
        NewChannelAns { range, frequency } => filled([range, frequency].map(i32::from)),
        DlChannelAns { uplink, frequency } => filled([uplink, frequency].map(i32::from)),
        DevStatusReq | LinkCheckReq | DutyCycleAns | RXTimingSetupAns | TxParamSetupAns => [0; 5],
    }
}

fn byte(value: i32) -> Option<u8> {
    value.try_into().ok()
}

fn bit(value: i32) -> Option<bool> {
    byte(value).filter(|&value| value < 2).map(|value| value == 1)
}

fn word(value: i32) -> Option<u32> {
    value.try_into().ok()
}

fn down(identifier: u8, [a, b, c, d, e]: [i32; 5]) -> Option<Command> {
    Some(match identifier {
        2 => LinkCheckAns { margin: byte(a)?, gateways: byte(b)? },
        3 => LinkADRReq {
            data_rate: byte(a)?,
            tx_power: byte(b)?,
            mask: c.try_into().ok()?,
            control: byte(d)?,
            transmissions: byte(e)?,
        },
        4 => DutyCycleReq { max: byte(a)? },
        5 => RXParamSetupReq { rx1_offset: byte(a)?, rx2_data_rate: byte(b)?, frequency: word(c)? },
        6 => DevStatusReq,
        7 => NewChannelReq { index: byte(a)?, frequency: word(b)?, max_data_rate: byte(c)?, min_data_rate: byte(d)? },
        8 => RXTimingSetupReq { delay: byte(a)? },
        9 => TxParamSetupReq { downlink_dwell: bit(a)?, uplink_dwell: bit(b)?, max_eirp: byte(c)? },
        10 => DlChannelReq { index: byte(a)?, frequency: word(b)? },
        _ => return None,
    })
}

fn up(identifier: u8, [a, b, c, ..]: [i32; 5]) -> Option<Command> {
    Some(match identifier {
        2 => LinkCheckReq,
        3 => LinkADRAns { power: bit(a)?, data_rate: bit(b)?, mask: bit(c)? },
        4 => DutyCycleAns,
        5 => RXParamSetupAns { rx1_offset: bit(a)?, rx2_data_rate: bit(b)?, channel: bit(c)? },
        6 => DevStatusAns { battery: byte(a)?, margin: b.try_into().ok()? },
        7 => NewChannelAns { range: bit(a)?, frequency: bit(b)? },
        8 => RXTimingSetupAns,
        9 => TxParamSetupAns,
        10 => DlChannelAns { uplink: bit(a)?, frequency: bit(b)? },
        _ => return None,
    })
}

/// The command with these values; none where Rust's types cannot say it.
pub fn command(uplink: bool, identifier: u8, values: [i32; 5]) -> Option<Command> {
    if uplink {
        up(identifier, values)
    } else {
        down(identifier, values)
    }
}

/// The number that the rules give to writing where the crate is no judge, for want of room beyond its slice too.
pub fn number_of_writing(uplink: bool, identifier: u8, values: &[i32; 5]) -> u8 {
    match layout(uplink, identifier) {
        None => 16,
        Some((fields, _)) if fields.iter().zip(values).any(|(field, &value)| !field.holds(value)) => 18,
        Some(_) => 7,
    }
}
