//! What a MAC command says to a person.

use crate::Command;
use std::fmt;

fn verdict(accepted: bool) -> &'static str {
    if accepted {
        "accepted"
    } else {
        "refused"
    }
}

fn dwell(limited: bool) -> &'static str {
    if limited {
        "400 ms"
    } else {
        "no limit"
    }
}

/// A frequency in units of 100 Hz.
struct MegaHertz(u32);

impl fmt::Display for MegaHertz {
    fn fmt(&self, f: &mut fmt::Formatter) -> fmt::Result {
        write!(f, "{}.{:04} MHz", self.0 / 10_000, self.0 % 10_000)
    }
}

struct Battery(u8);

impl fmt::Display for Battery {
    fn fmt(&self, f: &mut fmt::Formatter) -> fmt::Result {
        match self.0 {
            0 => f.write_str("external power"),
            255 => f.write_str("battery unknown"),
            level => write!(f, "battery {level} of 254"),
        }
    }
}

fn request(command: &Command, f: &mut fmt::Formatter) -> fmt::Result {
    match *command {
        Command::LinkADRReq { data_rate, tx_power, mask, control, transmissions } => write!(
            f,
            ": data rate {data_rate}, TX power {tx_power}, mask {mask:#06x}, control {control}, transmissions {transmissions}"
        ),
        Command::DutyCycleReq { max: 0 } => f.write_str(": no limit"),
        Command::DutyCycleReq { max } => write!(f, ": at most 1/2^{max} of the time"),
        Command::RXParamSetupReq { rx1_offset, rx2_data_rate, frequency } => {
            write!(f, ": RX1 offset {rx1_offset}, RX2 data rate {rx2_data_rate}, {}", MegaHertz(frequency))
        }
        Command::NewChannelReq { index, frequency, max_data_rate, min_data_rate } => {
            write!(f, ": channel {index}, {}, data rates {min_data_rate} to {max_data_rate}", MegaHertz(frequency))
        }
        Command::RXTimingSetupReq { delay } => write!(f, ": delay {} s", delay.max(1)),
        Command::TxParamSetupReq { downlink_dwell, uplink_dwell, max_eirp } => {
            write!(f, ": dwell down {}, dwell up {}, ", dwell(downlink_dwell), dwell(uplink_dwell))?;
            match command.max_eirp_dbm() {
                Some(power) => write!(f, "EIRP up to {power} dBm"),
                None => write!(f, "EIRP code {max_eirp}"),
            }
        }
        Command::DlChannelReq { index, frequency } => write!(f, ": channel {index}, {}", MegaHertz(frequency)),
        _ => Ok(()),
    }
}

fn answer(command: &Command, f: &mut fmt::Formatter) -> fmt::Result {
    match *command {
        Command::LinkCheckAns { margin, gateways } => write!(f, ": margin {margin} dB, gateways {gateways}"),
        Command::LinkADRAns { power, data_rate, mask } => {
            let [power, data_rate, mask] = [power, data_rate, mask].map(verdict);
            write!(f, ": power {power}, data rate {data_rate}, mask {mask}")
        }
        Command::RXParamSetupAns { rx1_offset, rx2_data_rate, channel } => {
            let [rx1_offset, rx2_data_rate, channel] = [rx1_offset, rx2_data_rate, channel].map(verdict);
            write!(f, ": RX1 offset {rx1_offset}, RX2 data rate {rx2_data_rate}, channel {channel}")
        }
        Command::DevStatusAns { battery, margin } => write!(f, ": {}, margin {margin} dB", Battery(battery)),
        Command::NewChannelAns { range, frequency } => {
            write!(f, ": data rate range {}, frequency {}", verdict(range), verdict(frequency))
        }
        Command::DlChannelAns { uplink, frequency } => {
            let exists = if uplink { "exists" } else { "missing" };
            write!(f, ": uplink frequency {exists}, frequency {}", verdict(frequency))
        }
        _ => Ok(()),
    }
}

/// The name, then what the fields stand for.
///
/// ```
/// use zinovoky::Command;
/// let request = Command::RXParamSetupReq { rx1_offset: 2, rx2_data_rate: 3, frequency: 8_695_250 };
/// assert_eq!(request.to_string(), "RXParamSetupReq: RX1 offset 2, RX2 data rate 3, 869.5250 MHz");
/// let status = Command::DevStatusAns { battery: 255, margin: -7 };
/// assert_eq!(status.to_string(), "DevStatusAns: battery unknown, margin -7 dB");
/// ```
impl fmt::Display for Command {
    fn fmt(&self, f: &mut fmt::Formatter) -> fmt::Result {
        f.write_str(self.name())?;
        request(self, f)?;
        answer(self, f)
    }
}
