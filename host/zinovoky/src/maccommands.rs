//! MAC commands (LoRaWAN 1.0.2, section 5): a list of bytes read command by command, and commands written.

use crate::{ffi, Reason, Refusal, Result};
use std::error::Error;
use std::fmt;
use std::iter::FusedIterator;

/// Which way a frame and its commands go: an identifier names one command up and another one down.
#[derive(Clone, Copy, Debug, PartialEq, Eq, Hash)]
pub enum Direction {
    /// From the device.
    Up,
    /// To the device.
    Down,
}

/// A field of a command, as the C interface has it.
trait Field {
    fn of(number: i64) -> Self;
    fn number(self) -> i64;
}

macro_rules! numbers {
    ($($type:ty),*) => {
        $(impl Field for $type {
            #[inline]
            fn of(number: i64) -> Self {
                number as $type
            }

            #[inline]
            fn number(self) -> i64 {
                self.into()
            }
        })*
    };
}

numbers!(u8, i8, u16, u32);

impl Field for bool {
    #[inline]
    fn of(number: i64) -> Self {
        number != 0
    }

    #[inline]
    fn number(self) -> i64 {
        self.into()
    }
}

macro_rules! commands {
    ($($(#[$doc:meta])* $direction:ident $identifier:literal $name:ident $({
        $($(#[$about:meta])* $field:ident: $type:ty),* $(,)?
    })?,)*) => {
        /// A MAC command, by value. The first nine go down, the others up.
        ///
        /// Some fields have fewer bits than their type: a value that does not fit is refused by 18 when it is written.
        /// Reading ignores reserved bits, and writing sets them to 0.
        ///
        /// ```
        /// use zinovoky::{Command, Direction};
        /// let command = Command::LinkADRAns { power: false, data_rate: true, mask: true };
        /// assert_eq!((command.name(), command.identifier(), command.direction()), ("LinkADRAns", 3, Direction::Up));
        /// assert_eq!(command.accepted(), Some(false));
        /// assert_eq!(command.to_string(), "LinkADRAns: power refused, data rate accepted, mask accepted");
        /// ```
        #[derive(Clone, Copy, Debug, PartialEq, Eq, Hash)]
        pub enum Command {
            $($(#[$doc])* $name $({ $($(#[$about])* $field: $type),* })?,)*
        }

        impl Command {
            pub const fn name(&self) -> &'static str {
                match self {
                    $(Command::$name { .. } => stringify!($name),)*
                }
            }

            /// 2 to 10, the first byte of the command.
            pub const fn identifier(&self) -> u8 {
                match self {
                    $(Command::$name { .. } => $identifier,)*
                }
            }

            #[inline]
            pub const fn direction(&self) -> Direction {
                match self {
                    $(Command::$name { .. } => Direction::$direction,)*
                }
            }

            /// From an identifier and five values, zeros behind the last; none where no command has the identifier.
            #[inline]
            fn of(direction: Direction, [identifier, values @ ..]: &ffi::Numbers) -> Option<Command> {
                let mut values = values.iter();
                let mut next = || values.next().copied().unwrap_or(0);
                match (direction, *identifier) {
                    $((Direction::$direction, $identifier) => {
                        Some(Command::$name { $($($field: Field::of(next())),*)? })
                    })*
                    _ => None,
                }
            }

            #[inline]
            fn numbers(self) -> ffi::Numbers {
                let mut numbers = [0; 6];
                match self {
                    $(Command::$name { $($($field),*)? } => {
                        let given = [$identifier, $($($field.number()),*)?];
                        numbers[..given.len()].copy_from_slice(&given);
                    })*
                }
                numbers
            }
        }
    };
}

commands! {
    Down 2 LinkCheckAns {
        /// In dB above what demodulation needs.
        margin: u8,
        gateways: u8,
    },
    Down 3 LinkADRReq {
        /// 0 to 15.
        data_rate: u8,
        /// 0 to 15; what it stands for is the region's to say.
        tx_power: u8,
        /// Bit i is channel i, or of a bank of channels, as `control` says.
        mask: u16,
        /// 0 to 7.
        control: u8,
        /// 0 to 15.
        transmissions: u8,
    },
    Down 4 DutyCycleReq {
        /// 0 to 15: at most 1 / 2^max of the time.
        max: u8,
    },
    Down 5 RXParamSetupReq {
        /// 0 to 7.
        rx1_offset: u8,
        /// 0 to 15.
        rx2_data_rate: u8,
        /// In units of 100 Hz, up to 16,777,215.
        frequency: u32,
    },
    Down 6 DevStatusReq,
    Down 7 NewChannelReq {
        index: u8,
        /// In units of 100 Hz, up to 16,777,215.
        frequency: u32,
        /// 0 to 15.
        max_data_rate: u8,
        /// 0 to 15.
        min_data_rate: u8,
    },
    Down 8 RXTimingSetupReq {
        /// 0 to 15 seconds; 0 stands for 1.
        delay: u8,
    },
    Down 9 TxParamSetupReq {
        /// Whether a transmission down may last 400 ms at most.
        downlink_dwell: bool,
        /// Whether one up may.
        uplink_dwell: bool,
        /// 0 to 15, a place in [`MAX_EIRP_DBM`].
        max_eirp: u8,
    },
    Down 10 DlChannelReq {
        index: u8,
        /// In units of 100 Hz, up to 16,777,215.
        frequency: u32,
    },
    Up 2 LinkCheckReq,
    /// What of a LinkADRReq the device accepts.
    Up 3 LinkADRAns {
        power: bool,
        data_rate: bool,
        mask: bool,
    },
    Up 4 DutyCycleAns,
    /// What of an RXParamSetupReq the device accepts.
    Up 5 RXParamSetupAns {
        rx1_offset: bool,
        rx2_data_rate: bool,
        channel: bool,
    },
    Up 6 DevStatusAns {
        /// 0 on external power, 1 to 254 from empty to full, 255 where the device cannot tell.
        battery: u8,
        /// -32 to 31 dB, of the last DevStatusReq.
        margin: i8,
    },
    /// What of a NewChannelReq the device accepts.
    Up 7 NewChannelAns {
        range: bool,
        frequency: bool,
    },
    Up 8 RXTimingSetupAns,
    Up 9 TxParamSetupAns,
    /// Whether the channel has an uplink frequency, and whether the device can use the one for the downlink.
    Up 10 DlChannelAns {
        uplink: bool,
        frequency: bool,
    },
}

/// What `max_eirp` of a TxParamSetupReq stands for, in dBm (LoRaWAN 1.0.2, 5.8).
pub const MAX_EIRP_DBM: [u8; 16] = [8, 10, 12, 13, 14, 16, 18, 20, 21, 24, 26, 27, 29, 30, 33, 36];

impl Command {
    /// Of an answer that accepts or refuses: whether all of it is accepted.
    pub const fn accepted(&self) -> Option<bool> {
        match *self {
            Command::LinkADRAns { power, data_rate, mask } => Some(power && data_rate && mask),
            Command::RXParamSetupAns { rx1_offset, rx2_data_rate, channel } => {
                Some(rx1_offset && rx2_data_rate && channel)
            }
            Command::NewChannelAns { range, frequency } => Some(range && frequency),
            Command::DlChannelAns { uplink, frequency } => Some(uplink && frequency),
            _ => None,
        }
    }

    /// The frequency of a command that has one, in Hz.
    pub const fn frequency_hz(&self) -> Option<u64> {
        match *self {
            Command::RXParamSetupReq { frequency, .. }
            | Command::NewChannelReq { frequency, .. }
            | Command::DlChannelReq { frequency, .. } => Some(frequency as u64 * 100),
            _ => None,
        }
    }

    /// The maximum EIRP of a TxParamSetupReq, in dBm.
    pub fn max_eirp_dbm(&self) -> Option<u8> {
        match *self {
            Command::TxParamSetupReq { max_eirp, .. } => MAX_EIRP_DBM.get(usize::from(max_eirp)).copied(),
            _ => None,
        }
    }

    /// Writes the command at that place of `out` and gives the place past it. Refusals: 18, 7; then nothing is written.
    ///
    /// ```
    /// use zinovoky::{Command, Reason};
    /// let mut out = [0; 4];
    /// assert_eq!(Command::DevStatusAns { battery: 255, margin: -7 }.write(&mut out, 1), Ok(4));
    /// assert_eq!(out, [0, 6, 255, 0x39]);
    /// assert_eq!(Command::DutyCycleReq { max: 16 }.write(&mut out, 0), Err(Reason::ValueOutOfRange.at(0)));
    /// assert_eq!(Command::DutyCycleReq { max: 15 }.write(&mut out, 3), Err(Reason::BufferTooShort.at(0)));
    /// assert_eq!(out, [0, 6, 255, 0x39]);
    /// ```
    #[inline]
    pub fn write(&self, out: &mut [u8], at: usize) -> Result<usize> {
        ffi::write_command(self.direction() == Direction::Up, &self.numbers(), out, at)
    }
}

/// The commands of a list, each with its offset. A fault in the list is the last item: 16 or 17, its place the offset.
#[derive(Clone, Debug)]
pub struct Commands<'a> {
    direction: Direction,
    bytes: &'a [u8],
    at: usize,
}

impl<'a> Commands<'a> {
    /// From an offset on; offsets count from the start of the bytes.
    #[inline]
    pub const fn starting_at(direction: Direction, bytes: &'a [u8], offset: usize) -> Self {
        Commands { direction, bytes, at: offset }
    }

    pub const fn direction(&self) -> Direction {
        self.direction
    }

    /// Where the next command begins; the end of the bytes after a fault.
    pub const fn offset(&self) -> usize {
        self.at
    }
}

impl Iterator for Commands<'_> {
    type Item = Result<(usize, Command)>;

    #[inline]
    fn next(&mut self) -> Option<Self::Item> {
        let offset = self.at;
        let mut numbers = [0; 6];
        match ffi::read_command(self.direction == Direction::Up, self.bytes, offset, &mut numbers) {
            Ok(0) => None,
            Ok(next) => {
                self.at = next;
                Some(
                    Command::of(self.direction, &numbers)
                        .map(|command| (offset, command))
                        .ok_or(Reason::UnknownCommand.at(offset)),
                )
            }
            Err(refusal) => {
                self.at = self.bytes.len();
                Some(Err(refusal))
            }
        }
    }
}

impl FusedIterator for Commands<'_> {}

/// Reads a list of commands that go that way.
///
/// ```
/// use zinovoky::{read_commands, Command, Direction, Reason};
/// let list = [0x03, 0x06, 0x06, 0xff, 0x39, 0x0b];
/// let mut commands = read_commands(Direction::Up, &list);
/// assert_eq!(commands.next(), Some(Ok((0, Command::LinkADRAns { power: true, data_rate: true, mask: false }))));
/// assert_eq!(commands.next(), Some(Ok((2, Command::DevStatusAns { battery: 255, margin: -7 }))));
/// assert_eq!(commands.next(), Some(Err(Reason::UnknownCommand.at(5))));
/// assert_eq!(commands.next(), None);
///
/// let mut down = read_commands(Direction::Down, &list[..4]);
/// assert_eq!(down.next().unwrap().unwrap_err().to_string(), "CommandCutShort: the list ends within the command, byte 0");
/// ```
#[inline]
pub const fn read_commands(direction: Direction, bytes: &[u8]) -> Commands<'_> {
    Commands::starting_at(direction, bytes, 0)
}

/// Which command of a list was refused first, and why.
#[derive(Clone, Copy, Debug, PartialEq, Eq, Hash)]
pub struct ListRefusal {
    /// Its place in the list, from 0 on.
    pub index: usize,
    pub command: Command,
    pub refusal: Refusal,
}

impl From<ListRefusal> for Refusal {
    fn from(refused: ListRefusal) -> Refusal {
        refused.refusal
    }
}

impl fmt::Display for ListRefusal {
    fn fmt(&self, f: &mut fmt::Formatter) -> fmt::Result {
        write!(f, "{}, {} at index {}", self.refusal, self.command.name(), self.index)
    }
}

impl Error for ListRefusal {}

/// The longest command, a NewChannelReq, has this many bytes.
pub(crate) const LONGEST_COMMAND: usize = 6;

/// Writes the commands one behind the other at the front of `out` and gives how many bytes they are. The first that is
/// refused, by 18 or 7, refuses the whole list, and then nothing is written.
///
/// ```
/// use zinovoky::{write_commands, Command, Reason};
/// let answers = [Command::DutyCycleAns, Command::NewChannelAns { range: true, frequency: false }];
/// let mut out = [0; 4];
/// assert_eq!(write_commands(&answers, &mut out), Ok(3));
/// assert_eq!(out, [4, 7, 2, 0]);
///
/// let refused = write_commands(&answers, &mut out[..2]).unwrap_err();
/// assert_eq!((refused.index, refused.refusal), (1, Reason::BufferTooShort.at(0)));
/// assert_eq!(out, [4, 7, 2, 0]);
/// ```
pub fn write_commands(commands: &[Command], out: &mut [u8]) -> std::result::Result<usize, ListRefusal> {
    let mut scratch = vec![0; out.len().min(commands.len().saturating_mul(LONGEST_COMMAND))];
    let mut at = 0;
    for (index, command) in commands.iter().enumerate() {
        at = command.write(&mut scratch, at).map_err(|refusal| ListRefusal { index, command: *command, refusal })?;
    }
    out[..at].copy_from_slice(&scratch[..at]);
    Ok(at)
}
