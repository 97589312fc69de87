//! Refusals: the names and numbers of docs/RULES.md, and where a frame is bad.

use std::error::Error;
use std::fmt;

macro_rules! reasons {
    ($($(#[$doc:meta])* $name:ident = $number:literal,)*) => {
        /// Why a call was refused.
        #[derive(Clone, Copy, Debug, PartialEq, Eq, Hash)]
        #[repr(u8)]
        pub enum Reason {
            $($(#[$doc])* $name = $number,)*
        }

        impl Reason {
            /// Every reason, in the order of the numbers.
            pub const ALL: [Reason; 18] = [$(Reason::$name),*];

            /// The name in docs/RULES.md, which is that of the variant.
            pub const fn name(self) -> &'static str {
                match self {
                    $(Reason::$name => stringify!($name),)*
                }
            }
        }
    };
}

reasons! {
    /// Fewer than 12 bytes.
    InvalidPayload = 1,
    /// The low two bits of byte 0 are not 00.
    UnsupportedMajorVersion = 2,
    /// Type 6 or 7.
    InvalidMessageType = 3,
    /// A length that is wrong for the type, or a frame of another type than the call needs.
    InvalidData = 4,
    /// A checked opening found another MIC.
    InvalidMic = 5,
    /// The key of the payload was not given: the network key if it is empty or on port 0, else the application key.
    InvalidKey = 6,
    /// No room for the answer: 255 bytes for data, 23 for a join-request, 17 or 33 for a join-accept, 1 to 6 for a command.
    BufferTooShort = 7,
    /// Over five channels, or one above 16,777,215.
    InvalidChannelList = 8,
    /// Commands over 15 bytes, and the port absent or not 0.
    MacCommandTooBigForFOpts = 9,
    /// Port 0 and a payload that is not empty.
    DataAndMacCommandsInPayloadNotAllowed = 10,
    /// No port and a payload that is not empty.
    FRMPayloadWithFportZero = 11,
    /// A frame read or to be built exceeds 255 bytes.
    FrameTooLong = 12,
    /// FCtrl was given with a low nibble that is not 0.
    FOptsLenSet = 13,
    /// The low half of the counter differs from the frame's FCnt.
    CounterMismatch = 14,
    /// An amendment's offset is at or past the payload's length.
    OffsetOutside = 15,
    /// No command that goes this way has the identifier.
    UnknownCommand = 16,
    /// The list of commands ends within one.
    CommandCutShort = 17,
    /// A command's field cannot hold the value.
    ValueOutOfRange = 18,
}

impl Reason {
    /// The number, 1 to 18.
    ///
    /// ```
    /// use zinovoky::Reason;
    /// assert_eq!(Reason::FrameTooLong.number(), 12);
    /// for (index, reason) in Reason::ALL.into_iter().enumerate() {
    ///     assert_eq!(usize::from(reason.number()), index + 1);
    /// }
    /// ```
    pub const fn number(self) -> u8 {
        self as u8
    }

    /// The reason with this number, if there is one.
    ///
    /// ```
    /// use zinovoky::Reason;
    /// assert_eq!(Reason::from_number(5), Some(Reason::InvalidMic));
    /// assert_eq!(Reason::from_number(0), None);
    /// assert_eq!(Reason::from_number(19), None);
    /// ```
    #[inline]
    pub fn from_number(number: u8) -> Option<Reason> {
        Self::ALL.get(usize::from(number).checked_sub(1)?).copied()
    }

    /// The refusal for this reason at that place.
    #[inline]
    pub const fn at(self, place: usize) -> Refusal {
        Refusal { reason: self, place }
    }
}

/// What a refused call answers: why, and where the frame is bad. It changed no byte that was lent.
///
/// Reading names the place, and every call that reads a frame first hands it on:
///
/// | Reason | Place |
/// |---|---|
/// | `FrameTooLong`, `InvalidPayload` | the frame's length |
/// | `UnsupportedMajorVersion`, `InvalidMessageType` | 0, the byte at fault |
/// | `InvalidData` of a join message of another length | the frame's length |
/// | `InvalidData` of a data frame whose header does not fit | 5, the byte at fault |
/// | `InvalidData` of a frame of another type than the call needs | 0, for none |
/// | `UnknownCommand`, `CommandCutShort` of a list that is read | where the command begins |
/// | `FrameTooLong` of a frame to build, and all others | 0, for none |
///
/// Its text says what the place is:
///
/// ```
/// use zinovoky::{read, Reason};
/// let refusal = read(&[0x40; 11]).unwrap_err();
/// assert_eq!(refusal.reason, Reason::InvalidPayload);
/// assert_eq!((refusal.number(), refusal.name(), refusal.place), (1, "InvalidPayload", 11));
/// assert_eq!(refusal.to_string(), "InvalidPayload: 11 bytes");
///
/// let refusal = read(&[0x40, 0, 0, 0, 0, 1, 0, 0, 0, 0, 0, 0]).unwrap_err();
/// assert_eq!(refusal.to_string(), "InvalidData: the header does not fit, byte 5");
/// ```
#[derive(Clone, Copy, Debug, PartialEq, Eq, Hash)]
pub struct Refusal {
    pub reason: Reason,
    pub place: usize,
}

impl Refusal {
    /// The number, 1 to 18.
    pub const fn number(self) -> u8 {
        self.reason.number()
    }

    /// The name in docs/RULES.md.
    pub const fn name(self) -> &'static str {
        self.reason.name()
    }
}

impl fmt::Display for Refusal {
    fn fmt(&self, f: &mut fmt::Formatter) -> fmt::Result {
        use Reason::*;
        write!(f, "{}: ", self.name())?;
        match (self.reason, self.place) {
            (InvalidPayload, length) => write!(f, "{length} bytes"),
            (UnsupportedMajorVersion, byte) => write!(f, "the low two bits are not 00, byte {byte}"),
            (InvalidMessageType, byte) => write!(f, "type 6 or 7, byte {byte}"),
            (InvalidData, 0) => f.write_str("a frame of another type than the call needs"),
            (InvalidData, 5) => f.write_str("the header does not fit, byte 5"),
            (InvalidData, length) => write!(f, "a join message of {length} bytes"),
            (FrameTooLong, 0) => f.write_str("a frame to build of more than 255 bytes"),
            (FrameTooLong, length) => write!(f, "{length} bytes"),
            (InvalidMic, _) => f.write_str("the MIC differs"),
            (InvalidKey, _) => {
                f.write_str("the key of the payload was not given: the network key if it is empty or on port 0")
            }
            (BufferTooShort, _) => f.write_str("no room for the answer"),
            (InvalidChannelList, _) => f.write_str("over five channels, or one above 16,777,215"),
            (MacCommandTooBigForFOpts, _) => f.write_str("commands over 15 bytes that are not for port 0"),
            (DataAndMacCommandsInPayloadNotAllowed, _) => f.write_str("port 0 and a payload"),
            (FRMPayloadWithFportZero, _) => f.write_str("a payload without a port"),
            (FOptsLenSet, _) => f.write_str("an FCtrl with a low nibble that is not 0"),
            (CounterMismatch, _) => f.write_str("a counter that is not the frame's"),
            (OffsetOutside, _) => f.write_str("an offset at or past the payload's length"),
            (UnknownCommand, byte) => write!(f, "no command that goes this way has the identifier, byte {byte}"),
            (CommandCutShort, byte) => write!(f, "the list ends within the command, byte {byte}"),
            (ValueOutOfRange, _) => f.write_str("a value that the command's field cannot hold"),
        }
    }
}

impl Error for Refusal {}
