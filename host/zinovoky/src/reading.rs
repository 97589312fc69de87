//! Reading a frame, and what is found in it.

use crate::packed::Packed;
use crate::{ffi, Commands, Direction, Reason, Result};

/// The four types of a data frame.
#[derive(Clone, Copy, Debug, PartialEq, Eq, Hash)]
#[repr(u8)]
pub enum DataKind {
    UnconfirmedUp = 2,
    UnconfirmedDown = 3,
    ConfirmedUp = 4,
    ConfirmedDown = 5,
}

impl DataKind {
    pub const fn is_uplink(self) -> bool {
        matches!(self, DataKind::UnconfirmedUp | DataKind::ConfirmedUp)
    }

    pub const fn is_confirmed(self) -> bool {
        matches!(self, DataKind::ConfirmedUp | DataKind::ConfirmedDown)
    }

    pub const fn direction(self) -> Direction {
        match self.is_uplink() {
            true => Direction::Up,
            false => Direction::Down,
        }
    }

    const fn of(number: u8) -> Option<DataKind> {
        match number {
            2 => Some(DataKind::UnconfirmedUp),
            3 => Some(DataKind::UnconfirmedDown),
            4 => Some(DataKind::ConfirmedUp),
            5 => Some(DataKind::ConfirmedDown),
            _ => None,
        }
    }
}

/// A frame that was read.
#[derive(Clone, Copy, Debug, PartialEq, Eq)]
pub enum Reading<'a> {
    JoinRequest(JoinRequestFields),
    /// 17 or 33 bytes, of which all but the first are enciphered. See [`crate::decrypt_join_accept_checked`].
    JoinAccept {
        length: usize,
    },
    Data(DataFields<'a>),
}

/// The fields of a join-request, in frame order.
#[derive(Clone, Copy, Debug, PartialEq, Eq)]
pub struct JoinRequestFields {
    pub app_eui: [u8; 8],
    pub dev_eui: [u8; 8],
    pub dev_nonce: [u8; 2],
    pub mic: [u8; 4],
}

impl JoinRequestFields {
    /// Refusals: the reader's, and 4 for a frame of another type.
    pub fn read(frame: &[u8]) -> Result<Self> {
        let fields = ffi::join_request_fields(frame)?;
        Ok(JoinRequestFields {
            app_eui: bytes_at(&fields, 0),
            dev_eui: bytes_at(&fields, 8),
            dev_nonce: bytes_at(&fields, 16),
            mic: bytes_at(&fields, 18),
        })
    }
}

/// The payload of a data frame, enciphered if the frame is. The bytes behind a port may be none.
#[derive(Clone, Copy, Debug, PartialEq, Eq)]
pub enum Payload<'a> {
    /// There is no port.
    None,
    /// What stands behind a port other than 0.
    Data(&'a [u8]),
    /// What stands behind port 0.
    Commands(&'a [u8]),
}

/// A data frame: each field is taken when it is asked for.
#[derive(Clone, Copy, Debug, PartialEq, Eq)]
pub struct DataFields<'a> {
    /// Byte 0, address, FCtrl and FCnt.
    fixed: &'a [u8; 8],
    /// All but the MIC.
    body: &'a [u8],
    mic: &'a [u8],
    kind: DataKind,
    packed: Packed,
}

impl<'a> DataFields<'a> {
    /// None where the frame has fewer bytes than the reader accepts.
    #[inline]
    fn new(frame: &'a [u8], kind: DataKind, packed: Packed) -> Option<Self> {
        let (body, mic) = frame.split_last_chunk::<4>()?;
        Some(DataFields { fixed: body.first_chunk()?, body, mic, kind, packed })
    }

    #[inline]
    pub const fn kind(&self) -> DataKind {
        self.kind
    }

    /// In frame order: low byte first.
    #[inline]
    pub fn dev_addr(&self) -> &'a [u8] {
        &self.fixed[1..5]
    }

    /// The network of the address: see [`nwk_id`].
    #[inline]
    pub fn nwk_id(&self) -> u8 {
        nwk_id(&bytes_at(self.fixed, 1))
    }

    #[inline]
    pub const fn fctrl(&self) -> u8 {
        self.packed.fctrl()
    }

    /// The low half of the counter.
    #[inline]
    pub const fn fcnt(&self) -> u16 {
        self.packed.fcnt()
    }

    #[inline]
    pub fn fopts(&self) -> &'a [u8] {
        let rest = &self.body[self.fixed.len()..];
        &rest[..self.packed.fopts_len().min(rest.len())]
    }

    /// The port, also where nothing follows it, as in a heartbeat:
    ///
    /// ```
    /// use zinovoky::{decrypt_data_checked, read, AppSKey, Data, DataKind, NwkSKey, Payload, Reading, Refusal};
    /// let (nwk_skey, app_skey) = (NwkSKey([2; 16]), AppSKey([1; 16]));
    /// let heartbeat = Data {
    ///     kind: DataKind::UnconfirmedUp,
    ///     dev_addr: [4, 3, 2, 1],
    ///     fctrl: 0,
    ///     counter: 5,
    ///     port: Some(5),
    ///     commands: &[],
    ///     payload: &[],
    /// };
    /// let mut frame = heartbeat.build(&nwk_skey, &app_skey)?;
    /// assert_eq!(frame[..], [0x40, 4, 3, 2, 1, 0, 5, 0, 5, 0x14, 0x33, 0x4d, 0x85]);
    /// decrypt_data_checked(frame.as_mut_bytes(), &nwk_skey, None, 5)?; // no key but the network's is needed
    /// let Reading::Data(data) = read(&frame)? else { panic!("another type") };
    /// assert_eq!((data.port(), data.payload()), (Some(5), Payload::Data(&[])));
    /// # Ok::<(), Refusal>(())
    /// ```
    #[inline]
    pub fn port(&self) -> Option<u8> {
        self.packed.has_port().then_some(self.packed.port())
    }

    /// The payload, enciphered if the frame is.
    #[inline]
    pub fn payload(&self) -> Payload<'a> {
        let bytes = &self.body[self.packed.payload_at().min(self.body.len())..];
        match self.packed.payload_kind() {
            0 => Payload::None,
            1 => Payload::Data(bytes),
            _ => Payload::Commands(bytes),
        }
    }

    /// The commands in FOpts; offsets count from the start of the frame.
    ///
    /// ```
    /// use zinovoky::{read, Command, Reading, Refusal};
    /// let frame = [0x40, 4, 3, 2, 1, 5, 7, 0, 3, 3, 6, 255, 0x39, 0x11, 0x22, 0x33, 0x44];
    /// let Reading::Data(data) = read(&frame)? else { panic!("another type") };
    /// let commands = data.fopts_commands().collect::<Result<Vec<_>, _>>()?;
    /// let accepted = Command::LinkADRAns { power: false, data_rate: true, mask: true };
    /// assert_eq!(commands, [(8, accepted), (10, Command::DevStatusAns { battery: 255, margin: -7 })]);
    /// # Ok::<(), Refusal>(())
    /// ```
    #[inline]
    pub fn fopts_commands(&self) -> Commands<'a> {
        let start = self.fixed.len();
        let end = (start + self.packed.fopts_len()).min(self.body.len());
        Commands::starting_at(self.kind.direction(), &self.body[..end], start)
    }

    /// The commands of a payload on port 0, which must be decrypted already; of another payload, and of none, the empty
    /// list. Offsets count from the start of the frame.
    ///
    /// ```
    /// use zinovoky::{decrypt_data_checked, read, AppSKey, Command, Data, DataKind, NwkSKey, Reading, Refusal};
    /// let (nwk_skey, app_skey) = (NwkSKey([2; 16]), AppSKey([1; 16]));
    /// let fields = Data {
    ///     kind: DataKind::UnconfirmedDown,
    ///     dev_addr: [4, 3, 2, 1],
    ///     fctrl: 0,
    ///     counter: 1,
    ///     port: Some(0),
    ///     commands: &[],
    ///     payload: &[],
    /// };
    /// let requests = [Command::DevStatusReq, Command::RXTimingSetupReq { delay: 3 }];
    /// let mut frame = fields.build_with(&requests, &nwk_skey, &app_skey)?;
    /// decrypt_data_checked(frame.as_mut_bytes(), &nwk_skey, None, 1)?;
    /// let Reading::Data(data) = read(&frame)? else { panic!("another type") };
    /// let commands = data.payload_commands().collect::<Result<Vec<_>, _>>()?;
    /// assert_eq!(commands, [(9, requests[0]), (10, requests[1])]);
    /// # Ok::<(), Refusal>(())
    /// ```
    #[inline]
    pub fn payload_commands(&self) -> Commands<'a> {
        let start = match self.payload() {
            Payload::Commands(_) => self.packed.payload_at(),
            _ => self.body.len(),
        };
        Commands::starting_at(self.kind.direction(), self.body, start)
    }

    #[inline]
    pub const fn mic(&self) -> &'a [u8] {
        self.mic
    }

    #[inline]
    pub const fn adr(&self) -> bool {
        self.fctrl() & 0x80 != 0
    }

    /// Reported only on uplinks.
    #[inline]
    pub const fn adr_ack_req(&self) -> bool {
        self.kind.is_uplink() && self.fctrl() & 0x40 != 0
    }

    #[inline]
    pub const fn ack(&self) -> bool {
        self.fctrl() & 0x20 != 0
    }

    /// Reported only on downlinks.
    #[inline]
    pub const fn f_pending(&self) -> bool {
        !self.kind.is_uplink() && self.fctrl() & 0x10 != 0
    }
}

/// So many of the bytes that an answer has, from a place on.
pub(crate) fn bytes_at<const N: usize>(answer: &[u8], from: usize) -> [u8; N] {
    std::array::from_fn(|i| answer.get(from + i).copied().unwrap_or(0))
}

/// NwkID of an address in frame order: its seven highest bits, which are those of its last byte (LoRaWAN 1.0, 6.1.1).
///
/// ```
/// use zinovoky::{nwk_id, read, Reading, Refusal};
/// assert_eq!(nwk_id(&[1, 2, 3, 4]), 2);
/// assert_eq!(nwk_id(&[0, 0, 0, 0xff]), 127);
///
/// let frame = [0x40, 4, 3, 2, 0xfe, 0, 5, 0, 0x11, 0x22, 0x33, 0x44];
/// let Reading::Data(data) = read(&frame)? else { panic!("another type") };
/// assert_eq!(data.nwk_id(), nwk_id(&[4, 3, 2, 0xfe]));
/// # Ok::<(), Refusal>(())
/// ```
#[inline]
pub fn nwk_id(dev_addr: &[u8; 4]) -> u8 {
    ffi::nwk_id(dev_addr)
}

/// Reads a frame of at most 255 bytes.
///
/// Refusals, in this order: 12, 1, 2, 3, 4. Each says where the frame is bad.
///
/// ```
/// use zinovoky::{read, DataKind, Payload, Reading, Reason, Refusal};
/// let frame = [0x40, 4, 3, 2, 1, 0x80, 5, 0, 0, 0xaa, 0x11, 0x22, 0x33, 0x44];
/// let Reading::Data(data) = read(&frame)? else { panic!("another type") };
/// assert_eq!(data.kind(), DataKind::UnconfirmedUp);
/// assert_eq!(data.dev_addr(), [4, 3, 2, 1]);
/// assert!(data.adr());
/// assert_eq!((data.fcnt(), data.port()), (5, Some(0)));
/// assert_eq!(data.payload(), Payload::Commands(&[0xaa]));
/// assert_eq!(data.mic(), [0x11, 0x22, 0x33, 0x44]);
///
/// assert_eq!(read(&[]), Err(Reason::InvalidPayload.at(0)));
/// assert_eq!(read(&[0x40; 256]), Err(Reason::FrameTooLong.at(256)));
/// # Ok::<(), Refusal>(())
/// ```
#[inline]
pub fn read(frame: &[u8]) -> Result<Reading<'_>> {
    let packed = ffi::read(frame)?;
    let Some(kind) = DataKind::of(packed.kind()) else {
        return match packed.kind() {
            0 => JoinRequestFields::read(frame).map(Reading::JoinRequest),
            _ => Ok(Reading::JoinAccept { length: frame.len() }),
        };
    };
    DataFields::new(frame, kind, packed).map(Reading::Data).ok_or(Reason::InvalidData.at(0))
}
