//! The three builders: a plain struct of fields each, built into a [`Frame`] or into the caller's slice.

use crate::maccommands::LONGEST_COMMAND;
use crate::{ffi, write_commands, AppKey, AppSKey, Command, DataKind, NwkSKey, Reason, Result};
use std::fmt;
use std::ops::Deref;

/// The longest frame.
pub const MAX_FRAME: usize = 255;

/// A frame that was built: at most 255 bytes, held by value.
#[derive(Clone, Copy)]
pub struct Frame {
    bytes: [u8; MAX_FRAME],
    length: usize,
}

impl Frame {
    pub(crate) fn built(build: impl FnOnce(&mut [u8]) -> Result<usize>) -> Result<Frame> {
        let mut bytes = [0; MAX_FRAME];
        let length = build(&mut bytes)?;
        Ok(Frame { bytes, length: length.min(MAX_FRAME) })
    }

    pub fn as_bytes(&self) -> &[u8] {
        &self.bytes[..self.length]
    }

    pub fn as_mut_bytes(&mut self) -> &mut [u8] {
        &mut self.bytes[..self.length]
    }
}

impl Deref for Frame {
    type Target = [u8];

    fn deref(&self) -> &[u8] {
        self.as_bytes()
    }
}

impl AsRef<[u8]> for Frame {
    fn as_ref(&self) -> &[u8] {
        self.as_bytes()
    }
}

impl PartialEq for Frame {
    fn eq(&self, other: &Frame) -> bool {
        self.as_bytes() == other.as_bytes()
    }
}

impl Eq for Frame {}

impl fmt::Debug for Frame {
    fn fmt(&self, f: &mut fmt::Formatter) -> fmt::Result {
        f.debug_tuple("Frame").field(&self.as_bytes()).finish()
    }
}

/// The fields of a join-request, in frame order.
///
/// ```
/// use zinovoky::{AppKey, JoinRequest, Reason, Refusal};
/// let fields = JoinRequest { app_eui: [4, 3, 2, 1, 4, 3, 2, 1], dev_eui: [5, 4, 3, 2, 5, 4, 3, 2], dev_nonce: [0x2d, 0x10] };
/// let frame = fields.build(&AppKey([1; 16]))?;
/// assert_eq!(frame.len(), 23);
/// assert_eq!(frame[19..], [0x6a, 0x99, 0x0e, 0x12]);
///
/// let mut short = [0; 22];
/// assert_eq!(fields.build_into(&AppKey([1; 16]), &mut short), Err(Reason::BufferTooShort.at(0)));
/// assert_eq!(short, [0; 22]);
/// # Ok::<(), Refusal>(())
/// ```
#[derive(Clone, Copy, Debug, PartialEq, Eq)]
pub struct JoinRequest {
    pub app_eui: [u8; 8],
    pub dev_eui: [u8; 8],
    pub dev_nonce: [u8; 2],
}

impl JoinRequest {
    pub fn build(&self, app_key: &AppKey) -> Result<Frame> {
        Frame::built(|out| self.build_into(app_key, out))
    }

    /// Writes the frame at the front of `out` and gives its length. Refusal: 7.
    #[inline]
    pub fn build_into(&self, app_key: &AppKey, out: &mut [u8]) -> Result<usize> {
        ffi::build_join_request(self, &app_key.0, out)
    }
}

/// The fields of a join-accept, in frame order; channels are in units of 100 Hz.
///
/// ```
/// use zinovoky::{AppKey, ClearJoinAccept, JoinAccept, Reason, Refusal};
/// let fields = JoinAccept {
///     app_nonce: [1; 3],
///     net_id: [1; 3],
///     dev_addr: [1; 4],
///     dl_settings: 2,
///     rx_delay: 1,
///     channels: Some(&[8_678_000, 8_676_000]),
/// };
/// let app_key = AppKey([1; 16]);
/// let mut frame = fields.build(&app_key)?;
/// assert_eq!(frame.len(), 33);
/// zinovoky::decrypt_join_accept_checked(frame.as_mut_bytes(), &app_key)?;
/// let clear = ClearJoinAccept::read(&frame)?;
/// assert_eq!(clear.channels(), Some([8_678_000, 8_676_000, 0, 0, 0]));
///
/// let six = JoinAccept { channels: Some(&[0; 6]), ..fields };
/// assert_eq!(six.build(&app_key), Err(Reason::InvalidChannelList.at(0)));
/// # Ok::<(), Refusal>(())
/// ```
#[derive(Clone, Copy, Debug, PartialEq, Eq)]
pub struct JoinAccept<'a> {
    pub app_nonce: [u8; 3],
    pub net_id: [u8; 3],
    pub dev_addr: [u8; 4],
    pub dl_settings: u8,
    /// Written whole; a reader takes it modulo 16.
    pub rx_delay: u8,
    /// At most five. An empty list is a list too.
    pub channels: Option<&'a [u32]>,
}

impl JoinAccept<'_> {
    pub fn build(&self, app_key: &AppKey) -> Result<Frame> {
        Frame::built(|out| self.build_into(app_key, out))
    }

    /// Writes the frame, enciphered, at the front of `out` and gives its length. Refusals: 8, 7.
    #[inline]
    pub fn build_into(&self, app_key: &AppKey, out: &mut [u8]) -> Result<usize> {
        let ([a, b, c], [d, e, f], [g, h, i, j]) = (self.app_nonce, self.net_id, self.dev_addr);
        let fixed = [a, b, c, d, e, f, g, h, i, j, self.dl_settings, self.rx_delay];
        ffi::build_join_accept(&fixed, self.channels, &app_key.0, out)
    }
}

/// The fields of a data frame.
///
/// ```
/// use zinovoky::{AppSKey, Data, DataKind, NwkSKey, Reason, Refusal};
/// let (nwk_skey, app_skey) = (NwkSKey([2; 16]), AppSKey([1; 16]));
/// let fields = Data {
///     kind: DataKind::UnconfirmedUp,
///     dev_addr: [4, 3, 2, 1],
///     fctrl: 0x80,
///     counter: 1,
///     port: Some(1),
///     commands: &[],
///     payload: b"hello",
/// };
/// let frame = fields.build(&nwk_skey, &app_skey)?;
/// assert_eq!(frame.as_bytes(), b"\x40\x04\x03\x02\x01\x80\x01\x00\x01\xa6\x94\x64\x26\x15\xd6\xc3\xb5\x82");
///
/// let long = Data { payload: &[0; 243], ..fields };
/// assert_eq!(long.build(&nwk_skey, &app_skey), Err(Reason::FrameTooLong.at(0)));
/// # Ok::<(), Refusal>(())
/// ```
#[derive(Clone, Copy, Debug, PartialEq, Eq)]
pub struct Data<'a> {
    pub kind: DataKind,
    /// In frame order: low byte first.
    pub dev_addr: [u8; 4],
    /// The flags in the high nibble; the low one must be 0, FOptsLen is set by the builder.
    pub fctrl: u8,
    /// All 32 bits; the frame carries the low half.
    pub counter: u32,
    pub port: Option<u8>,
    /// MAC commands as raw bytes: the payload on port 0, otherwise FOpts and at most 15 bytes.
    pub commands: &'a [u8],
    pub payload: &'a [u8],
}

impl Data<'_> {
    pub fn build(&self, nwk_skey: &NwkSKey, app_skey: &AppSKey) -> Result<Frame> {
        Frame::built(|out| self.build_into(nwk_skey, app_skey, out))
    }

    /// Builds with these MAC commands instead of `self.commands`. Refusals: 16 for a command that goes the other way, 18 for
    /// one that cannot be written, then those of `build_into`.
    ///
    /// ```
    /// use zinovoky::{AppSKey, Command, Data, DataKind, NwkSKey, Reason, Refusal};
    /// let (nwk_skey, app_skey) = (NwkSKey([2; 16]), AppSKey([1; 16]));
    /// let fields = Data {
    ///     kind: DataKind::UnconfirmedUp,
    ///     dev_addr: [4, 3, 2, 1],
    ///     fctrl: 0,
    ///     counter: 1,
    ///     port: None,
    ///     commands: &[],
    ///     payload: &[],
    /// };
    /// let answers = [Command::LinkCheckReq, Command::DlChannelAns { uplink: true, frequency: false }];
    /// let frame = fields.build_with(&answers, &nwk_skey, &app_skey)?;
    /// assert_eq!(frame[8..11], [2, 10, 2]);
    /// let other_way = fields.build_with(&[Command::DevStatusReq], &nwk_skey, &app_skey);
    /// assert_eq!(other_way, Err(Reason::UnknownCommand.at(0)));
    /// # Ok::<(), Refusal>(())
    /// ```
    pub fn build_with(&self, commands: &[Command], nwk_skey: &NwkSKey, app_skey: &AppSKey) -> Result<Frame> {
        if commands.iter().any(|command| command.direction() != self.kind.direction()) {
            return Err(Reason::UnknownCommand.at(0));
        }
        let mut bytes = vec![0; LONGEST_COMMAND * commands.len()];
        let length = write_commands(commands, &mut bytes)?;
        Data { commands: &bytes[..length], ..*self }.build(nwk_skey, app_skey)
    }

    /// Writes the frame at the front of `out`, which must have room for 255 bytes, and gives its length. Refusals:
    /// 7, 13, 9, 10, 11, 12.
    #[inline]
    pub fn build_into(&self, nwk_skey: &NwkSKey, app_skey: &AppSKey, out: &mut [u8]) -> Result<usize> {
        ffi::build_data(self, &nwk_skey.0, &app_skey.0, out)
    }
}
