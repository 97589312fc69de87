//! MIC tests, decryption, session keys, amendments.

use crate::{ffi, AppKey, AppSKey, NwkSKey, Result, SessionKeys};

/// Tests the MIC of a join-request. Refusals: the reader's, and 4 for a frame of another type.
///
/// ```
/// use zinovoky::{join_request_mic, AppKey};
/// let frame = [0, 4, 3, 2, 1, 4, 3, 2, 1, 5, 4, 3, 2, 5, 4, 3, 2, 0x2d, 0x10, 0x6a, 0x99, 0x0e, 0x12];
/// assert_eq!(join_request_mic(&frame, &AppKey([1; 16])), Ok(true));
/// assert_eq!(join_request_mic(&frame, &AppKey([2; 16])), Ok(false));
/// ```
#[inline]
pub fn join_request_mic(frame: &[u8], app_key: &AppKey) -> Result<bool> {
    ffi::join_request_mic(frame, &app_key.0)
}

/// Tests the MIC of a join-accept that is clear already. Refusals: the reader's, and 4 for a frame of another type.
#[inline]
pub fn join_accept_mic(clear: &[u8], app_key: &AppKey) -> Result<bool> {
    ffi::join_accept_mic(clear, &app_key.0)
}

/// Tests the MIC of a data frame under the counter as it is given, all 32 bits. Refusals: the reader's, and 4 for a
/// frame of another type.
///
/// ```
/// use zinovoky::{data_mic, NwkSKey};
/// let frame = *b"\x40\x04\x03\x02\x01\x80\x01\x00\x01\xa6\x94\x64\x26\x15\xd6\xc3\xb5\x82";
/// assert_eq!(data_mic(&frame, &NwkSKey([2; 16]), 1), Ok(true));
/// assert_eq!(data_mic(&frame, &NwkSKey([2; 16]), 0x0001_0001), Ok(false));
/// ```
#[inline]
pub fn data_mic(frame: &[u8], nwk_skey: &NwkSKey, counter: u32) -> Result<bool> {
    ffi::data_mic(frame, &nwk_skey.0, counter)
}

/// Decrypts the payload of a data frame where it lies, without a look at the MIC. The counter's low half is the
/// frame's own. Refusals: the reader's, 4 for a frame of another type, 6.
///
/// ```
/// use zinovoky::{decrypt_data, read, AppSKey, Payload, Reading, Reason, Refusal};
/// let mut frame = *b"\x40\x04\x03\x02\x01\x80\x01\x00\x01\xa6\x94\x64\x26\x15\xd6\xc3\xb5\x82";
/// assert_eq!(decrypt_data(&mut frame, None, None, 1), Err(Reason::InvalidKey.at(0)));
/// decrypt_data(&mut frame, None, Some(&AppSKey([1; 16])), 1)?;
/// let Reading::Data(data) = read(&frame)? else { panic!("another type") };
/// assert_eq!(data.payload(), Payload::Data(b"hello"));
/// # Ok::<(), Refusal>(())
/// ```
#[inline]
pub fn decrypt_data(
    frame: &mut [u8],
    nwk_skey: Option<&NwkSKey>,
    app_skey: Option<&AppSKey>,
    counter: u32,
) -> Result<()> {
    ffi::decrypt_data(frame, nwk_skey.map(|key| &key.0), app_skey.map(|key| &key.0), counter)
}

/// Tests the MIC and then decrypts the payload of a data frame where it lies. Refusals: the reader's, 4 for a frame of
/// another type, 5, 6.
///
/// ```
/// use zinovoky::{decrypt_data_checked, AppSKey, NwkSKey, Reason, Refusal};
/// let mut frame = *b"\x40\x04\x03\x02\x01\x80\x01\x00\x01\xa6\x94\x64\x26\x15\xd6\xc3\xb5\x82";
/// let (nwk_skey, app_skey) = (NwkSKey([2; 16]), AppSKey([1; 16]));
/// assert_eq!(decrypt_data_checked(&mut frame, &nwk_skey, Some(&app_skey), 2), Err(Reason::InvalidMic.at(0)));
/// decrypt_data_checked(&mut frame, &nwk_skey, Some(&app_skey), 1)?;
/// assert_eq!(&frame[9..14], b"hello");
/// # Ok::<(), Refusal>(())
/// ```
#[inline]
pub fn decrypt_data_checked(
    frame: &mut [u8],
    nwk_skey: &NwkSKey,
    app_skey: Option<&AppSKey>,
    counter: u32,
) -> Result<()> {
    ffi::decrypt_data_checked(frame, &nwk_skey.0, app_skey.map(|key| &key.0), counter)
}

/// Decrypts a join-accept where it lies, without a look at the MIC. Refusals: the reader's, and 4 for a frame of
/// another type.
#[inline]
pub fn decrypt_join_accept(frame: &mut [u8], app_key: &AppKey) -> Result<()> {
    ffi::decrypt_join_accept(frame, &app_key.0)
}

/// Decrypts a join-accept where it lies if the MIC of its clear text is good; otherwise it stays as it is. Refusals:
/// the reader's, 4 for a frame of another type, 5. [`crate::ClearJoinAccept`] shows what it says.
#[inline]
pub fn decrypt_join_accept_checked(frame: &mut [u8], app_key: &AppKey) -> Result<()> {
    ffi::decrypt_join_accept_checked(frame, &app_key.0)
}

/// The keys of the session that a clear join-accept opens; the nonce is the join-request's, in frame order. Refusals:
/// the reader's, and 4 for a frame of another type.
///
/// ```
/// use zinovoky::{decrypt_join_accept_checked, session_keys, AppKey, Refusal};
/// let app_key = AppKey(std::array::from_fn(|i| 0x11 * i as u8));
/// let mut frame = *b"\x20\x49\x3e\xeb\x51\xfb\xa2\x11\x6f\x81\x0e\xdb\x37\x42\x97\x51\x42";
/// decrypt_join_accept_checked(&mut frame, &app_key)?;
/// let keys = session_keys(&frame, &[0xcc, 0xdd], &app_key)?;
/// assert_eq!(keys.nwk_skey.0[..4], [0x40, 0x6b, 0x13, 0x37]);
/// assert_eq!(keys.app_skey.0[..4], [0x4f, 0x5c, 0x40, 0x97]);
/// # Ok::<(), Refusal>(())
/// ```
#[inline]
pub fn session_keys(clear: &[u8], dev_nonce: &[u8; 2], app_key: &AppKey) -> Result<SessionKeys> {
    let (network, application) = ffi::session_keys(clear, dev_nonce, &app_key.0)?;
    Ok(SessionKeys { nwk_skey: NwkSKey(network), app_skey: AppSKey(application) })
}

/// A payload byte to be changed: its offset in the payload and the clear value.
#[derive(Clone, Copy, Debug, PartialEq, Eq)]
#[repr(transparent)]
pub struct Amendment(u32);

impl Amendment {
    /// The greatest offset that goes over to the codec; no payload reaches it.
    const FAR: usize = 0xff_ffff;

    pub const fn new(offset: usize, value: u8) -> Amendment {
        let offset = if offset < Self::FAR { offset } else { Self::FAR };
        Amendment((offset as u32) << 8 | value as u32)
    }
}

/// Amends payload bytes of a data frame where it lies, in the order of the list: afterwards the frame is its header and
/// the amended payload, encrypted and signed afresh. Refusals: the reader's, 4 for a frame of another type, 14, 5, and
/// 15 if an offset is outside; then none of the list is made.
///
/// ```
/// use zinovoky::{amend, decrypt_data_checked, Amendment, AppSKey, NwkSKey, Reason, Refusal};
/// let mut frame = *b"\x40\x04\x03\x02\x01\x80\x01\x00\x01\xa6\x94\x64\x26\x15\xd6\xc3\xb5\x82";
/// let (nwk_skey, app_skey) = (NwkSKey([2; 16]), AppSKey([1; 16]));
/// amend(&mut frame, &nwk_skey, &app_skey, 1, &[Amendment::new(0, b'j'), Amendment::new(4, b'y')])?;
/// let outside = amend(&mut frame, &nwk_skey, &app_skey, 1, &[Amendment::new(5, 0)]);
/// assert_eq!(outside, Err(Reason::OffsetOutside.at(0)));
/// decrypt_data_checked(&mut frame, &nwk_skey, Some(&app_skey), 1)?;
/// assert_eq!(&frame[9..14], b"jelly");
/// # Ok::<(), Refusal>(())
/// ```
#[inline]
pub fn amend(
    frame: &mut [u8],
    nwk_skey: &NwkSKey,
    app_skey: &AppSKey,
    counter: u32,
    amendments: &[Amendment],
) -> Result<()> {
    ffi::amend(frame, &nwk_skey.0, &app_skey.0, counter, amendments)
}
