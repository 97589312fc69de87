//! A frame that is opened once and altered many times.

use crate::{ffi, Amendment, AppSKey, Frame, NwkSKey, Result};
use std::fmt;

/// A data frame held open for amendments, with its keys: after each it stands encrypted and signed as if it had been built
/// so. The bytes stay in one place, so that a move leaves no copy of the keys, and are cleared when it is dropped.
///
/// ```
/// use zinovoky::{decrypt_data_checked, Amendment, AppSKey, NwkSKey, OpenFrame, Reason, Refusal};
/// let bytes = *b"\x40\x04\x03\x02\x01\x80\x01\x00\x01\xa6\x94\x64\x26\x15\xd6\xc3\xb5\x82";
/// let (nwk_skey, app_skey) = (NwkSKey([2; 16]), AppSKey([1; 16]));
/// let mut open = OpenFrame::open(&bytes, &nwk_skey, &app_skey, 1)?;
/// open.amend(0, b'j')?;
/// open.amend_list(&[Amendment::new(3, b'l'), Amendment::new(4, b'y')])?;
/// assert_eq!(open.amend(5, 0), Err(Reason::OffsetOutside.at(0)));
///
/// let mut frame = open.frame()?;
/// decrypt_data_checked(frame.as_mut_bytes(), &nwk_skey, Some(&app_skey), 1)?;
/// assert_eq!(&frame[9..14], b"jelly");
/// # Ok::<(), Refusal>(())
/// ```
pub struct OpenFrame {
    held: Box<ffi::Held>,
}

impl OpenFrame {
    /// Opens a data frame. Refusals: the reader's, 4 for a frame of another type, 14, 5.
    pub fn open(frame: &[u8], nwk_skey: &NwkSKey, app_skey: &AppSKey, counter: u32) -> Result<OpenFrame> {
        let mut open = OpenFrame { held: Box::new([0; 868]) };
        ffi::hold(frame, &nwk_skey.0, &app_skey.0, counter, &mut open.held)?;
        Ok(open)
    }

    /// Sets the payload byte at the offset to the clear value. Refusal: 15, and then nothing changes.
    #[inline]
    pub fn amend(&mut self, offset: usize, value: u8) -> Result<()> {
        ffi::held_amend(&mut self.held, offset, value)
    }

    /// Makes every amendment of a list, in order, and signs once. Refusal: 15 if an offset is outside; then none is made.
    #[inline]
    pub fn amend_list(&mut self, amendments: &[Amendment]) -> Result<()> {
        ffi::held_amend_list(&mut self.held, amendments)
    }

    /// The frame as it stands.
    #[inline]
    pub fn frame(&self) -> Result<Frame> {
        Frame::built(|out| self.frame_into(out))
    }

    /// The same at the start of the caller's slice; answers its length. Refusal: 7, and then nothing is written.
    #[inline]
    pub fn frame_into(&self, out: &mut [u8]) -> Result<usize> {
        ffi::held_frame(&self.held, out)
    }
}

impl Drop for OpenFrame {
    fn drop(&mut self) {
        ffi::clear(&mut self.held);
    }
}

/// It holds keys, and shows none of its bytes.
impl fmt::Debug for OpenFrame {
    fn fmt(&self, f: &mut fmt::Formatter) -> fmt::Result {
        f.write_str("OpenFrame(..)")
    }
}
