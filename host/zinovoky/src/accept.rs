//! What a clear join-accept says.

use crate::reading::bytes_at;
use crate::{ffi, Result};

/// The list that a join-accept holds.
#[derive(Clone, Copy, Debug, PartialEq, Eq)]
enum List {
    None,
    Channels([u32; 5]),
    Mask([u8; 9]),
}

/// The fields of a join-accept that is clear.
#[derive(Clone, Copy, Debug, PartialEq, Eq)]
pub struct ClearJoinAccept {
    fixed: [u8; 12],
    list: List,
    mic: [u8; 4],
}

impl ClearJoinAccept {
    /// Refusals: the reader's, and 4 for a frame of another type. That the frame is clear and its MIC good is the
    /// caller's to know: [`crate::decrypt_join_accept_checked`].
    pub fn read(clear: &[u8]) -> Result<Self> {
        let fields = ffi::join_accept_fields(clear)?;
        Ok(ClearJoinAccept {
            fixed: bytes_at(&fields, 0),
            list: match fields[12] {
                0 => List::None,
                1 => List::Channels(std::array::from_fn(|i| u32::from_le_bytes(bytes_at(&fields, 22 + 4 * i)))),
                _ => List::Mask(bytes_at(&fields, 13)),
            },
            mic: bytes_at(clear, ffi::read(clear)?.mic_at()),
        })
    }

    pub fn app_nonce(&self) -> &[u8] {
        &self.fixed[..3]
    }

    pub fn net_id(&self) -> &[u8] {
        &self.fixed[3..6]
    }

    pub fn dev_addr(&self) -> &[u8] {
        &self.fixed[6..10]
    }

    /// The network of the address: see [`crate::nwk_id`].
    pub fn nwk_id(&self) -> u8 {
        ffi::nwk_id(&bytes_at(&self.fixed, 6))
    }

    pub fn dl_settings(&self) -> u8 {
        self.fixed[10]
    }

    pub fn rx_delay(&self) -> u8 {
        self.fixed[11]
    }

    pub fn mic(&self) -> &[u8] {
        &self.mic
    }

    /// A list of kind 0: five channels in units of 100 Hz.
    pub fn channels(&self) -> Option<[u32; 5]> {
        match self.list {
            List::Channels(channels) => Some(channels),
            _ => None,
        }
    }

    /// A list of kind 1: nine mask bytes.
    pub fn channel_mask(&self) -> Option<[u8; 9]> {
        match self.list {
            List::Mask(mask) => Some(mask),
            _ => None,
        }
    }
}
