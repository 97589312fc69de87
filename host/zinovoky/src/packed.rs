//! A reading in one number, as `zinovoky_read` answers it: crates/frame_c/zinovoky.h lists its bits.

#[derive(Clone, Copy, Debug, PartialEq, Eq)]
pub struct Packed(pub u64);

impl Packed {
    #[inline]
    pub const fn kind(self) -> u8 {
        (self.0 >> 8 & 7) as u8
    }

    #[inline]
    pub const fn has_port(self) -> bool {
        self.0 >> 11 & 1 == 1
    }

    #[inline]
    pub const fn payload_kind(self) -> u8 {
        (self.0 >> 12 & 3) as u8
    }

    #[inline]
    pub const fn port(self) -> u8 {
        (self.0 >> 16) as u8
    }

    #[inline]
    pub const fn payload_at(self) -> usize {
        (self.0 >> 24) as u8 as usize
    }

    #[inline]
    pub const fn mic_at(self) -> usize {
        (self.0 >> 32) as u8 as usize
    }

    #[inline]
    pub const fn fctrl(self) -> u8 {
        (self.0 >> 40) as u8
    }

    #[inline]
    pub const fn fopts_len(self) -> usize {
        (self.0 >> 40 & 15) as usize
    }

    #[inline]
    pub const fn fcnt(self) -> u16 {
        (self.0 >> 48) as u16
    }
}
