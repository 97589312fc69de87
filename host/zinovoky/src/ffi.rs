//! The calls of the C interface (crates/frame_c/zinovoky.h) behind safe functions: the only file with `unsafe`.
//!
//! What makes them safe is the same everywhere: a slice goes over as its own pointer and length, a fixed array as a
//! pointer to as many bytes or numbers as the header asks for, and the borrow checker keeps what is written apart from the rest.

use crate::packed::Packed;
use crate::{Reason, Result};

mod c {
    extern "C" {
        pub fn zinovoky_read(frame: *const u8, frame_len: usize) -> u64;
        pub fn zinovoky_join_request_fields(frame: *const u8, len: usize, fields: *mut u8, fields_len: usize) -> u64;
        pub fn zinovoky_join_accept_fields(frame: *const u8, len: usize, fields: *mut u8, fields_len: usize) -> u64;
        pub fn zinovoky_nwk_id(dev_addr: *const u8) -> u8;
        pub fn zinovoky_join_request_mic(frame: *const u8, len: usize, app_key: *const u8, passes: *mut u8) -> u64;
        pub fn zinovoky_join_accept_mic(frame: *const u8, len: usize, app_key: *const u8, passes: *mut u8) -> u64;
        pub fn zinovoky_data_mic(frame: *const u8, len: usize, key: *const u8, counter: u32, passes: *mut u8) -> u64;
        pub fn zinovoky_decrypt_data(
            frame: *mut u8,
            frame_len: usize,
            keys_given: u8,
            nwk_skey: *const u8,
            app_skey: *const u8,
            counter: u32,
        ) -> u64;
        pub fn zinovoky_decrypt_data_checked(
            frame: *mut u8,
            frame_len: usize,
            keys_given: u8,
            nwk_skey: *const u8,
            app_skey: *const u8,
            counter: u32,
        ) -> u64;
        pub fn zinovoky_decrypt_join_accept(frame: *mut u8, frame_len: usize, app_key: *const u8) -> u64;
        pub fn zinovoky_decrypt_join_accept_checked(frame: *mut u8, frame_len: usize, app_key: *const u8) -> u64;
        pub fn zinovoky_session_keys(
            frame: *const u8,
            frame_len: usize,
            dev_nonce: *const u8,
            app_key: *const u8,
            keys: *mut u8,
            keys_len: usize,
        ) -> u64;
        pub fn zinovoky_build_join_request(
            app_eui: *const u8,
            dev_eui: *const u8,
            dev_nonce: *const u8,
            app_key: *const u8,
            out: *mut u8,
            out_len: usize,
        ) -> u64;
        pub fn zinovoky_build_join_accept(
            fixed: *const u8,
            with_list: u8,
            channels: *const u32,
            channels_len: usize,
            app_key: *const u8,
            out: *mut u8,
            out_len: usize,
        ) -> u64;
        pub fn zinovoky_build_data(
            kind: u8,
            dev_addr: *const u8,
            fctrl: u8,
            counter: u32,
            port: u16,
            commands: *const u8,
            commands_len: usize,
            payload: *const u8,
            payload_len: usize,
            nwk_skey: *const u8,
            app_skey: *const u8,
            out: *mut u8,
            out_len: usize,
        ) -> u64;
        pub fn zinovoky_amend(
            frame: *mut u8,
            frame_len: usize,
            nwk_skey: *const u8,
            app_skey: *const u8,
            counter: u32,
            amendments: *const u32,
            amendments_len: usize,
        ) -> u64;
        pub fn zinovoky_hold(
            frame: *const u8,
            frame_len: usize,
            nwk_skey: *const u8,
            app_skey: *const u8,
            counter: u32,
            buffer: *mut u8,
        ) -> u64;
        pub fn zinovoky_held_amend(buffer: *mut u8, offset: usize, value: u8) -> u64;
        pub fn zinovoky_held_amend_list(buffer: *mut u8, amendments: *const u32, amendments_len: usize) -> u64;
        pub fn zinovoky_held_frame(buffer: *const u8, out: *mut u8, out_len: usize) -> u64;
        pub fn zinovoky_read_command(uplink: u8, bytes: *const u8, len: usize, offset: usize, command: *mut i64)
            -> u64;
        pub fn zinovoky_write_command(uplink: u8, command: *const i64, out: *mut u8, len: usize, offset: usize) -> u64;
    }
}

type Key = [u8; 16];

/// What holds an open frame, ZINOVOKY_HELD_LEN bytes.
pub type Held = [u8; 868];

/// A MAC command, ZINOVOKY_COMMAND_LEN numbers: its identifier and its values.
pub type Numbers = [i64; 6];

/// The low byte is the refusal's number or 0; above it stands the refusal's place, or what was built, as a length, or
/// what was read.
#[inline]
fn answered(answer: u64) -> Result<u64> {
    match answer as u8 {
        0 => Ok(answer),
        number => Err(Reason::from_number(number).unwrap_or(Reason::InvalidData).at((answer >> 8) as usize)),
    }
}

/// The length of what was built or taken out, or an offset.
#[inline]
fn built(answer: u64) -> Result<usize> {
    Ok((answered(answer)? >> 8) as usize)
}

#[inline]
pub fn read(frame: &[u8]) -> Result<Packed> {
    // SAFETY: see the head of the file.
    answered(unsafe { c::zinovoky_read(frame.as_ptr(), frame.len()) }).map(Packed)
}

/// AppEUI, DevEUI, DevNonce, MIC.
#[inline]
pub fn join_request_fields(frame: &[u8]) -> Result<[u8; 22]> {
    let mut fields = [0; 22];
    let (place, room) = (fields.as_mut_ptr(), fields.len());
    // SAFETY: see the head of the file; `fields` has the room that is asked for.
    answered(unsafe { c::zinovoky_join_request_fields(frame.as_ptr(), frame.len(), place, room) })?;
    Ok(fields)
}

/// AppNonce, NetID, DevAddr, DLSettings, RxDelay, the list that there is, masks, frequencies.
#[inline]
pub fn join_accept_fields(frame: &[u8]) -> Result<[u8; 42]> {
    let mut fields = [0; 42];
    let (place, room) = (fields.as_mut_ptr(), fields.len());
    // SAFETY: see the head of the file; `fields` has the room that is asked for.
    answered(unsafe { c::zinovoky_join_accept_fields(frame.as_ptr(), frame.len(), place, room) })?;
    Ok(fields)
}

#[inline]
pub fn nwk_id(dev_addr: &[u8; 4]) -> u8 {
    // SAFETY: see the head of the file.
    unsafe { c::zinovoky_nwk_id(dev_addr.as_ptr()) }
}

#[inline]
pub fn join_request_mic(frame: &[u8], app_key: &Key) -> Result<bool> {
    let mut passes = 0;
    // SAFETY: see the head of the file.
    answered(unsafe { c::zinovoky_join_request_mic(frame.as_ptr(), frame.len(), app_key.as_ptr(), &mut passes) })?;
    Ok(passes == 1)
}

#[inline]
pub fn join_accept_mic(frame: &[u8], app_key: &Key) -> Result<bool> {
    let mut passes = 0;
    // SAFETY: see the head of the file.
    answered(unsafe { c::zinovoky_join_accept_mic(frame.as_ptr(), frame.len(), app_key.as_ptr(), &mut passes) })?;
    Ok(passes == 1)
}

#[inline]
pub fn data_mic(frame: &[u8], nwk_skey: &Key, counter: u32) -> Result<bool> {
    let mut passes = 0;
    // SAFETY: see the head of the file.
    answered(unsafe { c::zinovoky_data_mic(frame.as_ptr(), frame.len(), nwk_skey.as_ptr(), counter, &mut passes) })?;
    Ok(passes == 1)
}

/// Which keys are given, in the header's way of saying it, and bytes for those that are not.
#[inline]
fn given<'a>(nwk_skey: Option<&'a Key>, app_skey: Option<&'a Key>) -> (u8, &'a Key, &'a Key) {
    const NONE: &Key = &[0; 16];
    let given = u8::from(nwk_skey.is_some()) + 2 * u8::from(app_skey.is_some());
    (given, nwk_skey.unwrap_or(NONE), app_skey.unwrap_or(NONE))
}

#[inline]
pub fn decrypt_data(frame: &mut [u8], nwk: Option<&Key>, app: Option<&Key>, counter: u32) -> Result<()> {
    let (given, nwk, app) = given(nwk, app);
    let (place, length) = (frame.as_mut_ptr(), frame.len());
    // SAFETY: see the head of the file.
    answered(unsafe { c::zinovoky_decrypt_data(place, length, given, nwk.as_ptr(), app.as_ptr(), counter) })?;
    Ok(())
}

#[inline]
pub fn decrypt_data_checked(frame: &mut [u8], nwk: &Key, app: Option<&Key>, counter: u32) -> Result<()> {
    let (given, nwk, app) = given(Some(nwk), app);
    let (place, length) = (frame.as_mut_ptr(), frame.len());
    // SAFETY: see the head of the file.
    answered(unsafe { c::zinovoky_decrypt_data_checked(place, length, given, nwk.as_ptr(), app.as_ptr(), counter) })?;
    Ok(())
}

#[inline]
pub fn decrypt_join_accept(frame: &mut [u8], app_key: &Key) -> Result<()> {
    // SAFETY: see the head of the file.
    answered(unsafe { c::zinovoky_decrypt_join_accept(frame.as_mut_ptr(), frame.len(), app_key.as_ptr()) })?;
    Ok(())
}

#[inline]
pub fn decrypt_join_accept_checked(frame: &mut [u8], app_key: &Key) -> Result<()> {
    // SAFETY: see the head of the file.
    answered(unsafe { c::zinovoky_decrypt_join_accept_checked(frame.as_mut_ptr(), frame.len(), app_key.as_ptr()) })?;
    Ok(())
}

/// The network key, then the application key.
#[inline]
pub fn session_keys(frame: &[u8], dev_nonce: &[u8; 2], app_key: &Key) -> Result<(Key, Key)> {
    let mut keys = [[0; 16]; 2];
    let (place, room) = (keys.as_flattened_mut().as_mut_ptr(), 32);
    // SAFETY: see the head of the file; two keys are 32 bytes without a gap.
    answered(unsafe {
        c::zinovoky_session_keys(frame.as_ptr(), frame.len(), dev_nonce.as_ptr(), app_key.as_ptr(), place, room)
    })?;
    let [network, application] = keys;
    Ok((network, application))
}

#[inline]
pub fn build_join_request(call: &crate::JoinRequest, app_key: &Key, out: &mut [u8]) -> Result<usize> {
    // SAFETY: see the head of the file; the EUIs have 8 bytes, the nonce 2.
    built(unsafe {
        c::zinovoky_build_join_request(
            call.app_eui.as_ptr(),
            call.dev_eui.as_ptr(),
            call.dev_nonce.as_ptr(),
            app_key.as_ptr(),
            out.as_mut_ptr(),
            out.len(),
        )
    })
}

/// `fixed` is what stands ahead of the list: AppNonce, NetID, DevAddr, DLSettings, RxDelay.
#[inline]
pub fn build_join_accept(fixed: &[u8; 12], channels: Option<&[u32]>, app_key: &Key, out: &mut [u8]) -> Result<usize> {
    let list = channels.unwrap_or(&[]);
    // SAFETY: see the head of the file.
    built(unsafe {
        c::zinovoky_build_join_accept(
            fixed.as_ptr(),
            channels.is_some().into(),
            list.as_ptr(),
            list.len(),
            app_key.as_ptr(),
            out.as_mut_ptr(),
            out.len(),
        )
    })
}

#[inline]
pub fn build_data(call: &crate::Data, nwk_skey: &Key, app_skey: &Key, out: &mut [u8]) -> Result<usize> {
    /// Any number above 255 says that there is no port.
    const NO_PORT: u16 = 256;
    // SAFETY: see the head of the file; the address has 4 bytes.
    built(unsafe {
        c::zinovoky_build_data(
            call.kind as u8,
            call.dev_addr.as_ptr(),
            call.fctrl,
            call.counter,
            call.port.map_or(NO_PORT, u16::from),
            call.commands.as_ptr(),
            call.commands.len(),
            call.payload.as_ptr(),
            call.payload.len(),
            nwk_skey.as_ptr(),
            app_skey.as_ptr(),
            out.as_mut_ptr(),
            out.len(),
        )
    })
}

#[inline]
pub fn amend(
    frame: &mut [u8],
    nwk_skey: &Key,
    app_skey: &Key,
    counter: u32,
    amendments: &[crate::Amendment],
) -> Result<()> {
    let (place, length) = (frame.as_mut_ptr(), frame.len());
    let (list, count) = (amendments.as_ptr().cast::<u32>(), amendments.len());
    // SAFETY: see the head of the file; an Amendment is a transparent u32.
    answered(unsafe { c::zinovoky_amend(place, length, nwk_skey.as_ptr(), app_skey.as_ptr(), counter, list, count) })?;
    Ok(())
}

#[inline]
pub fn hold(frame: &[u8], nwk_skey: &Key, app_skey: &Key, counter: u32, buffer: &mut Held) -> Result<()> {
    let (place, length) = (frame.as_ptr(), frame.len());
    // SAFETY: see the head of the file.
    answered(unsafe {
        c::zinovoky_hold(place, length, nwk_skey.as_ptr(), app_skey.as_ptr(), counter, buffer.as_mut_ptr())
    })?;
    Ok(())
}

#[inline]
pub fn held_amend(buffer: &mut Held, offset: usize, value: u8) -> Result<()> {
    // SAFETY: see the head of the file.
    answered(unsafe { c::zinovoky_held_amend(buffer.as_mut_ptr(), offset, value) })?;
    Ok(())
}

#[inline]
pub fn held_amend_list(buffer: &mut Held, amendments: &[crate::Amendment]) -> Result<()> {
    let (list, count) = (amendments.as_ptr().cast::<u32>(), amendments.len());
    // SAFETY: see the head of the file; an Amendment is a transparent u32.
    answered(unsafe { c::zinovoky_held_amend_list(buffer.as_mut_ptr(), list, count) })?;
    Ok(())
}

#[inline]
pub fn held_frame(buffer: &Held, out: &mut [u8]) -> Result<usize> {
    // SAFETY: see the head of the file.
    built(unsafe { c::zinovoky_held_frame(buffer.as_ptr(), out.as_mut_ptr(), out.len()) })
}

/// The command at an offset, and the offset of the next one, which is 0 at the end.
#[inline]
pub fn read_command(uplink: bool, bytes: &[u8], offset: usize, command: &mut Numbers) -> Result<usize> {
    let (place, length) = (bytes.as_ptr(), bytes.len());
    // SAFETY: see the head of the file; six numbers are asked for.
    built(unsafe { c::zinovoky_read_command(uplink.into(), place, length, offset, command.as_mut_ptr()) })
}

/// The place past the command.
#[inline]
pub fn write_command(uplink: bool, command: &Numbers, out: &mut [u8], offset: usize) -> Result<usize> {
    let (place, length) = (out.as_mut_ptr(), out.len());
    // SAFETY: see the head of the file; six numbers are asked for.
    built(unsafe { c::zinovoky_write_command(uplink.into(), command.as_ptr(), place, length, offset) })
}

/// Zeros over every byte, by writes that the compiler may not leave out.
pub fn clear(buffer: &mut Held) {
    for byte in buffer {
        // SAFETY: the byte is borrowed for writing.
        unsafe { std::ptr::write_volatile(byte, 0) };
    }
}
