//! Random frames of every type, signed as LoRaWAN 1.0 wants, and damaged copies of them.

use crate::random::Random;
use factory::OpenSsl;
use generic_array::GenericArray;
use lorawan::keys::{CryptoFactory, Decrypter, Mac, AES128};

/// The last four bytes become the MIC of a helper block and the rest.
fn sign(frame: &mut [u8], helper: &[u8], key: &AES128) {
    let message = frame.len() - 4;
    let mut mac = OpenSsl.new_mac(key);
    mac.input(helper);
    mac.input(&frame[..message]);
    frame[message..].copy_from_slice(&mac.result()[..4]);
}

fn helper(frame: &[u8], counter: u32) -> Vec<u8> {
    let direction = frame[0] >> 5 & 1;
    let message = (frame.len() - 4) as u8;
    [&[0x49, 0, 0, 0, 0, direction], &frame[1..5], &counter.to_le_bytes(), &[0, message]].concat()
}

/// A type in the top bits of byte 0; the ignored bits 2 to 4 are set now and then.
fn type_byte(random: &mut Random, mtype: u8) -> u8 {
    let ignored = if random.one_in(4) { random.byte() & 0x1c } else { 0 };
    mtype << 5 | ignored
}

/// A data frame of at least 12 bytes under that counter, with a good MIC.
pub fn data(random: &mut Random, length: usize, network: &AES128, counter: u32) -> Vec<u8> {
    let mut frame = random.bytes(length);
    let mtype = 2 + random.below(4) as u8;
    frame[0] = type_byte(random, mtype);
    let fopts = random.below((length - 12).min(15) + 1);
    frame[5] = frame[5] & 0xf0 | fopts as u8;
    frame[6..8].copy_from_slice(&counter.to_le_bytes()[..2]);
    if random.one_in(3) {
        frame[8 + fopts] = 0; // the port, if there is one
    }
    let helper = helper(&frame, counter);
    sign(&mut frame, &helper, network);
    frame
}

pub fn join_request(random: &mut Random, app_key: &AES128) -> Vec<u8> {
    let mut frame = random.bytes(23);
    frame[0] = type_byte(random, 0);
    sign(&mut frame, &[], app_key);
    frame
}

pub fn clear_join_accept(random: &mut Random, app_key: &AES128) -> Vec<u8> {
    let length = random.pick(&[17, 33]);
    let mut frame = random.bytes(length);
    frame[0] = type_byte(random, 1);
    if length == 33 && !random.one_in(4) {
        frame[28] = random.below(3) as u8;
    }
    sign(&mut frame, &[], app_key);
    frame
}

pub fn join_accept(random: &mut Random, app_key: &AES128) -> Vec<u8> {
    let mut frame = clear_join_accept(random, app_key);
    let cipher = OpenSsl.new_dec(app_key);
    for block in frame[1..].chunks_exact_mut(16) {
        cipher.decrypt_block(GenericArray::from_mut_slice(block));
    }
    frame
}

/// Lengths of every size, the limits and their neighbours more often.
pub fn length(random: &mut Random) -> usize {
    const LIMITS: [usize; 6] = [12, 17, 23, 33, 27, 255];
    match random.below(4) {
        0 => random.below(48),
        1 => random.pick(&LIMITS) + random.below(3) - 1,
        2 => 240 + random.below(20),
        _ => random.below(300),
    }
}

/// Any bytes: a frame of no particular kind.
pub fn any(random: &mut Random) -> Vec<u8> {
    let length = length(random);
    let mut frame = random.bytes(length);
    if let Some(first) = frame.first_mut() {
        let mtype = random.below(8) as u8;
        *first = if random.one_in(4) { random.byte() } else { type_byte(random, mtype) };
    }
    frame
}

/// Half of the time as it is; otherwise with a bit turned, a byte set, or cut or made longer.
pub fn damaged(random: &mut Random, mut frame: Vec<u8>) -> Vec<u8> {
    let place = random.below(frame.len());
    match random.below(12) {
        0 | 1 => frame[place] ^= 1 << random.below(8),
        2 => frame[0] = random.byte(),
        3 => frame[5] = random.byte(),
        4 => frame.truncate(place),
        5 => frame.push(random.byte()),
        _ => {}
    }
    frame
}
