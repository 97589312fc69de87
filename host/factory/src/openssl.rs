//! AES-128 on one block by OpenSSL's libcrypto: the only file here with foreign calls.

use crate::Cmac;
use generic_array::{typenum::U16, GenericArray};
use lorawan::keys::{CryptoFactory, Decrypter, Encrypter, AES128};
use std::ffi::c_int;

/// `AES_KEY` of openssl/aes.h: 4 * (14 + 1) words and the number of rounds.
#[repr(C)]
#[derive(Clone)]
struct AesKey {
    rd_key: [u32; 60],
    rounds: c_int,
}

#[link(name = "crypto")]
extern "C" {
    fn AES_set_encrypt_key(user_key: *const u8, bits: c_int, key: *mut AesKey) -> c_int;
    fn AES_set_decrypt_key(user_key: *const u8, bits: c_int, key: *mut AesKey) -> c_int;
    fn AES_encrypt(input: *const u8, output: *mut u8, key: *const AesKey);
    fn AES_decrypt(input: *const u8, output: *mut u8, key: *const AesKey);
}

type SetKey = unsafe extern "C" fn(*const u8, c_int, *mut AesKey) -> c_int;

fn schedule(set: SetKey, key: &AES128) -> AesKey {
    let mut schedule = AesKey { rd_key: [0; 60], rounds: 0 };
    // SAFETY: the key has the 16 bytes that 128 bits take, and the schedule is an AES_KEY of our own.
    let status = unsafe { set(key.0.as_ptr(), 128, &mut schedule) };
    assert_eq!(status, 0, "libcrypto takes every key of 128 bits");
    schedule
}

pub struct OpenSslEncrypt(AesKey);

impl Encrypter for OpenSslEncrypt {
    fn encrypt_block(&self, block: &mut GenericArray<u8, U16>) {
        let place = block.as_mut_ptr();
        // SAFETY: one block of 16 bytes, which libcrypto allows to be read and written in place.
        unsafe { AES_encrypt(place, place, &self.0) }
    }
}

pub struct OpenSslDecrypt(AesKey);

impl Decrypter for OpenSslDecrypt {
    fn decrypt_block(&self, block: &mut GenericArray<u8, U16>) {
        let place = block.as_mut_ptr();
        // SAFETY: as for encryption.
        unsafe { AES_decrypt(place, place, &self.0) }
    }
}

/// The factory over libcrypto.
#[derive(Clone, Copy, Debug, Default, PartialEq, Eq)]
pub struct OpenSsl;

impl CryptoFactory for OpenSsl {
    type E = OpenSslEncrypt;
    type D = OpenSslDecrypt;
    type M = Cmac<OpenSslEncrypt>;

    fn new_enc(&self, key: &AES128) -> Self::E {
        OpenSslEncrypt(schedule(AES_set_encrypt_key, key))
    }

    fn new_dec(&self, key: &AES128) -> Self::D {
        OpenSslDecrypt(schedule(AES_set_decrypt_key, key))
    }

    fn new_mac(&self, key: &AES128) -> Self::M {
        Cmac::new(self.new_enc(key))
    }
}
