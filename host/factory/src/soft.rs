//! AES-128 in software, by Debian's aes-soft: what a device without AES instructions would run.

use crate::Cmac;
use aes_soft::cipher::{BlockCipher, NewBlockCipher};
use aes_soft::Aes128;
use generic_array::{typenum::U16, GenericArray};
use lorawan::keys::{CryptoFactory, Decrypter, Encrypter, AES128};

pub struct SoftAes(Aes128);

impl Encrypter for SoftAes {
    fn encrypt_block(&self, block: &mut GenericArray<u8, U16>) {
        self.0.encrypt_block(block);
    }
}

impl Decrypter for SoftAes {
    fn decrypt_block(&self, block: &mut GenericArray<u8, U16>) {
        self.0.decrypt_block(block);
    }
}

/// The factory over aes-soft.
#[derive(Clone, Copy, Debug, Default, PartialEq, Eq)]
pub struct Soft;

impl Soft {
    fn aes(key: &AES128) -> SoftAes {
        SoftAes(Aes128::new(GenericArray::from_slice(&key.0)))
    }
}

impl CryptoFactory for Soft {
    type E = SoftAes;
    type D = SoftAes;
    type M = Cmac<SoftAes>;

    fn new_enc(&self, key: &AES128) -> Self::E {
        Self::aes(key)
    }

    fn new_dec(&self, key: &AES128) -> Self::D {
        Self::aes(key)
    }

    fn new_mac(&self, key: &AES128) -> Self::M {
        Cmac::new(Self::aes(key))
    }
}
