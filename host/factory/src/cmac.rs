//! AES-CMAC by RFC 4493 over any cipher of the crate's traits.

use generic_array::{typenum::U16, GenericArray};
use lorawan::keys::{Encrypter, Mac};

type Block = [u8; 16];

/// A running MAC. The newest block is held back, since the last one is treated apart.
pub struct Cmac<E> {
    cipher: E,
    chain: Block,
    held: Block,
    held_len: usize,
}

impl<E: Encrypter> Cmac<E> {
    pub fn new(cipher: E) -> Self {
        Cmac { cipher, chain: [0; 16], held: [0; 16], held_len: 0 }
    }

    fn encrypt(&self, block: Block) -> Block {
        let mut block = GenericArray::<u8, U16>::from(block);
        self.cipher.encrypt_block(&mut block);
        block.into()
    }

    /// Section 2.3: a subkey from the one ahead of it, doubling in the field.
    fn doubled(block: Block) -> Block {
        let shifted = u128::from_be_bytes(block) << 1;
        let reduced = if block[0] & 0x80 == 0 { shifted } else { shifted ^ 0x87 };
        reduced.to_be_bytes()
    }
}

fn xor(a: Block, b: Block) -> Block {
    (u128::from_be_bytes(a) ^ u128::from_be_bytes(b)).to_be_bytes()
}

impl<E: Encrypter> Mac for Cmac<E> {
    fn input(&mut self, data: &[u8]) {
        for &byte in data {
            if self.held_len == 16 {
                self.chain = self.encrypt(xor(self.chain, self.held));
                self.held_len = 0;
            }
            self.held[self.held_len] = byte;
            self.held_len += 1;
        }
    }

    fn reset(&mut self) {
        self.chain = [0; 16];
        self.held_len = 0;
    }

    /// Section 2.4: the last block whole with the first subkey, or padded with the second.
    fn result(mut self) -> GenericArray<u8, U16> {
        let first = Self::doubled(self.encrypt([0; 16]));
        let subkey = if self.held_len == 16 {
            first
        } else {
            self.held[self.held_len] = 0x80;
            self.held[self.held_len + 1..].fill(0);
            Self::doubled(first)
        };
        self.encrypt(xor(xor(self.chain, self.held), subkey)).into()
    }
}
