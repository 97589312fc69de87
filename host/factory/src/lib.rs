//! Crypto factories for the crate lorawan, which comes here without its own.

mod cmac;
mod openssl;
mod soft;

pub use cmac::Cmac;
pub use openssl::{OpenSsl, OpenSslDecrypt, OpenSslEncrypt};
pub use soft::{Soft, SoftAes};

#[cfg(test)]
mod tests;
