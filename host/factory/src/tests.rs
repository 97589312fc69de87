//! Both factories on the vectors of FIPS 197 C.1 and RFC 4493 section 4.

use crate::{OpenSsl, Soft};
use generic_array::GenericArray;
use lorawan::keys::{CryptoFactory, Decrypter, Encrypter, Mac, AES128};

fn hex(text: &str) -> Vec<u8> {
    (0..text.len()).step_by(2).map(|i| u8::from_str_radix(&text[i..i + 2], 16).unwrap()).collect()
}

fn key(text: &str) -> AES128 {
    AES128(hex(text).try_into().unwrap())
}

fn fips_197_c1<F: CryptoFactory>(factory: F) {
    let key = key("000102030405060708090a0b0c0d0e0f");
    let clear = hex("00112233445566778899aabbccddeeff");
    let mut block = GenericArray::clone_from_slice(&clear);
    factory.new_enc(&key).encrypt_block(&mut block);
    assert_eq!(block.to_vec(), hex("69c4e0d86a7b0430d8cdb78070b4c55a"));
    factory.new_dec(&key).decrypt_block(&mut block);
    assert_eq!(block.to_vec(), clear);
}

fn rfc_4493_4<F: CryptoFactory>(factory: F) {
    let key = key("2b7e151628aed2a6abf7158809cf4f3c");
    let message = hex(concat!(
        "6bc1bee22e409f96e93d7e117393172aae2d8a571e03ac9c9eb76fac45af8e51",
        "30c81c46a35ce411e5fbc1191a0a52eff69f2445df4f9b17ad2b417be66c3710"
    ));
    let tags = [
        (0, "bb1d6929e95937287fa37d129b756746"),
        (16, "070a16b46b4d4144f79bdd9dd04a287c"),
        (40, "dfa66747de9ae63030ca32611497c827"),
        (64, "51f0bebf7e3b9d92fc49741779363cfe"),
    ];
    for (length, tag) in tags {
        for cut in 0..=length {
            let mut mac = factory.new_mac(&key);
            mac.input(&message[..cut]);
            mac.input(&message[cut..length]);
            assert_eq!(mac.result().to_vec(), hex(tag), "{length} bytes cut at {cut}");
        }
    }
}

#[test]
fn openssl() {
    fips_197_c1(OpenSsl);
    rfc_4493_4(OpenSsl);
}

#[test]
fn soft() {
    fips_197_c1(Soft);
    rfc_4493_4(Soft);
}
