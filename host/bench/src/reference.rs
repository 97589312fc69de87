//! The crate's calls, over either cipher.

use lorawan::creator::{DataPayloadCreator, JoinAcceptCreator, JoinRequestCreator};
use lorawan::keys::{AppKey, AppSKey, CryptoFactory, NewSKey, AES128};
use lorawan::parser::*;
use std::hint::black_box;

pub trait Cipher: CryptoFactory + Default + Copy + 'static {}

impl<F: CryptoFactory + Default + Copy + 'static> Cipher for F {}

fn parsed<F: Cipher>(frame: &mut [u8]) -> EncryptedDataPayload<&mut [u8], F> {
    match parse_with_factory(frame, F::default()) {
        Ok(PhyPayload::Data(DataPayload::Encrypted(data))) => data,
        _ => panic!("the bench reads good data frames"),
    }
}

/// Parsing, and every field of the frame once.
pub fn read<F: Cipher>(frame: &mut [u8]) {
    let data = parsed::<F>(frame);
    let fhdr = data.fhdr();
    black_box((fhdr.dev_addr().as_ref(), fhdr.fctrl(), fhdr.fcnt(), fhdr.data()));
    black_box((data.f_port(), data.is_uplink(), data.is_confirmed(), data.mic()));
}

pub fn mic<F: Cipher>(frame: &mut [u8], network: &[u8; 16], counter: u32) -> bool {
    parsed::<F>(frame).validate_mic(&AES128(*network), counter)
}

pub fn decrypt<F: Cipher>(frame: &mut [u8], network: &[u8; 16], application: &[u8; 16], counter: u32) {
    let keys = (AES128(*network), AES128(*application));
    black_box(parsed::<F>(frame).decrypt(Some(&keys.0), Some(&keys.1), counter).is_ok());
}

pub fn build_data<F: Cipher>(fields: &zinovoky::Data, keys: &([u8; 16], [u8; 16]), out: &mut [u8]) -> usize {
    let mut creator = DataPayloadCreator::with_options(out, F::default()).expect("255 bytes");
    creator.set_confirmed(fields.kind.is_confirmed()).set_uplink(fields.kind.is_uplink());
    creator.set_dev_addr(&fields.dev_addr).set_fctrl(&FCtrl::new(fields.fctrl, true)).set_fcnt(fields.counter);
    if let Some(port) = fields.port {
        creator.set_f_port(port);
    }
    let (network, application) = (NewSKey::from(keys.0), AppSKey::from(keys.1));
    creator.build(fields.payload, &[], &network, &application).expect("a good frame").len()
}

pub fn build_join_request<F: Cipher>(fields: &zinovoky::JoinRequest, key: &[u8; 16], out: &mut [u8]) -> usize {
    let mut creator = JoinRequestCreator::with_options(out, F::default()).expect("23 bytes");
    creator.set_app_eui(&fields.app_eui).set_dev_eui(&fields.dev_eui).set_dev_nonce(&fields.dev_nonce);
    creator.build(&AppKey::from(*key)).len()
}

pub fn build_join_accept<F: Cipher>(fields: &zinovoky::JoinAccept, key: &[u8; 16], out: &mut [u8]) -> usize {
    let mut creator = JoinAcceptCreator::with_options(out, F::default()).expect("17 bytes");
    creator.set_app_nonce(&fields.app_nonce).set_net_id(&fields.net_id).set_dev_addr(&fields.dev_addr);
    creator.set_dl_settings(fields.dl_settings).set_rx_delay(fields.rx_delay);
    creator.build(&AES128(*key)).expect("a good frame").len()
}
