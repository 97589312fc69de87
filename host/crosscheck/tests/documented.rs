//! The frames of the crate's own documentation, through the crate, with either cipher: parsed, decrypted, built.

use crosscheck::opened::{parsed_data, parsed_join_accept, parsed_join_request};
use crosscheck::records::unhex;
use crosscheck::Judge;
use factory::{OpenSsl, Soft};
use lorawan::creator::{DataPayloadCreator, JoinAcceptCreator, JoinRequestCreator};
use lorawan::keys::{AppKey, AppSKey, NewSKey, AES128};
use lorawan::parser::{DevNonce, FCtrl, FRMPayload};

const JOIN_REQUEST: &str = "00040302010403020105040302050403022d106a990e12";
const JOIN_ACCEPT: &str = "20493eeb51fba2116f810edb3742975142";
const DATA: &str = "400403020180010001a694642615d6c3b582";

fn join_request<F: Judge>() {
    let (mut frame, key) = (unhex(JOIN_REQUEST), [1; 16]);
    let request = parsed_join_request::<F>(&mut frame).unwrap();
    assert!(request.validate_mic(&AES128(key)));

    let mut creator = JoinRequestCreator::with_options([0; 23], F::default()).unwrap();
    creator.set_app_eui(&[4, 3, 2, 1, 4, 3, 2, 1]).set_dev_eui(&[5, 4, 3, 2, 5, 4, 3, 2]).set_dev_nonce(&[0x2d, 0x10]);
    assert_eq!(creator.build(&AppKey::from(key)), unhex(JOIN_REQUEST));
}

fn join_accept<F: Judge>() {
    let mut frame = unhex(JOIN_ACCEPT);
    let key =
        AppKey::from([0x00, 0x11, 0x22, 0x33, 0x44, 0x55, 0x66, 0x77, 0x88, 0x99, 0xaa, 0xbb, 0xcc, 0xdd, 0xee, 0xff]);
    let clear = parsed_join_accept::<F>(&mut frame).unwrap().decrypt(&key);
    assert!(clear.validate_mic(&key));
    let nonce = DevNonce::from([0xcc, 0xdd]);
    assert_eq!(clear.derive_newskey(&nonce, &key).as_ref(), unhex("406b1337d80753820540e280f81299e9"));
    assert_eq!(clear.derive_appskey(&nonce, &key).as_ref(), unhex("4f5c409751841b6dfecbd38402237942"));

    let mut creator = JoinAcceptCreator::with_options([0; 17], F::default()).unwrap();
    creator
        .set_app_nonce(&[0xc7, 0x0b, 0x57])
        .set_net_id(&[0x01, 0x11, 0x22])
        .set_dev_addr(&[0x80, 0x19, 0x03, 0x02])
        .set_dl_settings(0)
        .set_rx_delay(0);
    assert_eq!(creator.build(key.inner()).unwrap(), unhex(JOIN_ACCEPT));
}

fn data<F: Judge>() {
    let (network, application) = (NewSKey::from([2; 16]), AppSKey::from([1; 16]));
    let mut frame = unhex(DATA);
    let data = parsed_data::<F>(&mut frame).unwrap();
    assert!(data.validate_mic(network.inner(), 1));
    let open = data.decrypt(None, Some(application.inner()), 1).unwrap();
    assert_eq!(open.frm_payload(), FRMPayload::Data(b"hello"));

    let mut creator = DataPayloadCreator::with_options([0; 255], F::default()).unwrap();
    creator.set_confirmed(false).set_uplink(true).set_f_port(1).set_dev_addr(&[4, 3, 2, 1]);
    creator.set_fctrl(&FCtrl::new(0x80, true)).set_fcnt(1);
    assert_eq!(creator.build(b"hello", &[], &network, &application).unwrap(), unhex(DATA));
}

#[test]
fn openssl() {
    join_request::<OpenSsl>();
    join_accept::<OpenSsl>();
    data::<OpenSsl>();
}

#[test]
fn soft() {
    join_request::<Soft>();
    join_accept::<Soft>();
    data::<Soft>();
}
