//! The one join-accept of the crate's documentation that has a channel list, as the crate builds it, to be set beside
//! what LoRaWAN 1.0 wants: the crate never turns its list on, so that MIC and cipher cover the first 17 bytes only.

use crosscheck::opened::parsed_join_accept;
use crosscheck::records::hex;
use factory::OpenSsl;
use lorawan::creator::JoinAcceptCreator;
use lorawan::keys::{AppKey, AES128};
use lorawan::maccommands::Frequency;

fn main() {
    let channels = [Frequency::from(&[0x58, 0x6e, 0x84]), Frequency::from(&[0x88, 0x66, 0x84])];
    let mut creator = JoinAcceptCreator::with_options([0; 33], OpenSsl).unwrap();
    creator.set_app_nonce(&[1; 3]).set_net_id(&[1; 3]).set_dev_addr(&[1; 4]).set_dl_settings(2).set_rx_delay(1);
    creator.set_c_f_list(channels).unwrap();
    let mut frame = creator.build(&AES128([1; 16])).unwrap().to_vec();
    println!("built by the crate: {}", hex(&frame));
    let key = AppKey::from([1; 16]);
    let clear = parsed_join_accept::<OpenSsl>(&mut frame).unwrap().decrypt(&key);
    println!("its MIC, by the crate's reader: {}", if clear.validate_mic(&key) { "good" } else { "bad" });
}
