//! What the port says of a command for a person, beside the crate: Hz, dBm, and whether an answer accepts all.

use lorawan::maccommands::*;
use zinovoky::{read_commands, Command, Direction};

fn only(direction: Direction, bytes: &[u8]) -> Command {
    let mut commands = read_commands(direction, bytes);
    let found = commands.next().expect("a command").expect("without a fault");
    assert!(commands.next().is_none());
    found.1
}

#[test]
fn power_in_dbm() {
    for byte in 0..=255 {
        let theirs = TXParamSetupReqPayload::new_from_raw(&[byte]).max_eirp();
        assert_eq!(only(Direction::Down, &[9, byte]).max_eirp_dbm(), Some(theirs));
    }
}

#[test]
fn frequency_in_hz() {
    for [low, middle, high] in [[0, 0, 0], [1, 0, 0], [0, 1, 0], [0, 0, 1], [0x12, 0x34, 0x56], [0xff, 0xff, 0xff]] {
        let theirs = Some(u64::from(Frequency::from(&[low, middle, high]).value()));
        assert_eq!(only(Direction::Down, &[5, 0, low, middle, high]).frequency_hz(), theirs);
        assert_eq!(only(Direction::Down, &[7, 0, low, middle, high, 0]).frequency_hz(), theirs);
        assert_eq!(only(Direction::Down, &[10, 0, low, middle, high]).frequency_hz(), theirs);
    }
}

/// Where no reserved bit is set, at which three of the four go wrong in the crate.
#[test]
fn all_accepted() {
    for byte in 0..8 {
        let accepted = |identifier| only(Direction::Up, &[identifier, byte]).accepted();
        assert_eq!(accepted(3), Some(LinkADRAnsPayload::new_from_raw(&[byte]).ack()));
        assert_eq!(accepted(5), Some(RXParamSetupAnsPayload::new_from_raw(&[byte]).ack()));
        if byte < 4 {
            assert_eq!(accepted(7), Some(NewChannelAnsPayload::new_from_raw(&[byte]).ack()));
        }
        assert_eq!(accepted(10), Some(DlChannelAnsPayload::new_from_raw(&[byte]).ack()));
    }
}
