//! Random MAC commands: lists of them as bytes, with and without faults, single ones to be written, and frames that carry them.

use crate::commands::{layout, Field};
use crate::frames;
use crate::random::Random;
use crosscheck::records::{BuildData, Case, WriteCommand};

/// The most that a payload holds.
const LONGEST: usize = 242;

/// A command as bytes, reserved bits and all.
fn command(random: &mut Random, uplink: bool) -> Vec<u8> {
    let identifier = 2 + random.below(9) as u8;
    let (_, behind) = layout(uplink, identifier).expect("a command");
    [vec![identifier], random.bytes(behind)].concat()
}

/// Whole commands in at most so many bytes.
fn list(random: &mut Random, uplink: bool, most: usize) -> Vec<u8> {
    let mut bytes = Vec::new();
    let count = random.below(most + 1);
    for _ in 0..count {
        let next = command(random, uplink);
        if bytes.len() + next.len() > most {
            break;
        }
        bytes.extend(next);
    }
    bytes
}

/// Two thirds as they are; otherwise cut, with a bit turned, a byte set, an unknown identifier between, or other bytes behind.
fn damaged(random: &mut Random, mut bytes: Vec<u8>) -> Vec<u8> {
    let place = random.below(bytes.len() + 1);
    match random.below(18) {
        0 | 1 => bytes.truncate(place),
        2 if place < bytes.len() => bytes[place] ^= 1 << random.below(8),
        3 if place < bytes.len() => bytes[place] = random.byte(),
        4 => bytes.insert(place, random.pick(&[0, 1, 0x0b, 0x0d, 0x80, 0xff])),
        5 => bytes.extend([0x0d, 0, 0, 0, 0, 0]),
        _ => {}
    }
    bytes
}

fn read(uplink: bool, bytes: Vec<u8>) -> Case {
    Case::ReadCommands { uplink, offset: 0, bytes }
}

/// Every list of up to two bytes, and every command with each of its bytes at each value, cut nowhere and one byte short.
pub fn every_short_list(random: &mut Random, mut run: impl FnMut(&Case)) {
    for uplink in [false, true] {
        run(&read(uplink, Vec::new()));
        for first in 0..=255_u8 {
            run(&read(uplink, vec![first]));
            (0..=255).for_each(|second| run(&read(uplink, vec![first, second])));
        }
        for identifier in 2..=10 {
            let (_, behind) = layout(uplink, identifier).expect("a command");
            for place in 1..=behind {
                for value in 0..=255 {
                    let mut bytes = [vec![identifier], random.bytes(behind)].concat();
                    bytes[place] = value;
                    run(&read(uplink, bytes[..behind].to_vec()));
                    run(&read(uplink, bytes));
                }
            }
        }
    }
}

fn writing(random: &mut Random, uplink: bool, identifier: u8, values: [i32; 5]) -> Case {
    let room = random.below(20);
    let offset = match random.below(16) {
        0 => u64::from(random.word()) << 32 | u64::from(random.word()),
        _ => random.below(room + 3) as u64,
    };
    Case::WriteCommand(WriteCommand { uplink, identifier, values, room, offset })
}

/// A number that the field's type has; mostly one that the field holds.
fn value(random: &mut Random, field: Field) -> i32 {
    let (least, greatest) = field.of_type();
    let drawn = (least + random.below((greatest - least + 1) as usize) as i64) as i32;
    match field {
        _ if random.one_in(8) => drawn,
        Field::Bits(count) => drawn & ((1 << count) - 1),
        Field::Margin => drawn >> 2,
    }
}

fn values(random: &mut Random, fields: &[Field]) -> [i32; 5] {
    let mut values = [0; 5];
    fields.iter().zip(&mut values).for_each(|(&field, place)| *place = value(random, field));
    values
}

/// Each command, each field at every value of one byte and around the limit of a longer one.
pub fn every_writing(random: &mut Random, mut run: impl FnMut(&Case)) {
    for (uplink, identifier) in (2..=10).flat_map(|identifier| [(false, identifier), (true, identifier)]) {
        let (fields, _) = layout(uplink, identifier).expect("a command");
        for (place, field) in fields.iter().enumerate() {
            let (least, greatest) = field.of_type();
            let limits = (0xffff - 2..=greatest.min(0xffff + 2)).chain(0xff_ffff - 2..=greatest.min(0xff_ffff + 2));
            for value in (least..=greatest.min(255)).chain(limits) {
                let mut values = values(random, fields);
                values[place] = value as i32;
                let case = writing(random, uplink, identifier, values);
                run(&case);
            }
        }
    }
}

/// A frame with commands in FOpts, and mostly more on port 0, or a damaged copy.
fn frame(random: &mut Random) -> Vec<u8> {
    let kind = 2 + random.below(4) as u8;
    let uplink = kind % 2 == 0;
    let fopts = list(random, uplink, 15);
    let fopts = damaged(random, fopts);
    let fopts = &fopts[..fopts.len().min(15)];
    let payload = list(random, uplink, LONGEST - fopts.len());
    let payload = damaged(random, payload);
    let port = if random.one_in(8) { random.byte() } else { 0 };
    let fctrl = random.byte() & 0xf0 | fopts.len() as u8;
    let head = [&[kind << 5], &random.array::<4>()[..], &[fctrl], &random.array::<2>()].concat();
    let behind = if random.one_in(4) { Vec::new() } else { [vec![port], payload].concat() };
    let frame = [&head[..], fopts, &behind, &random.array::<4>()].concat();
    if random.one_in(4) {
        frames::damaged(random, frame)
    } else {
        frame
    }
}

/// A data frame to be built with whole commands.
fn building(random: &mut Random) -> Case {
    let uplink = random.one_in(2);
    let port = if random.one_in(3) { None } else { Some(random.below(2) as u8) };
    let most = if port == Some(0) { LONGEST + 3 } else { 17 };
    let payload = if port == Some(1) { random.below(230) } else { 0 };
    Case::BuildData(BuildData {
        confirmed: random.one_in(2),
        uplink,
        dev_addr: random.array(),
        fctrl: random.byte() & 0xf0,
        counter: random.word(),
        port,
        commands: list(random, uplink, most),
        payload: random.bytes(payload),
        network: random.key(),
        application: random.key(),
        room: 255,
    })
}

/// A case of any kind that has to do with MAC commands.
pub fn any(random: &mut Random) -> Case {
    let uplink = random.one_in(2);
    match random.below(8) {
        0 => {
            let length = random.below(20);
            read(uplink, random.bytes(length))
        }
        1..=3 => {
            let most = random.pick(&[6, 15, 60, LONGEST]);
            let bytes = list(random, uplink, most);
            let bytes = damaged(random, bytes);
            let offset = if random.one_in(4) { random.below(bytes.len() + 3) } else { 0 };
            Case::ReadCommands { uplink, offset: offset as u64, bytes }
        }
        4 | 5 => {
            let identifier = 2 + random.below(9) as u8;
            let (fields, _) = layout(uplink, identifier).expect("a command");
            let values = values(random, fields);
            writing(random, uplink, identifier, values)
        }
        6 => Case::FrameCommands { frame: frame(random) },
        _ => building(random),
    }
}
