//! The oracle's case files, as tools/oracle/README.md has them.

use lorawan::keys::AES128;

pub struct BuildJoinRequest {
    pub app_eui: [u8; 8],
    pub dev_eui: [u8; 8],
    pub dev_nonce: [u8; 2],
    pub app_key: AES128,
    pub room: usize,
}

pub struct BuildJoinAccept {
    pub app_nonce: [u8; 3],
    pub net_id: [u8; 3],
    pub dev_addr: [u8; 4],
    pub dl_settings: u8,
    pub rx_delay: u8,
    pub channels: Option<Vec<u32>>,
    pub app_key: AES128,
    pub room: usize,
}

pub struct BuildData {
    pub confirmed: bool,
    pub uplink: bool,
    pub dev_addr: [u8; 4],
    pub fctrl: u8,
    pub counter: u32,
    pub port: Option<u8>,
    pub commands: Vec<u8>,
    pub payload: Vec<u8>,
    pub network: AES128,
    pub application: AES128,
    pub room: usize,
}

/// Amendments one by one, or as a list, whose offsets have 24 bits.
pub struct Amend {
    pub network: AES128,
    pub application: AES128,
    pub counter: u32,
    pub frame: Vec<u8>,
    pub amendments: Vec<(u32, u8)>,
}

/// A call on a frame that is held open: one amendment, or a list, whose offsets have 24 bits.
pub struct HeldCall {
    pub list: bool,
    pub amendments: Vec<(u32, u8)>,
}

pub struct Hold {
    pub network: AES128,
    pub application: AES128,
    pub counter: u32,
    pub frame: Vec<u8>,
    pub room: usize,
    pub calls: Vec<HeldCall>,
}

/// A MAC command as numbers; any are given.
pub struct WriteCommand {
    pub uplink: bool,
    pub identifier: u8,
    pub values: [i32; 5],
    pub room: usize,
    pub offset: u64,
}

/// One call with its arguments.
pub enum Case {
    MicJoinRequest { app_key: AES128, frame: Vec<u8> },
    MicJoinAccept { app_key: AES128, frame: Vec<u8> },
    MicData { network: AES128, counter: u32, frame: Vec<u8> },
    DecryptData { network: Option<AES128>, application: Option<AES128>, counter: u32, frame: Vec<u8> },
    DecryptDataChecked { network: AES128, application: Option<AES128>, counter: u32, frame: Vec<u8> },
    DecryptJoinAccept { app_key: AES128, frame: Vec<u8> },
    DecryptJoinAcceptChecked { app_key: AES128, frame: Vec<u8> },
    SessionKeys { app_key: AES128, dev_nonce: [u8; 2], frame: Vec<u8> },
    BuildJoinRequest(BuildJoinRequest),
    BuildJoinAccept(BuildJoinAccept),
    BuildData(BuildData),
    Amend(Amend),
    Read { frame: Vec<u8> },
    ReadClearJoinAccept { frame: Vec<u8> },
    Hold(Hold),
    ReadJoinRequest { frame: Vec<u8> },
    AmendLent(Amend),
    ReadCommands { uplink: bool, offset: u64, bytes: Vec<u8> },
    WriteCommand(WriteCommand),
    FrameCommands { frame: Vec<u8> },
}

/// Takes a record's body apart from the front.
struct Body<'a>(&'a [u8]);

impl<'a> Body<'a> {
    fn take(&mut self, length: usize) -> &'a [u8] {
        let (front, rest) = self.0.split_at(length);
        self.0 = rest;
        front
    }

    fn array<const N: usize>(&mut self) -> [u8; N] {
        self.take(N).try_into().unwrap()
    }

    fn u8(&mut self) -> u8 {
        self.array::<1>()[0]
    }

    fn u16(&mut self) -> usize {
        u16::from_le_bytes(self.array()).into()
    }

    fn u32(&mut self) -> u32 {
        u32::from_le_bytes(self.array())
    }

    fn u64(&mut self) -> u64 {
        u64::from_le_bytes(self.array())
    }

    fn values(&mut self) -> [i32; 5] {
        std::array::from_fn(|_| self.u32() as i32)
    }

    fn bytes(&mut self) -> Vec<u8> {
        let length = self.u16();
        self.take(length).to_vec()
    }

    fn key(&mut self) -> AES128 {
        AES128(self.array())
    }

    fn maybe_key(&mut self) -> Option<AES128> {
        let given = self.u8() == 1;
        let key = self.key();
        given.then_some(key)
    }

    fn maybe_u8(&mut self) -> Option<u8> {
        let given = self.u8() == 1;
        let value = self.u8();
        given.then_some(value)
    }

    fn channels(&mut self) -> Option<Vec<u32>> {
        let given = self.u8() == 1;
        let count = self.u8();
        let values = (0..count).map(|_| self.u32()).collect();
        given.then_some(values)
    }

    fn amendments(&mut self) -> Vec<(u32, u8)> {
        let count = self.u16();
        (0..count).map(|_| (self.u32(), self.u8())).collect()
    }

    fn list(&mut self) -> Vec<(u32, u8)> {
        let count = self.u16();
        let listed = |number: u32| (number >> 8, number as u8);
        (0..count).map(|_| listed(self.u32())).collect()
    }

    fn held_call(&mut self) -> HeldCall {
        if self.u8() == 0 {
            return HeldCall { list: false, amendments: vec![(self.u32(), self.u8())] };
        }
        HeldCall { list: true, amendments: self.list() }
    }

    fn history(&mut self) -> Vec<HeldCall> {
        let count = self.u16();
        (0..count).map(|_| self.held_call()).collect()
    }
}

fn build_join_request(b: &mut Body) -> Case {
    Case::BuildJoinRequest(BuildJoinRequest {
        app_eui: b.array(),
        dev_eui: b.array(),
        dev_nonce: b.array(),
        app_key: b.key(),
        room: b.u16(),
    })
}

fn build_join_accept(b: &mut Body) -> Case {
    Case::BuildJoinAccept(BuildJoinAccept {
        app_nonce: b.array(),
        net_id: b.array(),
        dev_addr: b.array(),
        dl_settings: b.u8(),
        rx_delay: b.u8(),
        channels: b.channels(),
        app_key: b.key(),
        room: b.u16(),
    })
}

fn build_data(b: &mut Body) -> Case {
    Case::BuildData(BuildData {
        confirmed: b.u8() == 1,
        uplink: b.u8() == 1,
        dev_addr: b.array(),
        fctrl: b.u8(),
        counter: b.u32(),
        port: b.maybe_u8(),
        commands: b.bytes(),
        payload: b.bytes(),
        network: b.key(),
        application: b.key(),
        room: b.u16(),
    })
}

fn amend<'a>(b: &mut Body<'a>, amendments: fn(&mut Body<'a>) -> Vec<(u32, u8)>) -> Amend {
    Amend { network: b.key(), application: b.key(), counter: b.u32(), frame: b.bytes(), amendments: amendments(b) }
}

fn hold(b: &mut Body) -> Case {
    Case::Hold(Hold {
        network: b.key(),
        application: b.key(),
        counter: b.u32(),
        frame: b.bytes(),
        room: b.u16(),
        calls: b.history(),
    })
}

fn write_command(b: &mut Body) -> Case {
    Case::WriteCommand(WriteCommand {
        uplink: b.u8() == 1,
        identifier: b.u8(),
        values: b.values(),
        room: b.u16(),
        offset: b.u64(),
    })
}

fn case(body: &[u8]) -> Case {
    let mut b = Body(body);
    let b = &mut b;
    let case = match b.u8() {
        1 => Case::MicJoinRequest { app_key: b.key(), frame: b.bytes() },
        2 => Case::MicJoinAccept { app_key: b.key(), frame: b.bytes() },
        3 => Case::MicData { network: b.key(), counter: b.u32(), frame: b.bytes() },
        4 => {
            Case::DecryptData { network: b.maybe_key(), application: b.maybe_key(), counter: b.u32(), frame: b.bytes() }
        }
        5 => Case::DecryptDataChecked {
            network: b.key(),
            application: b.maybe_key(),
            counter: b.u32(),
            frame: b.bytes(),
        },
        6 => Case::DecryptJoinAccept { app_key: b.key(), frame: b.bytes() },
        7 => Case::DecryptJoinAcceptChecked { app_key: b.key(), frame: b.bytes() },
        8 => Case::SessionKeys { app_key: b.key(), dev_nonce: b.array(), frame: b.bytes() },
        9 => build_join_request(b),
        10 => build_join_accept(b),
        11 => build_data(b),
        12 => Case::Amend(amend(b, Body::amendments)),
        13 => Case::Read { frame: b.bytes() },
        14 => Case::ReadClearJoinAccept { frame: b.bytes() },
        15 => hold(b),
        16 => Case::ReadJoinRequest { frame: b.bytes() },
        17 => Case::AmendLent(amend(b, Body::list)),
        18 => Case::ReadCommands { uplink: b.u8() == 1, offset: b.u64(), bytes: b.bytes() },
        19 => write_command(b),
        20 => Case::FrameCommands { frame: b.bytes() },
        kind => panic!("a record of kind {kind}"),
    };
    assert!(b.0.is_empty(), "a record that is longer than its fields");
    case
}

/// The records of a case file.
pub fn cases(file: &[u8]) -> Vec<Case> {
    let mut rest = Body(file);
    let mut cases = Vec::new();
    while !rest.0.is_empty() {
        cases.push(case(&rest.bytes()));
    }
    cases
}

/// The answers' lines as bytes; the last line must give their number.
pub fn answers(text: &str) -> Vec<Vec<u8>> {
    let mut lines: Vec<&str> = text.lines().collect();
    let count = lines.pop().expect("a last line");
    assert_eq!(count, format!("{} cases", lines.len()));
    lines.into_iter().map(unhex).collect()
}

pub fn unhex(line: &str) -> Vec<u8> {
    (0..line.len()).step_by(2).map(|i| u8::from_str_radix(&line[i..i + 2], 16).unwrap()).collect()
}

pub fn hex(bytes: &[u8]) -> String {
    bytes.iter().map(|b| format!("{b:02x}")).collect()
}
