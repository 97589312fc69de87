//! How a call ended, in the form of the answers (tools/oracle/README.md), and where a frame is bad. The crate has no
//! places: so the place beside its number is computed here, from the frame's bytes and docs/RULES.md, Refusals.

/// A refusal's number and place; number 0 says that nothing was refused.
#[derive(Clone, Copy, Debug, PartialEq, Eq)]
pub struct End {
    pub number: u8,
    pub place: u64,
}

impl End {
    pub const ACCEPTED: End = End { number: 0, place: 0 };

    /// A refusal that does not come from reading.
    pub const fn refused(number: u8) -> End {
        End { number, place: 0 }
    }

    /// What a call that reads this frame first ends in, by its number.
    pub fn on(frame: &[u8], number: u8) -> End {
        match number {
            0 => End::ACCEPTED,
            _ => End { number, place: bad_at(frame) },
        }
    }

    /// The number in one byte and, where it is not 0, the place in eight bytes, low byte first.
    pub fn bytes(self) -> Vec<u8> {
        match self.number {
            0 => vec![0],
            number => [&[number], &self.place.to_le_bytes()[..]].concat(),
        }
    }

    /// The same taken off an answer.
    pub fn split(answer: &[u8]) -> (End, &[u8]) {
        match answer[0] {
            0 => (End::ACCEPTED, &answer[1..]),
            number => {
                let (place, rest) = answer[1..].split_first_chunk().expect("eight bytes of place");
                (End { number, place: u64::from_le_bytes(*place) }, rest)
            }
        }
    }

    /// So many of them, one after another.
    pub fn split_all(answer: &[u8], count: usize) -> (Vec<End>, &[u8]) {
        let mut rest = answer;
        let ends = (0..count).map(|_| {
            let (end, behind) = End::split(rest);
            rest = behind;
            end
        });
        (ends.collect(), rest)
    }
}

/// Where the rules refuse to read a frame: its length where that is wrong, else the byte at fault; 0 where they accept.
pub fn bad_at(frame: &[u8]) -> u64 {
    let length = frame.len();
    if !(12..=255).contains(&length) {
        return length as u64;
    }
    if frame[0] % 4 != 0 {
        return 0;
    }
    let header = 7 + usize::from(frame[5] % 16);
    match frame[0] >> 5 {
        0 if length != 23 => length as u64,
        1 if length != 17 && length != 33 => length as u64,
        2..=5 if length < 5 + header => 5,
        _ => 0,
    }
}
