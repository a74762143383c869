//! The shapes in which both builds of rtcm-rs answer, so that the two can be called alike.
#![forbid(unsafe_code)]

/// The crate's error by its own name, or `PANIC`.
pub type Refused = &'static str;

/// What stands for an answer where the crate panicked.
pub const PANIC: Refused = "panic";

/// The three readings of `bit_value.rs`.
#[derive(Clone, Copy, Debug, PartialEq, Eq)]
pub enum Reading {
    Unsigned,
    Twos,
    SignMagnitude,
}

pub const READINGS: [Reading; 3] = [Reading::Unsigned, Reading::Twos, Reading::SignMagnitude];

/// A type of `bit_value.rs`: how it is read, and its bits (8, 16, 32, 64 or 128).
#[derive(Clone, Copy, Debug, PartialEq, Eq)]
pub struct FieldType {
    pub reading: Reading,
    pub bits: usize,
}

impl FieldType {
    /// The crate's own name of the type.
    pub fn name(self) -> String {
        let letters = match self.reading {
            Reading::Unsigned => "U",
            Reading::Twos => "I",
            Reading::SignMagnitude => "SM",
        };
        format!("{letters}{}", self.bits)
    }
}

/// What a `MessageFrame` hands out. Places are counted from the start of the bytes that were checked.
#[derive(Clone, Copy, Debug, PartialEq, Eq)]
pub struct Frame {
    pub frame_at: usize,
    pub frame_len: usize,
    pub data_at: usize,
    pub data_len: usize,
    pub number: Option<u16>,
    pub crc: u32,
}

/// What `MsgFrameIter` hands out: each frame's place and length, and the bytes consumed at the end.
#[derive(Clone, Debug, Default, PartialEq, Eq)]
pub struct Scanned {
    pub frames: Vec<(usize, usize)>,
    pub consumed: usize,
}

/// The two bias blocks.
#[derive(Clone, Copy, Debug, PartialEq, Eq)]
pub enum Block {
    Msg1059,
    Msg1230,
}

/// A record of a bias block. The band and the letter are those of its `SigId`; the satellite is 0 in 1230.
#[derive(Clone, Copy, Debug, PartialEq)]
pub struct Bias {
    pub satellite: u8,
    pub band: u8,
    pub letter: char,
    pub metres: f32,
}

impl Block {
    /// The assigned signals: number, band and letter. Those of 1230 have glo numbers and stand in mask order.
    pub fn signals(self) -> &'static [(u8, u8, char)] {
        match self {
            Block::Msg1059 => &[
                (0, 1, 'C'),
                (1, 1, 'P'),
                (2, 1, 'W'),
                (5, 2, 'C'),
                (6, 2, 'D'),
                (7, 2, 'S'),
                (8, 2, 'L'),
                (9, 2, 'X'),
                (10, 2, 'P'),
                (11, 2, 'W'),
                (14, 5, 'I'),
                (15, 5, 'Q'),
            ],
            Block::Msg1230 => &[(2, 1, 'C'), (3, 1, 'P'), (8, 2, 'C'), (9, 2, 'P')],
        }
    }

    /// The unit of a raw bias, in metres.
    pub fn unit(self) -> f32 {
        match self {
            Block::Msg1059 => 0.01,
            Block::Msg1230 => 0.02,
        }
    }

    /// A raw record as the crate has it. Its signal must be assigned.
    pub fn record(self, satellite: u8, signal: u8, bias: i16) -> Bias {
        let found = self
            .signals()
            .iter()
            .find(|(number, _, _)| *number == signal);
        let (_, band, letter) = *found.expect("an assigned signal");
        let metres = bias as f32 * self.unit();
        Bias {
            satellite,
            band,
            letter,
            metres,
        }
    }
}
