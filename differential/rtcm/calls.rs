//! The calls into rtcm-rs, each with plain numbers and bytes.
use crate::crc_any::CRC;
use crate::df::assembler::Assembler;
use crate::df::bit_value::*;
use crate::df::dfs::df_msg1059_biases::{self, Msg1059CodeBias};
use crate::df::dfs::df_msg1230_biases::{self, Msg1230CodePhaseBias};
use crate::df::parser::Parser;
use crate::lengths;
use crate::message_frame::MessageFrame;
use crate::msg::message::{Message, MessageBuilder};
use crate::msg::{msm_mappings, GloSigId, GpsSigId};
use crate::raw_message::Raw;
use crate::rtcm_error::RtcmError;
use crate::scan_of_lib::{next_msg_frame, MsgFrameIter};
use core::cmp::Ordering;
use shapes::{Bias, Block, FieldType, Frame, Reading, Refused, Scanned};

/// The records that the crate's 1059 vector holds.
pub const CAPACITY_1059: usize = crate::msg::SAT_CAP_1059;

fn refused(error: RtcmError) -> Refused {
    match error {
        RtcmError::NotValid => "NotValid",
        RtcmError::Incomplete => "Incomplete",
        RtcmError::BufferOverflow => "BufferOverflow",
        RtcmError::CapacityExceeded => "CapacityExceeded",
        RtcmError::InvalidSignalId => "InvalidSignalId",
        RtcmError::OutOfRange => "OutOfRange",
        RtcmError::EncodingNotSupported => "EncodingNotSupported",
        _ => "another error",
    }
}

/// The checksum of the stand-in for `crc-any`.
#[inline(never)]
pub fn checksum(bytes: &[u8]) -> u32 {
    let mut crc = CRC::crc24lte_a();
    crc.digest(bytes);
    crc.get_crc() as u32
}

fn described(bytes: &[u8], frame: &MessageFrame) -> Frame {
    let place = |part: &[u8]| part.as_ptr() as usize - bytes.as_ptr() as usize;
    Frame {
        frame_at: place(frame.frame_data()),
        frame_len: frame.frame_len(),
        data_at: place(frame.data()),
        data_len: frame.data_len(),
        number: frame.message_number(),
        crc: frame.crc(),
    }
}

/// `MessageFrame::new`.
#[inline(never)]
pub fn frame(bytes: &[u8]) -> Result<Frame, Refused> {
    match MessageFrame::new(bytes) {
        Ok(frame) => Ok(described(bytes, &frame)),
        Err(error) => Err(refused(error)),
    }
}

/// `next_msg_frame`: the bytes consumed, and the frame.
#[inline(never)]
pub fn next_frame(bytes: &[u8]) -> (usize, Option<Frame>) {
    let (consumed, frame) = next_msg_frame(bytes);
    (consumed, frame.map(|frame| described(bytes, &frame)))
}

/// `MsgFrameIter` to its first `None`.
#[inline(never)]
pub fn scan(bytes: &[u8]) -> Scanned {
    let mut iter = MsgFrameIter::new(bytes);
    let mut frames = Vec::new();
    for frame in &mut iter {
        let found = described(bytes, &frame);
        frames.push((found.frame_at, found.frame_len));
    }
    Scanned {
        frames,
        consumed: iter.consumed(),
    }
}

/// `MsgFrameIter` to its first `None`, where only the number of frames is wanted.
#[inline(never)]
pub fn count_frames(bytes: &[u8]) -> usize {
    MsgFrameIter::new(bytes).count()
}

/// `MessageBuilder` over a message whose content is the given bits behind its number.
#[inline(never)]
pub fn build_message(number: u16, half: u8, bytes: &[u8]) -> Result<Vec<u8>, Refused> {
    let bytes = bytes.to_vec();
    let message = match number {
        1059 => Message::Msg1059(Raw { half, bytes }),
        1230 => Message::Msg1230(Raw { half, bytes }),
        _ => Message::Empty,
    };
    let mut builder = MessageBuilder::new();
    let built = builder.build_message(&message);
    built.map(<[u8]>::to_vec).map_err(refused)
}

macro_rules! over_types {
    ($field:expr, $call:ident) => {
        match ($field.reading, $field.bits) {
            (Reading::Unsigned, 8) => $call!(U8),
            (Reading::Unsigned, 16) => $call!(U16),
            (Reading::Unsigned, 32) => $call!(U32),
            (Reading::Unsigned, 64) => $call!(U64),
            (Reading::Unsigned, _) => $call!(U128),
            (Reading::Twos, 8) => $call!(I8),
            (Reading::Twos, 16) => $call!(I16),
            (Reading::Twos, 32) => $call!(I32),
            (Reading::Twos, 64) => $call!(I64),
            (Reading::Twos, _) => $call!(I128),
            (Reading::SignMagnitude, 8) => $call!(SM8),
            (Reading::SignMagnitude, 16) => $call!(SM16),
            (Reading::SignMagnitude, 32) => $call!(SM32),
            (Reading::SignMagnitude, 64) => $call!(SM64),
            (Reading::SignMagnitude, _) => $call!(SM128),
        }
    };
}

/// `Parser::parse` of one field: the number, and the offset afterwards.
#[inline(never)]
pub fn parse(
    field: FieldType,
    data: &[u8],
    start: usize,
    width: usize,
) -> Result<(i128, usize), Refused> {
    let mut parser = Parser::new(data, start);
    macro_rules! call {
        ($type:ident) => {
            parser.parse::<$type>(width).map(|value| value as i128)
        };
    }
    let value = over_types!(field, call).map_err(refused)?;
    Ok((value, parser.offset()))
}

/// `Assembler::put` of one field, the number cast to the type: the offset afterwards.
#[inline(never)]
pub fn put(
    field: FieldType,
    data: &mut [u8],
    start: usize,
    width: usize,
    value: i128,
) -> Result<usize, Refused> {
    let mut assembler = Assembler::new(data, start);
    macro_rules! call {
        ($type:ident) => {
            assembler.put::<$type>(value as <$type as BitValue>::ValueType, width)
        };
    }
    over_types!(field, call).map_err(refused)?;
    Ok(assembler.offset())
}

/// A block's `decode`: the records, and the offset afterwards, also where it refused.
#[inline(never)]
pub fn read_block(block: Block, data: &[u8], start: usize) -> (Result<Vec<Bias>, Refused>, usize) {
    let of_1059 = |record: &Msg1059CodeBias| Bias {
        satellite: record.satellite_id,
        band: record.signal_id.band(),
        letter: record.signal_id.attribute(),
        metres: record.bias_m,
    };
    let of_1230 = |record: &Msg1230CodePhaseBias| Bias {
        satellite: 0,
        band: record.signal_id.band(),
        letter: record.signal_id.attribute(),
        metres: record.bias_m,
    };
    let mut parser = Parser::new(data, start);
    let records = match block {
        Block::Msg1059 => df_msg1059_biases::decode(&mut parser)
            .map(|records| records.iter().map(of_1059).collect()),
        Block::Msg1230 => df_msg1230_biases::decode(&mut parser)
            .map(|records| records.iter().map(of_1230).collect()),
    };
    (records.map_err(refused), parser.offset())
}

/// A block's `encode`: the offset afterwards.
pub fn write_block(
    block: Block,
    data: &mut [u8],
    start: usize,
    records: &[Bias],
) -> Result<usize, Refused> {
    match block {
        Block::Msg1059 => encode_1059(data, start, &list_1059(records)),
        Block::Msg1230 => encode_1230(data, start, &list_1230(records)),
    }
}

/// The crate's own lists of records.
pub type List1059 = df_msg1059_biases::DataType;
pub type List1230 = df_msg1230_biases::DataType;

/// Records in the crate's own list.
#[inline(never)]
pub fn list_1059(records: &[Bias]) -> List1059 {
    let mut list = List1059::new();
    for record in records {
        list.push(Msg1059CodeBias {
            satellite_id: record.satellite,
            signal_id: GpsSigId::new(record.band, record.letter),
            bias_m: record.metres,
        });
    }
    list
}

/// Records in the crate's own list.
#[inline(never)]
pub fn list_1230(records: &[Bias]) -> List1230 {
    let mut list = List1230::new();
    for record in records {
        list.push(Msg1230CodePhaseBias {
            signal_id: GloSigId::new(record.band, record.letter),
            bias_m: record.metres,
        });
    }
    list
}

/// The 1059 block's `encode` of the crate's own list: the offset afterwards.
#[inline(never)]
pub fn encode_1059(data: &mut [u8], start: usize, list: &List1059) -> Result<usize, Refused> {
    let mut assembler = Assembler::new(data, start);
    df_msg1059_biases::encode(&mut assembler, list).map_err(refused)?;
    Ok(assembler.offset())
}

/// The 1230 block's `encode` of the crate's own list: the offset afterwards.
#[inline(never)]
pub fn encode_1230(data: &mut [u8], start: usize, list: &List1230) -> Result<usize, Refused> {
    let mut assembler = Assembler::new(data, start);
    df_msg1230_biases::encode(&mut assembler, list).map_err(refused)?;
    Ok(assembler.offset())
}

/// The 1059 block's `decode`, where only the number of records is wanted: 0 where it refused.
#[inline(never)]
pub fn count_1059(data: &[u8], start: usize) -> usize {
    df_msg1059_biases::decode(&mut Parser::new(data, start)).map_or(0, |list| list.len())
}

/// The 1230 block's `decode`, where only the number of records is wanted: 0 where it refused.
#[inline(never)]
pub fn count_1230(data: &[u8], start: usize) -> usize {
    df_msg1230_biases::decode(&mut Parser::new(data, start)).map_or(0, |list| list.len())
}

/// The pseudorange of message 1001 in the first 24 bits of the data; none where it is absent.
#[inline(never)]
pub fn pseudorange(data: &[u8]) -> Result<Option<f64>, Refused> {
    lengths::df011::decode(&mut Parser::new(data, 0)).map_err(refused)
}

/// The phase range less the pseudorange in the first 20 bits of the data; none where it is absent.
#[inline(never)]
pub fn phase(data: &[u8]) -> Result<Option<f64>, Refused> {
    lengths::df012_18_42_48::decode(&mut Parser::new(data, 0)).map_err(refused)
}

macro_rules! over_systems {
    ($system:expr, $call:ident, $none:expr) => {
        match $system {
            0 => $call!(gps),
            1 => $call!(glo),
            2 => $call!(gal),
            3 => $call!(sbas),
            4 => $call!(qzss),
            5 => $call!(bds),
            6 => $call!(navic),
            _ => $none,
        }
    };
}

/// `to_sig` of a system's table.
#[inline(never)]
pub fn signal_of(system: u32, number: u8) -> Option<(u8, char)> {
    macro_rules! call {
        ($table:ident) => {
            msm_mappings::$table::to_sig(number).map(|signal| (signal.band(), signal.attribute()))
        };
    }
    over_systems!(system, call, None)
}

/// `to_id` of a system's table.
#[inline(never)]
pub fn number_of(system: u32, band: u8, letter: char) -> Option<u8> {
    macro_rules! call {
        ($table:ident) => {
            msm_mappings::$table::to_id(msm_mappings::$table::SigId::new(band, letter))
        };
    }
    over_systems!(system, call, None)
}

/// `Ord` and `PartialOrd` of a system's signals.
#[inline(never)]
pub fn order(
    system: u32,
    (band_a, letter_a): (u8, char),
    (band_b, letter_b): (u8, char),
) -> (Ordering, Option<Ordering>) {
    macro_rules! call {
        ($table:ident) => {{
            let a = msm_mappings::$table::SigId::new(band_a, letter_a);
            let b = msm_mappings::$table::SigId::new(band_b, letter_b);
            (a.cmp(&b), a.partial_cmp(&b))
        }};
    }
    over_systems!(system, call, (Ordering::Equal, None))
}
