//! A stand-in for the files of messages 1059 and 1230, which were not supplied: a message whose content is any bits.
//!
//! With it the crate's own `MessageBuilder` frames any data bytes that begin with one of the two numbers.
use crate::df::{assembler::Assembler, bit_value::U8, parser::Parser};
use crate::rtcm_error::RtcmError;

/// The bits behind a message number: the lower half of the second data byte, and whole bytes.
#[derive(Clone, Debug, PartialEq)]
pub struct Raw {
    pub half: u8,
    pub bytes: Vec<u8>,
}

pub fn encode(asm: &mut Assembler, raw: &Raw) -> Result<(), RtcmError> {
    asm.put::<U8>(raw.half, 4)?;
    for byte in &raw.bytes {
        asm.put::<U8>(*byte, 8)?;
    }
    Ok(())
}

pub fn decode(par: &mut Parser) -> Result<Raw, RtcmError> {
    let half = par.parse::<U8>(4)?;
    let mut bytes = Vec::new();
    while let Ok(byte) = par.parse::<U8>(8) {
        bytes.push(byte);
    }
    Ok(Raw { half, bytes })
}

macro_rules! raw_message {
    ($name:ident) => {
        pub mod $name {
            pub mod $name {
                pub use super::super::Raw as DataType;
                pub use super::super::{decode, encode};
            }
        }
    };
}

raw_message!(msg1059);
raw_message!(msg1230);
