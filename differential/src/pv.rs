//! The functions of libpeerivolt.a, and a safe call for each. An area is a pointer and a length in elements.
use shapes::{Block, Reading};

/// Numbers in the extra area.
const EXTRA: usize = 8;
/// Bytes in a scanner's held area, and in the longest frame.
pub const HELD: usize = 1_029;
/// Bytes in the longest data area.
pub const DATA: usize = 1_023;
/// Bytes in the longest piece.
pub const PIECE: usize = 65_536;
/// The edition of the 1059 signals that the Rust has.
const EDITION: u32 = 1;
/// Records that suffice for every 1059 block, and for every 1230 block.
pub const RECORDS_1059: usize = 422;
pub const RECORDS_1230: usize = 4;

pub const SHORT: u32 = 1;
pub const WIDTH: u32 = 2;
pub const RANGE: u32 = 3;
pub const SIGNAL: u32 = 4;
pub const SATELLITE: u32 = 5;
pub const TOO_MANY: u32 = 6;
pub const DUPLICATE: u32 = 7;
pub const ROOM: u32 = 8;
pub const SIZE: u32 = 9;
pub const NO_PREAMBLE: u32 = 10;
pub const STATE: u32 = 11;
pub const INCOMPLETE: u32 = 12;
pub const BAD_CHECK: u32 = 14;

/// What the extra area holds before a call, so that a number that was not written shows.
const UNWRITTEN: u64 = 0xA5A5_5A5A_A5A5_5A5A;

mod raw {
    extern "C" {
        pub fn pv_crc24q(bytes: *const u8, len: usize) -> u32;
        pub fn pv_frame_check(
            bytes: *const u8,
            len: usize,
            extra: *mut u64,
            extra_len: usize,
        ) -> u32;
        pub fn pv_frame_write(
            data: *const u8,
            data_len: usize,
            out: *mut u8,
            out_len: usize,
            extra: *mut u64,
            extra_len: usize,
        ) -> u32;
        pub fn pv_feed(
            held: *mut u8,
            held_len: usize,
            held_count: usize,
            taken: u64,
            mode: u32,
            piece: *const u8,
            piece_len: usize,
            out: *mut u8,
            out_len: usize,
            extra: *mut u64,
            extra_len: usize,
        ) -> u32;
        pub fn pv_1059_metres(raw: i16) -> f32;
        pub fn pv_1230_metres(raw: i16) -> f32;
        pub fn pv_1001_pseudorange(raw: u32, extra: *mut u64, extra_len: usize) -> u32;
        pub fn pv_1001_phase(raw: i32, extra: *mut u64, extra_len: usize) -> u32;
        pub fn pv_signal_of(system: u32, number: u32, extra: *mut u64, extra_len: usize) -> u32;
        pub fn pv_number_of(
            system: u32,
            band: u32,
            letter: u32,
            extra: *mut u64,
            extra_len: usize,
        ) -> u32;
        pub fn pv_signal_order(
            system: u32,
            band_a: u32,
            letter_a: u32,
            band_b: u32,
            letter_b: u32,
            extra: *mut u64,
            extra_len: usize,
        ) -> u32;
    }

    macro_rules! fields {
        ($($read:ident, $write:ident, $value:ty;)+) => {
            extern "C" {
                $(
                    pub fn $read(
                        data: *const u8,
                        data_len: usize,
                        start: usize,
                        width: usize,
                        extra: *mut u64,
                        extra_len: usize,
                    ) -> u32;
                    pub fn $write(
                        data: *mut u8,
                        data_len: usize,
                        start: usize,
                        width: usize,
                        value: $value,
                        extra: *mut u64,
                        extra_len: usize,
                    ) -> u32;
                )+
            }
        };
    }

    fields! {
        pv_field_read_unsigned, pv_field_write_unsigned, u64;
        pv_field_read_twos, pv_field_write_twos, i64;
        pv_field_read_signmag, pv_field_write_signmag, i64;
    }

    macro_rules! blocks {
        ($($read:ident, $write:ident ($($first:ty)?), $($list:ty)+;)+) => {
            extern "C" {
                $(
                    pub fn $read(
                        data: *const u8,
                        data_len: usize,
                        start: usize,
                        $(_: *mut $list, _: usize,)+
                        extra: *mut u64,
                        extra_len: usize,
                    ) -> u32;
                    pub fn $write(
                        $(_: $first,)?
                        data: *mut u8,
                        data_len: usize,
                        start: usize,
                        $(_: *const $list, _: usize,)+
                        extra: *mut u64,
                        extra_len: usize,
                    ) -> u32;
                )+
            }
        };
    }

    // Satellites in 1059 only, then signals and biases. Writing 1059 takes the edition first.
    blocks! {
        pv_1059_read, pv_1059_write (u32), u8 u8 i16;
        pv_1230_read, pv_1230_write (), u8 i16;
    }
}

/// A call's answer: the returned number, and the extra area.
#[derive(Clone, Copy, Debug, PartialEq, Eq)]
pub struct Told {
    pub number: u32,
    pub extra: [u64; EXTRA],
}

impl Told {
    /// Number 0 with these in the extra area, zeros behind them.
    pub fn accepted(values: &[u64]) -> Told {
        Told::of(0, values)
    }

    /// A refusal and what it carries.
    pub fn refused(number: u32, carried: u64) -> Told {
        Told::of(number, &[carried])
    }

    /// Short: where the field starts, and how many of its bits are missing.
    pub fn short(place: u64, missing: u64) -> Told {
        Told::of(SHORT, &[place, missing])
    }

    fn of(number: u32, values: &[u64]) -> Told {
        let mut extra = [0; EXTRA];
        extra[..values.len()].copy_from_slice(values);
        Told { number, extra }
    }

    fn fresh() -> Told {
        Told {
            number: u32::MAX,
            extra: [UNWRITTEN; EXTRA],
        }
    }
}

pub fn crc24q(bytes: &[u8]) -> u32 {
    // SAFETY: the pointer and the length are those of a slice.
    unsafe { raw::pv_crc24q(bytes.as_ptr(), bytes.len()) }
}

/// Calls a function whose last two parameters are the extra area. Every area before it is a slice's pointer and length,
/// and no two of them overlap, since they are borrowed at once.
macro_rules! told {
    ($function:ident($($argument:expr),*)) => {{
        let mut told = Told::fresh();
        // SAFETY: as said above.
        told.number =
            unsafe { raw::$function($($argument,)* told.extra.as_mut_ptr(), told.extra.len()) };
        told
    }};
}

pub fn frame_check(bytes: &[u8]) -> Told {
    told!(pv_frame_check(bytes.as_ptr(), bytes.len()))
}

pub fn frame_write(data: &[u8], out: &mut [u8]) -> Told {
    told!(pv_frame_write(
        data.as_ptr(),
        data.len(),
        out.as_mut_ptr(),
        out.len()
    ))
}

/// A scanner for RTCM only whose first held byte stands at place 0.
pub fn feed(held: &mut [u8], held_count: usize, piece: &[u8], out: &mut [u8]) -> Told {
    feed_in(0, held, held_count, piece, out)
}

/// A scanner of a mode, 0 for RTCM only and 1 for UBX too, whose first held byte stands at place 0.
pub fn feed_in(
    mode: u32,
    held: &mut [u8],
    held_count: usize,
    piece: &[u8],
    out: &mut [u8],
) -> Told {
    told!(pv_feed(
        held.as_mut_ptr(),
        held.len(),
        held_count,
        held_count as u64,
        mode,
        piece.as_ptr(),
        piece.len(),
        out.as_mut_ptr(),
        out.len()
    ))
}

pub fn field_read(reading: Reading, data: &[u8], start: usize, width: usize) -> Told {
    let (area, len) = (data.as_ptr(), data.len());
    match reading {
        Reading::Unsigned => told!(pv_field_read_unsigned(area, len, start, width)),
        Reading::Twos => told!(pv_field_read_twos(area, len, start, width)),
        Reading::SignMagnitude => told!(pv_field_read_signmag(area, len, start, width)),
    }
}

/// Writes the lower 64 bits of the number.
pub fn field_write(
    reading: Reading,
    data: &mut [u8],
    start: usize,
    width: usize,
    value: i128,
) -> Told {
    let (area, len) = (data.as_mut_ptr(), data.len());
    let (plain, signed) = (value as u64, value as i64);
    match reading {
        Reading::Unsigned => told!(pv_field_write_unsigned(area, len, start, width, plain)),
        Reading::Twos => told!(pv_field_write_twos(area, len, start, width, signed)),
        Reading::SignMagnitude => told!(pv_field_write_signmag(area, len, start, width, signed)),
    }
}

/// Three lists of one length, as the 1059 calls take them; the 1230 calls take the last two.
#[derive(Clone, Debug, PartialEq, Eq)]
pub struct Lists {
    pub satellites: Vec<u8>,
    pub signals: Vec<u8>,
    pub biases: Vec<i16>,
}

impl Lists {
    /// Lists that hold nothing that a block could hold.
    pub fn unwritten(len: usize) -> Lists {
        Lists {
            satellites: vec![0xA5; len],
            signals: vec![0x5A; len],
            biases: vec![0x5AA5; len],
        }
    }
}

/// Calls a function over data, a start and some of the lists, each area lent by the named method.
macro_rules! told_of_block {
    ($function:ident($([$edition:expr])? $data:ident.$lent:ident, $start:ident, $lists:ident.$lists_lent:ident: $($list:ident)+)) => {
        told!($function(
            $($edition,)? $data.$lent(), $data.len(), $start, $($lists.$list.$lists_lent(), $lists.$list.len()),+
        ))
    };
}

pub fn read_block(block: Block, data: &[u8], start: usize, lists: &mut Lists) -> Told {
    match block {
        Block::Msg1059 => {
            told_of_block!(pv_1059_read(data.as_ptr, start, lists.as_mut_ptr: satellites signals biases))
        }
        Block::Msg1230 => {
            told_of_block!(pv_1230_read(data.as_ptr, start, lists.as_mut_ptr: signals biases))
        }
    }
}

pub fn write_block(block: Block, data: &mut [u8], start: usize, lists: &Lists) -> Told {
    match block {
        Block::Msg1059 => {
            told_of_block!(pv_1059_write([EDITION] data.as_mut_ptr, start, lists.as_ptr: satellites signals biases))
        }
        Block::Msg1230 => {
            told_of_block!(pv_1230_write(data.as_mut_ptr, start, lists.as_ptr: signals biases))
        }
    }
}

pub fn metres(block: Block, raw: i16) -> f32 {
    // SAFETY: the calls take and return a number.
    match block {
        Block::Msg1059 => unsafe { raw::pv_1059_metres(raw) },
        Block::Msg1230 => unsafe { raw::pv_1230_metres(raw) },
    }
}

pub fn pseudorange(raw: u32) -> Told {
    told!(pv_1001_pseudorange(raw))
}

pub fn phase(raw: i32) -> Told {
    told!(pv_1001_phase(raw))
}

pub fn signal_of(system: u32, number: u32) -> Told {
    told!(pv_signal_of(system, number))
}

pub fn number_of(system: u32, band: u32, letter: u32) -> Told {
    told!(pv_number_of(system, band, letter))
}

pub fn signal_order(system: u32, a: (u32, u32), b: (u32, u32)) -> Told {
    told!(pv_signal_order(system, a.0, a.1, b.0, b.1))
}
