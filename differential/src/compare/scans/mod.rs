//! `next_msg_frame` and `MsgFrameIter` against repeated frame checks and against feeding in pieces.
mod calls;
mod pieces;
mod scanner;
mod whole;

use crate::area::Area;
use crate::pv;
use crate::random::Random;
use crate::recordings::Recording;
use crate::streams::{any_frame, any_stream, PREAMBLE};
use calls::Call;
use pieces::Pieces;
use whole::Stream;

pub fn run(random: &mut Random, recordings: &[Recording]) -> Vec<Area> {
    let mut whole = Area::new("scan: MsgFrameIter and next_msg_frame", 3_000);
    let mut pieces = Area::new("scan: feeding in pieces", 20_000);
    let mut calls = Area::new("scan: single calls of the scanner", 100_000);
    short(&mut whole, &mut pieces, &mut calls);
    mixed(random, &mut whole, &mut pieces);
    around_limits(random, &mut whole, &mut pieces, &mut calls);
    any_calls(random, &mut calls);
    vec![whole, pieces, calls, recorded(recordings)]
}

/// Compares on the stream, fed in pieces of each of the lists of lengths.
fn in_pieces(pieces: &mut Area, bytes: Vec<u8>, lists: impl IntoIterator<Item = Vec<usize>>) {
    let mut case = Pieces {
        bytes,
        lens: Vec::new(),
    };
    for lens in lists {
        case.lens = lens;
        pieces.compare(&case);
    }
}

/// All strings of up to eight bytes out of those of the frame without data.
fn short(whole: &mut Area, pieces: &mut Area, calls: &mut Area) {
    const ALPHABET: [u8; 5] = [0x00, 0x47, 0xEA, 0x4B, PREAMBLE];
    for len in 0..=8u32 {
        for number in 0..5usize.pow(len) {
            let byte = |place: u32| ALPHABET[number / 5usize.pow(place) % 5];
            let bytes: Vec<u8> = (0..len).map(byte).collect();
            whole.compare(&Stream(bytes.clone()));
            calls.compare(&Call::cut(&bytes, number % 9));
            in_pieces(pieces, bytes, [vec![1 + number % 3]]);
        }
    }
}

/// Streams of good and damaged frames and noise, and all-preamble streams, in pieces of many lengths.
fn mixed(random: &mut Random, whole: &mut Area, pieces: &mut Area) {
    for _ in 0..4_000 {
        let len = random.below(3_000);
        let bytes = any_stream(random, len);
        whole.compare(&Stream(bytes.clone()));
        let some: Vec<usize> = (0..5).map(|_| random.within(1, 1_200)).collect();
        let lens = [1, 7, 100, 1_460, pv::PIECE].map(|len| vec![len]);
        in_pieces(pieces, bytes, lens.into_iter().chain([some]));
    }
    for len in [1, 6, 984, 985, 986, 1_028, 1_029, 1_030, 3_000] {
        let bytes = vec![PREAMBLE; len];
        whole.compare(&Stream(bytes.clone()));
        in_pieces(pieces, bytes, [1, 1_000, pv::PIECE].map(|len| vec![len]));
    }
}

/// The longest frames, false beginnings before them, and pieces of the greatest length.
fn around_limits(random: &mut Random, whole: &mut Area, pieces: &mut Area, calls: &mut Area) {
    for len in 1_015..=pv::DATA {
        for before in 0..8 {
            let false_start = [PREAMBLE, 3, 0xFF, PREAMBLE, 0, 7, 0, 0];
            let frame = any_frame(random, len);
            let bytes = [&false_start[..before], &frame[..], &false_start].concat();
            for held in [0, 1, 1_027, 1_028, 1_029] {
                calls.compare(&Call::cut(&bytes, held));
            }
            let lens = [1, 1_028, 1_029, pv::PIECE].map(|len| vec![len]);
            in_pieces(pieces, bytes, lens);
        }
    }
    for _ in 0..20 {
        let bytes = any_stream(random, 2 * pv::PIECE);
        whole.compare(&Stream(bytes.clone()));
        in_pieces(pieces, bytes, [vec![pv::PIECE, pv::PIECE - 1]]);
    }
}

/// Single calls from held bytes that may be anything, in any number that the held area has.
fn any_calls(random: &mut Random, calls: &mut Area) {
    for round in 0..60_000 {
        let count = match round % 3 {
            0 => random.below(20),
            1 => random.below(pv::HELD + 1),
            _ => random.pick(&[0, 1, 5, 6, 7, 1_027, 1_028, 1_029]),
        };
        let mut held = any_stream(random, count);
        held.truncate(count);
        let len = random.below(40) * random.below(40);
        let piece = any_stream(random, len);
        calls.compare(&Call { held, piece });
    }
}

/// The real recordings, each whole and in pieces. A missing one leaves the area below its least number.
fn recorded(recordings: &[Recording]) -> Area {
    let mut area = Area::new("scan: recordings", 4 * Recording::NAMES.len() as u64);
    for recording in recordings {
        let Some(bytes) = recording.bytes() else {
            println!("  the recording {} is missing", recording.name);
            continue;
        };
        area.compare(&Stream(bytes.clone()));
        let lens = [vec![1], vec![7, 100, 1_460], vec![pv::PIECE]];
        in_pieces(&mut area, bytes, lens);
    }
    area
}
