//! Times the crate's own calls, as a release build has them, in nanoseconds a call.
//!
//! The names are those of the benchmark's rows. The checksum is that of the stand-in for `crc-any`.
use crate::blocks::{self, Raw};
use crate::random::Random;
use crate::streams::{any_frame, PREAMBLE};
use rtcm_wrapping::calls;
use shapes::{Block, FieldType, Reading};
use std::hint::black_box;
use std::time::Instant;

/// Batches whose median is printed, and how long one of them lasts at least.
const BATCHES: usize = 9;
const BATCH_NS: u128 = 4_000_000;

/// Prints the median time of a call.
fn time(name: &str, mut call: impl FnMut()) {
    let mut calls = 1u32;
    while batch(calls, &mut call) < BATCH_NS {
        calls *= 2;
    }
    let mut times: Vec<u128> = (0..BATCHES).map(|_| batch(calls, &mut call)).collect();
    times.sort_unstable();
    println!("{name}\t{:.1}", times[BATCHES / 2] as f64 / calls as f64);
}

fn batch(calls: u32, call: &mut impl FnMut()) -> u128 {
    let began = Instant::now();
    for _ in 0..calls {
        call();
    }
    began.elapsed().as_nanos()
}

pub fn run() {
    let random = &mut Random::new(1);
    checksums(random);
    fields(random);
    frames(random);
    scans(random);
    bias_blocks(random);
}

fn checksums(random: &mut Random) {
    for len in [20, 100, 1_026] {
        let bytes = random.bytes(len);
        time(&format!("crc24q {len}"), || {
            black_box(calls::checksum(black_box(&bytes)));
        });
    }
}

fn fields(random: &mut Random) {
    let mut data = random.bytes(64);
    let reading = Reading::Unsigned;
    for (width, bits) in [(6, 8), (14, 16), (16, 16), (64, 64)] {
        let field = FieldType { reading, bits };
        time(&format!("field_read {width}"), || {
            let _ = black_box(calls::parse(field, black_box(&data), 13, width));
        });
        time(&format!("field_write {width}"), || {
            let _ = black_box(calls::put(field, black_box(&mut data), 13, width, 1));
        });
    }
}

fn frames(random: &mut Random) {
    for len in [14, 94, 1_023] {
        let frame = any_frame(random, len);
        time(&format!("frame_check {}", frame.len()), || {
            let _ = black_box(calls::frame(black_box(&frame)));
        });
    }
}

/// `MsgFrameIter` over a whole stream of 65,536 bytes: clean, with every tenth frame damaged, noise, and D3 repeated.
fn scans(random: &mut Random) {
    const LEN: usize = 65_536;
    let mut clean = Vec::new();
    while clean.len() < LEN {
        let len = random.below(300);
        clean.extend(any_frame(random, len));
    }
    clean.truncate(LEN);
    let mut damaged = clean.clone();
    for place in (0..LEN).step_by(1_500) {
        damaged[place] ^= 0x40;
    }
    let noise = random.bytes(LEN);
    let hostile = vec![PREAMBLE; LEN];
    for (name, stream) in [
        ("clean", clean),
        ("damaged", damaged),
        ("noise", noise),
        ("hostile", hostile),
    ] {
        time(&format!("scan {name} {LEN}"), || {
            black_box(calls::count_frames(black_box(&stream)));
        });
    }
}

/// The blocks alone: the crate's own list of records is made before, and what is read stays in it.
fn bias_blocks(random: &mut Random) {
    let raw: Vec<Raw> = (0..93)
        .map(|i| blocks::any_record_1059(random, i % 31))
        .collect();
    let list = calls::list_1059(&blocks::in_metres(Block::Msg1059, &raw));
    let mut data = vec![0; 1_023];
    time("1059_write 93", || {
        let _ = black_box(calls::encode_1059(black_box(&mut data), 0, &list));
    });
    time("1059_read 93", || {
        black_box(calls::count_1059(black_box(&data), 0));
    });
    let raw = blocks::any_list_1230(random, 0b1111);
    let list = calls::list_1230(&blocks::in_metres(Block::Msg1230, &raw));
    let mut data = vec![0; 16];
    time("1230_write 4", || {
        let _ = black_box(calls::encode_1230(black_box(&mut data), 0, &list));
    });
    time("1230_read 4", || {
        black_box(calls::count_1230(black_box(&data), 0));
    });
}
