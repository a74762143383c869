//! The frame check against `MessageFrame::new`.
use crate::area::{hex, smaller_bytes, Area, Case, Smaller, Verdict};
use crate::pv::{self, Told};
use crate::random::Random;
use crate::rust::CHECKED;
use crate::streams::{any_frame, damaged, framed, PREAMBLE};
use shapes::{Frame, Refused};

/// Bytes that both sides are asked to check. Any bytes are in the domain.
#[derive(Clone)]
struct Bytes(Vec<u8>);

impl Case for Bytes {
    fn verdict(&self) -> Verdict {
        let theirs = CHECKED.frame(&self.0);
        let Some(expected) = expected(&theirs) else {
            return Verdict::never(theirs);
        };
        let ours = as_the_rust(pv::frame_check(&self.0));
        let difference = (ours != expected).then(|| format!("the Rust {theirs:?}, ours {ours:?}"));
        let has_header = self.0.len() >= 6 && self.0[0] == PREAMBLE;
        Verdict::new(has_header, difference)
    }

    fn smaller(&self) -> Smaller<'_, Bytes> {
        Box::new(smaller_bytes(&self.0).map(Bytes))
    }

    fn show(&self) -> String {
        hex(&self.0)
    }
}

/// The Rust has one name for a byte that is no preamble and for a checksum that differs.
fn as_the_rust(told: Told) -> Told {
    match told.number {
        pv::BAD_CHECK => Told::refused(pv::NO_PREAMBLE, 0),
        _ => told,
    }
}

/// What the frame check must answer where the crate answers this, or nothing if nothing would be right.
///
/// Where the data are shorter than two bytes the message number is outside the domain: there is none.
fn expected(theirs: &Result<Frame, Refused>) -> Option<Told> {
    match theirs {
        Err("Incomplete") => Some(Told::refused(pv::INCOMPLETE, 0)),
        Err("NotValid") => Some(Told::refused(pv::NO_PREAMBLE, 0)),
        Err(_) => None,
        Ok(frame) if frame.frame_at != 0 || frame.data_at != 3 => None,
        Ok(frame) => {
            let number = frame.number.filter(|_| frame.data_len >= 2);
            Some(Told::accepted(&[
                frame.frame_len as u64,
                frame.data_len as u64,
                number.is_some() as u64,
                number.unwrap_or(0) as u64,
                frame.crc as u64,
            ]))
        }
    }
}

pub fn run(random: &mut Random) -> Vec<Area> {
    vec![
        short(random),
        empty_frames(random),
        headers(random),
        numbers(random),
        every_length(random),
        long(random),
    ]
}

/// All bytes up to two, and any first two bytes in up to nine.
fn short(random: &mut Random) -> Area {
    let mut area = Area::new("frame check: short bytes", 1_000);
    area.compare(&Bytes(Vec::new()));
    for first in 0..=255 {
        area.compare(&Bytes(vec![first]));
        for second in 0..=255 {
            for len in 2..10 {
                let mut bytes = random.bytes(len);
                bytes[..2].copy_from_slice(&[first, second]);
                area.compare(&Bytes(bytes));
            }
        }
    }
    area
}

/// The frame without data under its own checksum, under all that differ from it in one or two bits, and under others.
fn empty_frames(random: &mut Random) -> Area {
    let mut area = Area::new("frame check: no data, other checksums", 20_000);
    let mut case = Bytes(framed(&[], 0));
    let own = u32::from_be_bytes([0, case.0[3], case.0[4], case.0[5]]);
    let mut compare = |sum: u32| {
        case.0[3..].copy_from_slice(&sum.to_be_bytes()[1..]);
        area.compare(&case);
    };
    for (first, second) in (0..24).flat_map(|first| (0..24).map(move |second| (first, second))) {
        compare(own ^ 1 << first ^ 1 << second);
        compare(own ^ 1 << first);
    }
    for _ in 0..20_000 {
        compare(random.next() as u32 >> 8);
    }
    area
}

/// Every second and third byte, in six bytes, in a whole frame, in one cut short by a byte and in a damaged one.
fn headers(random: &mut Random) -> Area {
    let mut area = Area::new("frame check: every header", 260_000);
    for header in 0..=u16::MAX {
        let [reserved, low] = header.to_be_bytes();
        let six = random.bytes(3);
        area.compare(&Bytes([&[PREAMBLE, reserved, low], &six[..]].concat()));
        let data = random.bytes((header & 0x3FF) as usize);
        let whole = framed(&data, reserved);
        area.compare(&Bytes(whole[..whole.len() - 1].to_vec()));
        area.compare(&Bytes(damaged(random, &whole)));
        area.compare(&Bytes(whole));
    }
    area
}

/// Every two data bytes, with bytes behind the frame and without, and every single data byte.
fn numbers(random: &mut Random) -> Area {
    let mut area = Area::new("frame check: every message number", 260_000);
    for number in 0..=u16::MAX {
        let data = number.to_be_bytes();
        for data in [&data[..], &data[1..]] {
            let mut bytes = framed(data, 0);
            area.compare(&Bytes(bytes.clone()));
            bytes.push(random.byte());
            area.compare(&Bytes(bytes));
        }
    }
    area
}

/// Every length of data: as it is, cut, followed by more, and damaged.
fn every_length(random: &mut Random) -> Area {
    let mut area = Area::new("frame check: every length, damaged copies", 140_000);
    for len in 0..1_024 {
        for _ in 0..8 {
            let frame = any_frame(random, len);
            let behind = random.within(1, 9);
            let followed = [frame.clone(), random.bytes(behind)].concat();
            for cut in [0, 5, 6, len + 3, len + 5, len + 6, len + 7] {
                let cut = cut.min(followed.len());
                area.compare(&Bytes(followed[..cut].to_vec()));
            }
            for _ in 0..12 {
                area.compare(&Bytes(damaged(random, &followed)));
            }
            area.compare(&Bytes(followed));
        }
    }
    area
}

/// Good, cut and damaged frames at the start of far more bytes than a frame, a piece or a data area has.
fn long(random: &mut Random) -> Area {
    let mut area = Area::new("frame check: over 65,536 bytes", 100);
    for total in [65_535, 65_536, 65_537, 70_000, 200_000, 1 << 20] {
        for len in [0, 1, 2, 255, 256, 1_022, 1_023] {
            let frame = any_frame(random, len);
            let damage = damaged(random, &frame);
            for first in [frame, damage, vec![PREAMBLE, 0xFF, 0xFF], vec![0; 6]] {
                let behind = random.bytes(total - first.len());
                area.compare(&Bytes([first, behind].concat()));
            }
        }
    }
    area
}
