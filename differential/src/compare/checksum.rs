//! The checksum against the stand-in for `crc-any`, which is what the crate's files were built with.
use crate::area::{hex, smaller_bytes, Area, Case, Smaller, Verdict};
use crate::random::Random;
use crate::{pv, rust};

/// Bytes to sum up.
#[derive(Clone)]
struct Sum(Vec<u8>);

impl Case for Sum {
    fn verdict(&self) -> Verdict {
        let (theirs, ours) = (rust::checksum(&self.0), pv::crc24q(&self.0));
        let difference =
            (theirs != ours).then(|| format!("the Rust {theirs:06X}, ours {ours:06X}"));
        Verdict::new(!self.0.is_empty(), difference)
    }

    fn smaller(&self) -> Smaller<'_, Sum> {
        Box::new(smaller_bytes(&self.0).map(Sum))
    }

    fn show(&self) -> String {
        hex(&self.0)
    }
}

/// Lengths around 65,536 and far above it.
const LONG: [usize; 5] = [65_535, 65_536, 65_537, 200_000, 1 << 20];

pub fn run(random: &mut Random) -> Vec<Area> {
    let mut area = Area::new("checksum (crc-any is a stand-in)", 74_000);
    area.compare(&Sum(Vec::new()));
    for number in 0..=u16::MAX {
        let two = number.to_be_bytes();
        area.compare(&Sum(two.to_vec()));
        if number < 256 {
            area.compare(&Sum(two[1..].to_vec()));
        }
    }
    for len in 0..2_100 {
        for _ in 0..4 {
            area.compare(&Sum(random.bytes(len)));
        }
    }
    for len in LONG {
        area.compare(&Sum(random.bytes(len)));
    }
    vec![area]
}
