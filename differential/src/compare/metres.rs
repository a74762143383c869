//! The reading in metres, in bits, over all raw numbers, against what the crate's block readers give.
use crate::area::{Area, Case, Verdict};
use crate::{blocks, pv};
use shapes::{Block, Refused};

/// A raw bias, and what the crate gives for it.
#[derive(Clone)]
struct Metres {
    block: Block,
    bias: i16,
    theirs: Option<f32>,
}

impl Case for Metres {
    fn verdict(&self) -> Verdict {
        let ours = pv::metres(self.block, self.bias);
        let same = self.theirs.map(f32::to_bits) == Some(ours.to_bits());
        let difference = (!same).then(|| format!("the Rust {:?}, ours {ours:?}", self.theirs));
        Verdict::new(true, difference)
    }

    fn show(&self) -> String {
        format!("{:?} bias {}", self.block, self.bias)
    }
}

/// What the library tells of a length: absent, or metres.
const ABSENT: u64 = 0;
const METRES: u64 = 2;

/// A raw length of message 1001, what the library tells of it, and what the crate gives.
#[derive(Clone)]
struct Length {
    raw: i64,
    ours: pv::Told,
    theirs: Result<Option<f64>, Refused>,
}

impl Case for Length {
    fn verdict(&self) -> Verdict {
        let told = match self.theirs {
            Ok(None) => [ABSENT, 0],
            Ok(Some(metres)) => [METRES, metres.to_bits()],
            Err(_) => [u64::MAX; 2],
        };
        let same = self.ours.extra[..2] == told;
        let difference =
            (!same).then(|| format!("the Rust {:?}, ours {:?}", self.theirs, self.ours));
        Verdict::new(true, difference)
    }

    fn show(&self) -> String {
        format!("the raw length {}", self.raw)
    }
}

/// Both lengths of message 1001, over all numbers of 24 and of 20 bits.
fn run_1001() -> Vec<Area> {
    let mut ranges = Area::new("metres: 1001, all pseudoranges", 1 << 24);
    let mut phases = Area::new("metres: 1001, all phase ranges", 1 << 20);
    for raw in 0..1u32 << 24 {
        ranges.compare(&Length {
            raw: raw.into(),
            ours: pv::pseudorange(raw),
            theirs: rtcm_checked::calls::pseudorange(&raw.to_be_bytes()[1..]),
        });
    }
    for raw in -(1i32 << 19)..1 << 19 {
        phases.compare(&Length {
            raw: raw.into(),
            ours: pv::phase(raw),
            theirs: rtcm_checked::calls::phase(&(raw << 12).to_be_bytes()),
        });
    }
    vec![ranges, phases]
}

pub fn run() -> Vec<Area> {
    let mut area_1059 = Area::new("metres: 1059, all 14-bit numbers", 1 << 14);
    let mut area_1230 = Area::new("metres: 1230, all 16-bit numbers", 1 << 16);
    let mut beyond = Area::new("metres: 1059, the other 16-bit numbers", 49_152);
    let read = |block, bias| Metres {
        block,
        bias,
        theirs: blocks::their_metres(block, bias),
    };
    // No 14 bits hold these, so the crate's own expression stands in for its reader.
    let computed = |block: Block, bias| Metres {
        block,
        bias,
        theirs: Some(bias as f32 * block.unit()),
    };
    for bias in i16::MIN..=i16::MAX {
        area_1230.compare(&read(Block::Msg1230, bias));
        if blocks::biases(Block::Msg1059).contains(&bias) {
            area_1059.compare(&read(Block::Msg1059, bias));
        } else {
            beyond.compare(&computed(Block::Msg1059, bias));
        }
    }
    let mut areas = vec![area_1059, area_1230, beyond];
    areas.extend(run_1001());
    areas
}
