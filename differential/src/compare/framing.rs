//! Framing against `MessageBuilder`, over data bytes that begin with a message number that the builder was given.
use crate::area::{hex, smaller_bytes, Area, Case, Smaller, Verdict};
use crate::pv::{self, Told};
use crate::random::Random;
use crate::rust::CHECKED;

/// The two message numbers that the crate was built with.
const NUMBERS: [u16; 2] = [1059, 1230];

/// Data bytes: the number, then any bits.
#[derive(Clone)]
struct Data {
    number: u16,
    half: u8,
    bytes: Vec<u8>,
}

impl Data {
    fn data(&self) -> Vec<u8> {
        let first = self.number << 4 | u16::from(self.half & 0xF);
        [&first.to_be_bytes(), &self.bytes[..]].concat()
    }
}

impl Case for Data {
    fn verdict(&self) -> Verdict {
        let theirs = CHECKED.build_message(self.number, self.half & 0xF, &self.bytes);
        let Ok(theirs) = theirs else {
            return Verdict::never(theirs);
        };
        let mut out = vec![0xA5; theirs.len() + 9];
        let told = pv::frame_write(&self.data(), &mut out);
        let (written, behind) = out.split_at(theirs.len());
        let same = told == Told::accepted(&[theirs.len() as u64])
            && written == theirs
            && behind.iter().all(|byte| *byte == 0xA5);
        let difference =
            (!same).then(|| format!("the Rust {}, ours {} {told:?}", hex(&theirs), hex(&out)));
        Verdict::new(true, difference)
    }

    fn smaller(&self) -> Smaller<'_, Data> {
        let with = |bytes| Data {
            bytes,
            ..self.clone()
        };
        Box::new(smaller_bytes(&self.bytes).map(with))
    }

    fn show(&self) -> String {
        hex(&self.data())
    }
}

pub fn run(random: &mut Random) -> Vec<Area> {
    let mut area = Area::new("framing: data of 1059 and 1230, every length", 8_000);
    for len in 0..=pv::DATA - 2 {
        for number in NUMBERS {
            for _ in 0..4 {
                let (half, bytes) = (random.byte(), random.bytes(len));
                area.compare(&Data {
                    number,
                    half,
                    bytes,
                });
            }
        }
    }
    vec![area]
}
