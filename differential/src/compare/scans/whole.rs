//! A whole stream, scanned by repeated frame checks.
use crate::area::{hex, smaller_bytes, Case, Smaller, Verdict};
use crate::pv;
use crate::rust::CHECKED;
use crate::streams::PREAMBLE;
use shapes::{Refused, Scanned};

/// A whole stream, scanned by repeated frame checks.
#[derive(Clone)]
pub struct Stream(pub Vec<u8>);

impl Stream {
    /// The whole-stream scan by our frame check.
    fn scanned(&self) -> Scanned {
        let mut scanned = Scanned::default();
        while scanned.consumed < self.0.len() {
            let rest = &self.0[scanned.consumed..];
            if rest[0] != PREAMBLE {
                scanned.consumed += 1;
                continue;
            }
            let told = pv::frame_check(rest);
            match told.number {
                0 => {
                    let len = told.extra[0] as usize;
                    scanned.frames.push((scanned.consumed, len));
                    scanned.consumed += len;
                }
                pv::BAD_CHECK => scanned.consumed += 1,
                _ => break,
            }
        }
        scanned
    }

    /// What `next_msg_frame` gives first: the frame's place and length, and the bytes consumed.
    fn first(&self) -> Result<Scanned, Refused> {
        let (consumed, frame) = CHECKED.next_frame(&self.0)?;
        let frames = frame.map(|frame| (frame.frame_at, frame.frame_len));
        Ok(Scanned {
            frames: frames.into_iter().collect(),
            consumed,
        })
    }
}

impl Case for Stream {
    fn verdict(&self) -> Verdict {
        let theirs = CHECKED.scan(&self.0);
        let ours = self.scanned();
        if theirs.as_ref() != Ok(&ours) {
            return Verdict::new(true, Some(format!("the Rust {theirs:?}, ours {ours:?}")));
        }
        let has_frame = !ours.frames.is_empty();
        let first = self.first();
        let expected = match ours.frames.first() {
            Some((place, len)) => Scanned {
                frames: vec![(*place, *len)],
                consumed: place + len,
            },
            None => ours,
        };
        let same = first.as_ref() == Ok(&expected);
        let difference = (!same).then(|| format!("next_msg_frame {first:?}, ours {expected:?}"));
        Verdict::new(has_frame, difference)
    }

    fn smaller(&self) -> Smaller<'_, Stream> {
        Box::new(smaller_bytes(&self.0).map(Stream))
    }

    fn show(&self) -> String {
        hex(&self.0)
    }
}
