//! A whole stream, fed in pieces.
use super::scanner::Scanner;
use crate::area::{hex, smaller_bytes, Case, Smaller, Verdict};
use crate::rust::CHECKED;
use shapes::Refused;

/// A whole stream, fed in pieces whose lengths repeat.
#[derive(Clone)]
pub struct Pieces {
    pub bytes: Vec<u8>,
    pub lens: Vec<usize>,
}

/// What feeding a whole stream gave.
#[derive(Debug, Default, PartialEq, Eq)]
struct Fed {
    frames: Vec<Vec<u8>>,
    skipped: usize,
    held: Vec<u8>,
}

impl Fed {
    fn show(&self) -> String {
        let frames = self.frames.iter().map(|frame| format!("[{}]", hex(frame)));
        let frames = frames.collect::<Vec<_>>().join(", ");
        let held = hex(&self.held);
        format!("frames {frames}, {} skipped, held {held}", self.skipped)
    }
}

impl Pieces {
    /// What feeding must give: the frames of `MsgFrameIter`, and the rest from where it stopped.
    fn expected(&self) -> Result<Fed, Refused> {
        let scanned = CHECKED.scan(&self.bytes)?;
        let frame = |(place, len): &(usize, usize)| self.bytes[*place..place + len].to_vec();
        let frames: Vec<Vec<u8>> = scanned.frames.iter().map(frame).collect();
        let in_frames: usize = frames.iter().map(Vec::len).sum();
        Ok(Fed {
            frames,
            skipped: scanned.consumed - in_frames,
            held: self.bytes[scanned.consumed..].to_vec(),
        })
    }

    /// Feeds the stream, what is left of each piece until More. Nothing where a call refused, took more than it was
    /// lent or answered More with bytes left.
    fn fed(&self) -> Option<Fed> {
        let mut scanner = Scanner::new(&[]);
        let mut fed = Fed::default();
        let mut place = 0;
        for len in self.lens.iter().cycle() {
            let end = (place + len).min(self.bytes.len());
            loop {
                let told = scanner.feed(&self.bytes[place..end]);
                let [is_frame, taken, skipped, _, frame_len, ..] = told.extra;
                if told.number != 0 || taken as usize > end - place {
                    return None;
                }
                place += taken as usize;
                fed.skipped += skipped as usize;
                if is_frame == 0 {
                    break;
                }
                fed.frames
                    .push(scanner.out.get(..frame_len as usize)?.to_vec());
                if fed.frames.len() > self.bytes.len() {
                    return None;
                }
            }
            if place != end {
                return None;
            }
            if place == self.bytes.len() {
                break;
            }
        }
        fed.held = scanner.held().to_vec();
        Some(fed)
    }
}

impl Case for Pieces {
    fn verdict(&self) -> Verdict {
        let theirs = self.expected();
        let ours = self.fed();
        let Ok(theirs) = theirs else {
            return Verdict::never(theirs);
        };
        let Some(ours) = ours else {
            let what = "ours refused, or did not take the whole piece";
            return Verdict::new(true, Some(what.to_string()));
        };
        let difference =
            (theirs != ours).then(|| format!("the Rust {}, ours {}", theirs.show(), ours.show()));
        Verdict::new(!theirs.frames.is_empty(), difference)
    }

    fn smaller(&self) -> Smaller<'_, Pieces> {
        let bytes = smaller_bytes(&self.bytes).map(|bytes| Pieces {
            bytes,
            lens: self.lens.clone(),
        });
        let fewer_lens = self.lens.iter().filter(|_| self.lens.len() > 1);
        let lens = fewer_lens.map(|len| Pieces {
            bytes: self.bytes.clone(),
            lens: vec![*len],
        });
        Box::new(lens.chain(bytes))
    }

    fn show(&self) -> String {
        format!("{} in pieces of {:?}", hex(&self.bytes), self.lens)
    }
}
