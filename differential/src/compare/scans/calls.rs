//! One call of the scanner.
use super::scanner::{Scanner, PATTERN};
use crate::area::{hex, smaller_bytes, Case, Smaller, Verdict};
use crate::pv::Told;
use crate::rust::CHECKED;
use crate::streams::PREAMBLE;
use shapes::{Frame, Refused};

/// One call of the scanner from any held bytes.
#[derive(Clone)]
pub struct Call {
    pub held: Vec<u8>,
    pub piece: Vec<u8>,
}

/// What one call must do: the answer, the held bytes and the frame that is copied out.
#[derive(Debug, PartialEq, Eq)]
struct Done {
    told: Told,
    held: Vec<u8>,
    frame: Vec<u8>,
}

impl Done {
    fn show(&self) -> String {
        let (frame, held) = (hex(&self.frame), hex(&self.held));
        format!("{:?}, frame {frame}, held {held}", self.told)
    }
}

/// What `MessageFrame::new` says of the bytes, after the first one that is there is found to be the preamble.
fn judged(bytes: &[u8]) -> Result<Frame, Refused> {
    match bytes.first() {
        Some(first) if *first != PREAMBLE => Err("NotValid"),
        _ => CHECKED.frame(bytes),
    }
}

impl Call {
    /// The call that has the first bytes held and the rest in its piece.
    pub fn cut(bytes: &[u8], held: usize) -> Call {
        let (held, piece) = bytes.split_at(held.min(bytes.len()));
        Call {
            held: held.to_vec(),
            piece: piece.to_vec(),
        }
    }

    /// The call byte by byte, `MessageFrame::new` deciding.
    fn expected(&self) -> Result<Done, Refused> {
        let mut held = self.held.clone();
        let mut front = 0;
        let mut taken = 0;
        loop {
            let frame_len = match judged(&held[front..]) {
                Err("Incomplete") if taken < self.piece.len() => {
                    held.push(self.piece[taken]);
                    taken += 1;
                    continue;
                }
                Err("NotValid") => {
                    front += 1;
                    continue;
                }
                Err("Incomplete") => 0,
                Err(other) => return Err(other),
                Ok(frame) => frame.frame_len,
            };
            let rest = held[front + frame_len..].to_vec();
            let is_frame = frame_len > 0;
            return Ok(Done {
                told: Told::accepted(&[
                    is_frame as u64,
                    taken as u64,
                    front as u64,
                    rest.len() as u64,
                    frame_len as u64,
                    if is_frame { front as u64 } else { 0 },
                    (self.held.len() + taken) as u64,
                ]),
                frame: held[front..front + frame_len].to_vec(),
                held: rest,
            });
        }
    }

    /// Whether `next_msg_frame` over the held bytes and the piece tells of the same frame and place.
    fn agrees(&self, done: &Done) -> bool {
        let joined = [&self.held[..], &self.piece[..]].concat();
        let Ok((consumed, frame)) = CHECKED.next_frame(&joined) else {
            return false;
        };
        let [is_frame, _, skipped, _, frame_len, ..] = done.told.extra;
        let place = consumed - frame.map_or(0, |frame| frame.frame_len);
        frame.is_some() == (is_frame == 1)
            && place == skipped as usize
            && frame.map_or(0, |frame| frame.frame_len) == frame_len as usize
    }

    /// What differs from what the call must do.
    fn difference(&self, done: &Done) -> Option<String> {
        if !self.agrees(done) {
            return Some(format!(
                "next_msg_frame does not agree with {}",
                done.show()
            ));
        }
        let mut scanner = Scanner::new(&self.held);
        let before = scanner.held.clone();
        let told = scanner.feed(&self.piece);
        let (frame, behind) = scanner.out.split_at(done.frame.len());
        let what = if told != done.told {
            "the answer"
        } else if scanner.held() != done.held {
            "the held bytes"
        } else if scanner.held[done.held.len()..] != before[done.held.len()..] {
            "the held area behind the held bytes"
        } else if frame != done.frame || behind.iter().any(|byte| *byte != PATTERN) {
            "the output"
        } else {
            return None;
        };
        let held = hex(scanner.held());
        Some(format!(
            "{what}; the Rust {}; ours {told:?}, held {held}",
            done.show()
        ))
    }
}

impl Case for Call {
    fn verdict(&self) -> Verdict {
        let theirs = self.expected();
        let Ok(done) = &theirs else {
            return Verdict::never(theirs);
        };
        let [is_frame, _, skipped, ..] = done.told.extra;
        Verdict::new(is_frame == 1 || skipped > 0, self.difference(done))
    }

    fn smaller(&self) -> Smaller<'_, Call> {
        let held = smaller_bytes(&self.held).map(|held| Call {
            held,
            piece: self.piece.clone(),
        });
        let piece = smaller_bytes(&self.piece).map(|piece| Call {
            held: self.held.clone(),
            piece,
        });
        Box::new(held.chain(piece))
    }

    fn show(&self) -> String {
        format!("held {}, piece {}", hex(&self.held), hex(&self.piece))
    }
}
