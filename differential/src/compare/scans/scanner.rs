//! A scanner over pieces as a caller has it.
use crate::pv::{self, Told};

/// A scanner's lent areas. What the calls may not write is filled with a pattern.
pub struct Scanner {
    pub held: Vec<u8>,
    held_count: usize,
    pub out: Vec<u8>,
}

/// Output bytes behind the longest frame.
const BEHIND: usize = 3;
pub const PATTERN: u8 = 0x5A;

impl Scanner {
    pub fn new(held: &[u8]) -> Scanner {
        let mut area = vec![PATTERN; pv::HELD];
        area[..held.len()].copy_from_slice(held);
        Scanner {
            held: area,
            held_count: held.len(),
            out: vec![PATTERN; pv::HELD + BEHIND],
        }
    }

    pub fn feed(&mut self, piece: &[u8]) -> Told {
        let told = pv::feed(&mut self.held, self.held_count, piece, &mut self.out);
        if told.number == 0 {
            self.held_count = (told.extra[3] as usize).min(pv::HELD);
        }
        told
    }

    pub fn held(&self) -> &[u8] {
        &self.held[..self.held_count]
    }
}
