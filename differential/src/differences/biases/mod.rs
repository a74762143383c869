//! Entries on the bias blocks, and the reads and writes of a block that they are made of.
pub mod msg1059;
pub mod msg1230;

use super::{refusal, Entry};
use crate::area::hex;
use crate::blocks::{self, Raw};
use crate::pv::{self, Lists};
use crate::rust::Build;
use shapes::{Bias, Block, Refused};

fn read_in_words(records: usize, end: usize) -> String {
    match records {
        1 => format!("1 record, end bit {end}"),
        _ => format!("{records} records, end bit {end}"),
    }
}

/// What a build reads at bit 0.
fn their_read(build: &Build, block: Block, data: &[u8]) -> String {
    let (records, end) = build.read_block(block, data, 0);
    records.map_or_else(str::to_string, |records| read_in_words(records.len(), end))
}

/// What ours reads at bit 0.
fn our_read(block: Block, data: &[u8]) -> String {
    let told = pv::read_block(block, data, 0, &mut Lists::unwritten(pv::RECORDS_1059));
    let [records, end, ..] = told.extra.map(|number| number as usize);
    refusal(&told).unwrap_or(read_in_words(records, end))
}

/// The biases that a build reads at bit 0, each with its signal.
fn their_biases(build: &Build, block: Block, data: &[u8]) -> String {
    let (records, _) = build.read_block(block, data, 0);
    let words = |record: &Bias| format!("{}{} {} m", record.band, record.letter, record.metres);
    let joined = |records: Vec<Bias>| records.iter().map(words).collect::<Vec<_>>().join(", ");
    records.map_or_else(str::to_string, joined)
}

/// The biases that ours reads at bit 0, each with its signal's number.
fn our_biases(block: Block, data: &[u8]) -> String {
    let mut lists = Lists::unwritten(pv::RECORDS_1059);
    let told = pv::read_block(block, data, 0, &mut lists);
    let words = |i: usize| {
        let metres = pv::metres(block, lists.biases[i]);
        format!("signal {} {metres} m", lists.signals[i])
    };
    let count = told.extra[0] as usize;
    refusal(&told).unwrap_or_else(|| (0..count).map(words).collect::<Vec<_>>().join(", "))
}

/// Writes at a bit of zero bytes, and how an entry asks for them.
struct Write<'a> {
    block: Block,
    zeros: usize,
    start: usize,
    asked: &'a str,
}

fn write(block: Block, zeros: usize, asked: &str) -> Write<'_> {
    write_at(block, zeros, 0, asked)
}

fn write_at(block: Block, zeros: usize, start: usize, asked: &str) -> Write<'_> {
    Write {
        block,
        zeros,
        start,
        asked,
    }
}

impl Write<'_> {
    /// A build's answer, and what it left.
    fn by(&self, build: &Build, records: &[Bias]) -> (Result<usize, Refused>, Vec<u8>) {
        let mut data = vec![0; self.zeros];
        let answer = build.write_block(self.block, &mut data, self.start, records);
        (answer, data)
    }

    /// Adds what the builds write.
    fn theirs(&self, entry: &mut Entry, records: &[Bias]) {
        entry.builds(self.asked, |build| {
            let (answer, left) = self.by(build, records);
            written_in_words(answer.map_err(str::to_string), &left)
        });
    }

    /// Adds what ours writes.
    fn ours(&self, entry: &mut Entry, list: &[Raw]) {
        let mut left = vec![0; self.zeros];
        let lists = blocks::lists(list);
        let told = pv::write_block(self.block, &mut left, self.start, &lists);
        let answer = refusal(&told).map_or(Ok(told.extra[0] as usize), Err);
        entry.ours(self.asked, written_in_words(answer, &left));
    }

    /// Adds what the builds and ours write. Signals must be assigned.
    fn both(&self, entry: &mut Entry, list: &[Raw]) {
        self.theirs(entry, &blocks::in_metres(self.block, list));
        self.ours(entry, list);
    }

    /// Adds the end bits alone, for blocks that are too long to show.
    fn ends(&self, entry: &mut Entry, list: &[Raw]) {
        let accepted = |end: usize| format!("accepted, end bit {end}");
        let records = blocks::in_metres(self.block, list);
        entry.builds(self.asked, |build| {
            let (answer, _) = self.by(build, &records);
            answer.map_or_else(str::to_string, accepted)
        });
        let mut left = vec![0; self.zeros];
        let lists = blocks::lists(list);
        let told = pv::write_block(self.block, &mut left, self.start, &lists);
        let answer = refusal(&told).map_or(Ok(told.extra[0] as usize), Err);
        let is = answer.map_or_else(|why| written_in_words(Err(why), &left), accepted);
        entry.ours(self.asked, is);
    }
}

/// What a write over zero bytes left, or the refusal and what it left.
fn written_in_words(answer: Result<usize, String>, left: &[u8]) -> String {
    match answer {
        Ok(end) => format!("{}, end bit {end}", hex(left)),
        Err(refusal) if left.iter().all(|byte| *byte == 0) => format!("{refusal}, nothing written"),
        Err(refusal) => format!("{refusal}, yet {} written", hex(left)),
    }
}
