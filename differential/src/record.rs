//! Writes a fixed list of the crate's answers, to be replayed where there is no Rust. README.md describes the format.
use crate::blocks::{self, Raw};
use crate::compare::{any_value, SYSTEMS};
use crate::pv;
use crate::random::Random;
use crate::rust::{self, CHECKED};
use crate::streams::{any_frame, any_len, any_stream, damaged, framed, PREAMBLE};
use shapes::{Block, FieldType, Refused, READINGS};
use std::cmp::Ordering;
use std::io::Write;
use std::path::Path;

// The kinds of records; those of fields in the order of `READINGS`.
pub const LAST: u8 = 0x00;
pub const FRAME: u8 = 0x01;
pub const SCAN: u8 = 0x02;
pub const FIELD_READ: [u8; 3] = [0x03, 0x04, 0x05];
pub const FIELD_WRITE: [u8; 3] = [0x06, 0x07, 0x08];
pub const READ_1059: u8 = 0x09;
pub const WRITE_1059: u8 = 0x0A;
pub const READ_1230: u8 = 0x0B;
pub const WRITE_1230: u8 = 0x0C;
pub const SIGNAL_OF: u8 = 0x0D;
pub const NUMBER_OF: u8 = 0x0E;
pub const ORDER: u8 = 0x0F;
pub const METRES_1059: u8 = 0x10;
pub const METRES_1230: u8 = 0x11;

/// Bytes that the longest record may have.
const LONGEST: usize = 4_096;

/// A record in the making.
struct Record {
    bytes: Vec<u8>,
}

impl Record {
    fn new(kind: u8) -> Record {
        Record { bytes: vec![kind] }
    }

    fn one(&mut self, number: u8) -> &mut Record {
        self.bytes.push(number);
        self
    }

    /// A number in two bytes. What is recorded stays below 65,536.
    fn two(&mut self, number: usize) -> &mut Record {
        let number = u16::try_from(number).expect("a number of two bytes");
        self.plain(&number.to_be_bytes())
    }

    fn plain(&mut self, bytes: &[u8]) -> &mut Record {
        self.bytes.extend_from_slice(bytes);
        self
    }

    fn area(&mut self, bytes: &[u8]) -> &mut Record {
        self.two(bytes.len()).plain(bytes)
    }

    fn refused(&mut self, number: u32, carried: usize) -> &mut Record {
        self.one(number as u8).two(carried)
    }

    fn list(&mut self, list: &[Raw]) -> &mut Record {
        for (satellite, signal, bias) in list {
            self.plain(&[*satellite, *signal])
                .plain(&bias.to_be_bytes());
        }
        self
    }
}

/// The list that is written.
struct List {
    lines: Vec<String>,
}

impl List {
    fn add(&mut self, record: &Record) {
        assert!(record.bytes.len() <= LONGEST, "a record that is too long");
        let digits = record.bytes.iter().map(|byte| format!("{byte:02x}"));
        self.lines.push(digits.collect());
    }
}

/// Writes the list of that seed to the file.
pub fn run(file: &Path, seed: u64) -> std::io::Result<()> {
    let mut list = List { lines: Vec::new() };
    let random = &mut Random::new(seed);
    frames(&mut list, random);
    scans(&mut list, random);
    fields(&mut list, random);
    blocks_1059(&mut list, random);
    blocks_1230(&mut list, random);
    tables(&mut list, random);
    metres(&mut list, random);
    let count = list.lines.len() as u32;
    list.add(Record::new(LAST).plain(&count.to_be_bytes()));
    let mut out = std::fs::File::create(file)?;
    for line in &list.lines {
        writeln!(out, "{line}")?;
    }
    println!(
        "{count} answers of the Rust in {}, seed {seed}",
        file.display()
    );
    Ok(())
}

/// An answer that no input of the domain may have.
fn never(refused: Refused) -> ! {
    panic!("the Rust answers {refused} inside the domain")
}

fn frames(list: &mut List, random: &mut Random) {
    let mut inputs = vec![
        Vec::new(),
        vec![PREAMBLE],
        framed(&[], 0),
        framed(&[0, 0], 0xFC),
    ];
    for len in [1, 2, 3, 255, 256, 511, 512, 1_022, 1_023] {
        inputs.push(any_frame(random, len));
    }
    for _ in 0..150 {
        let len = random.below(24);
        let frame = any_frame(random, len);
        let behind = random.below(5);
        let followed = [frame.clone(), random.bytes(behind)].concat();
        inputs.push(frame[..random.below(frame.len())].to_vec());
        inputs.push(damaged(random, &followed));
        inputs.push(followed);
    }
    for bytes in inputs {
        let mut record = Record::new(FRAME);
        record.area(&bytes);
        match CHECKED.frame(&bytes) {
            Ok(frame) => {
                let number = frame.number.filter(|_| frame.data_len >= 2);
                record.one(0).two(frame.frame_len).two(frame.data_len);
                record.one(number.is_some() as u8);
                record.two(number.unwrap_or(0) as usize);
                record.plain(&frame.crc.to_be_bytes()[1..])
            }
            Err("Incomplete") => record.refused(pv::INCOMPLETE, 0),
            Err("NotValid") => record.refused(pv::NO_PREAMBLE, 0),
            Err(other) => never(other),
        };
        list.add(&record);
    }
}

fn scans(list: &mut List, random: &mut Random) {
    let mut inputs = vec![
        Vec::new(),
        [vec![PREAMBLE, 0, 0], framed(&[], 0)].concat(),
        [vec![PREAMBLE], framed(&[], 0)].concat(),
        vec![PREAMBLE; 1_200],
    ];
    for _ in 0..4 {
        let len = any_len(random);
        inputs.push([any_frame(random, len), any_frame(random, 20)].concat());
    }
    for _ in 0..250 {
        let len = random.below(150);
        let mut stream = any_stream(random, len);
        stream.truncate(200);
        inputs.push(stream);
    }
    for stream in inputs {
        let scanned = CHECKED
            .scan(&stream)
            .unwrap_or_else(|refused| never(refused));
        let mut record = Record::new(SCAN);
        record.area(&stream).two(scanned.frames.len());
        for (place, len) in scanned.frames {
            record.two(place).two(len);
        }
        record.two(scanned.consumed);
        list.add(&record);
    }
}

fn fields(list: &mut List, random: &mut Random) {
    for (width, kind) in (1..=64usize).flat_map(|width| [0, 1, 2].map(|kind| (width, kind))) {
        let reading = READINGS[kind];
        let bits = 64;
        let field = FieldType { reading, bits };
        for round in 0..4 {
            let len = random.within(width.div_ceil(8), 12);
            let data = random.bytes(len);
            let last = 8 * len - width;
            let start = match round {
                0 => random.within(last, last + 2),
                1 if width % 8 == 0 => random.below(65_536),
                _ => random.within(0, last),
            };
            let mut record = Record::new(FIELD_READ[kind]);
            record.two(start).one(width as u8).area(&data);
            match CHECKED.parse(field, &data, start, width) {
                Ok((value, _)) => record.one(0).plain(&(value as u64).to_be_bytes()),
                Err("BufferOverflow") => record.refused(pv::SHORT, start),
                Err(other) => never(other),
            };
            list.add(&record);

            let value = any_value(random, reading, width);
            let mut record = Record::new(FIELD_WRITE[kind]);
            record.two(start).one(width as u8);
            record.plain(&(value as u64).to_be_bytes()).area(&data);
            let mut after = data;
            match CHECKED.put(field, &mut after, start, width, value) {
                Ok(end) => record.one(0).two(end).plain(&after),
                Err("BufferOverflow") => record.refused(pv::ROOM, width),
                Err(other) => never(other),
            };
            list.add(&record);
        }
    }
}

/// The kinds of a block's records: read, write, metres.
fn kinds(block: Block) -> (u8, u8, u8) {
    match block {
        Block::Msg1059 => (READ_1059, WRITE_1059, METRES_1059),
        Block::Msg1230 => (READ_1230, WRITE_1230, METRES_1230),
    }
}

fn blocks_1059(list: &mut List, random: &mut Random) {
    let mut lists: Vec<Vec<Raw>> = vec![Vec::new(), vec![(5, 0, 100)], vec![(63, 15, -8192)]];
    lists.push((0..390).map(|i| ((i / 31) as u8, 0, i as i16)).collect());
    lists.push((0..63).rev().map(|i| (i, 14, -(i as i16))).collect());
    while lists.len() < 250 {
        let mut list = blocks::any_list_1059(random);
        list.truncate(12);
        lists.push(list);
    }
    for raw in lists {
        let start = random.below(if raw.len() > 12 { 9 } else { 60 });
        both_ways(list, random, Block::Msg1059, &raw, start);
    }
}

fn blocks_1230(list: &mut List, random: &mut Random) {
    for round in 0..160 {
        let raw = blocks::any_list_1230(random, round);
        let start = random.below(30);
        both_ways(list, random, Block::Msg1230, &raw, start);
    }
}

/// Writes the raw records, and reads what was written, whole and cut short.
fn both_ways(list: &mut List, random: &mut Random, block: Block, raw: &[Raw], start: usize) {
    let (_, write, _) = kinds(block);
    let spare = random.below(3);
    let len = (start + blocks::bits(block, raw)).div_ceil(8) + spare;
    let mut data = random.bytes(len);
    let mut record = Record::new(write);
    record.two(start).two(raw.len()).list(raw).area(&data);
    match CHECKED.write_block(block, &mut data, start, &blocks::in_metres(block, raw)) {
        Ok(end) => record.one(0).two(end).plain(&data),
        Err(other) => never(other),
    };
    list.add(&record);
    read_block(list, block, &data, start);
    read_block(list, block, &data[..random.below(len)], start);
}

fn read_block(list: &mut List, block: Block, data: &[u8], start: usize) {
    let (read, _, _) = kinds(block);
    let mut record = Record::new(read);
    record.two(start).area(data);
    match CHECKED.read_block(block, data, start) {
        (Ok(records), end) => {
            let raw = blocks::raw(block, &records).expect("raw numbers");
            record.one(0).two(raw.len()).two(end).list(&raw)
        }
        (Err("BufferOverflow"), place) => record.refused(pv::SHORT, place),
        (Err(other), _) => never(other),
    };
    list.add(&record);
}

fn tables(list: &mut List, random: &mut Random) {
    for system in 0..SYSTEMS.len() as u8 {
        let mut signals = Vec::new();
        for number in (0..=33).chain([255]) {
            let found = rust::signal_of(system as u32, number);
            let (band, letter) = found.map_or((0, 0), |(band, letter)| (band, letter as u8));
            let mut record = Record::new(SIGNAL_OF);
            record.plain(&[system, number, found.is_some() as u8, band, letter]);
            list.add(&record);
            signals.extend(found);
        }
        for _ in 0..12 {
            let letter = b'A' + random.below(26) as u8;
            signals.push((random.below(10) as u8, letter as char));
        }
        for (band, letter) in &signals {
            let found = rust::number_of(system as u32, *band, *letter);
            let number = found.unwrap_or(0);
            let mut record = Record::new(NUMBER_OF);
            record.plain(&[system, *band, *letter as u8, found.is_some() as u8, number]);
            list.add(&record);
        }
        for _ in 0..60 {
            let (a, b) = (random.pick(&signals), random.pick(&signals));
            let order = match CHECKED.order(system as u32, a, b).0 {
                Ordering::Less => 0,
                Ordering::Equal => 1,
                Ordering::Greater => 2,
            };
            let mut record = Record::new(ORDER);
            record.plain(&[system, a.0, a.1 as u8, b.0, b.1 as u8, order]);
            list.add(&record);
        }
    }
}

fn metres(list: &mut List, random: &mut Random) {
    for round in 0..400 {
        let bias = match round {
            0..14 => 1 << round,
            14..28 => -1 << (round - 14),
            _ => blocks::any_bias(random, Block::Msg1059),
        };
        metres_of(list, Block::Msg1059, bias.clamp(-8192, 8191));
    }
    for round in 0..400 {
        let bias = match round {
            0..16 => (1u16 << round) as i16,
            _ => blocks::any_bias(random, Block::Msg1230),
        };
        metres_of(list, Block::Msg1230, bias);
    }
}

fn metres_of(list: &mut List, block: Block, bias: i16) {
    let (_, _, kind) = kinds(block);
    let metres = blocks::their_metres(block, bias).unwrap_or_else(|| never("a refusal"));
    let mut record = Record::new(kind);
    record.plain(&bias.to_be_bytes());
    record.plain(&metres.to_bits().to_be_bytes());
    list.add(&record);
}
