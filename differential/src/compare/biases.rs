//! The bias blocks both ways, against `df_msg1059_biases.rs` and `df_msg1230_biases.rs`.
use super::between_writes;
use crate::area::{hex, Area, Case, Place, Smaller, Verdict};
use crate::blocks::{self, Raw};
use crate::pv::{self, Lists, Told};
use crate::random::Random;
use crate::rust::CHECKED;
use shapes::{Bias, Block};

/// A block to read.
#[derive(Clone)]
struct Read {
    block: Block,
    place: Place,
}

impl Read {
    fn is_in_domain(&self) -> bool {
        self.block == Block::Msg1230 || blocks::is_plain_1059(&self.place.data, self.place.start)
    }

    /// The lists after reading these records, which may be none.
    fn lists(&self, raw: &[Raw]) -> Lists {
        let places = match self.block {
            Block::Msg1059 => pv::RECORDS_1059,
            Block::Msg1230 => pv::RECORDS_1230 + 1,
        };
        blocks::lists_read(self.block, raw, places)
    }

    /// Whether the lists hold these records first, the metres equal in bits, and nothing behind them.
    fn holds(&self, lists: &Lists, records: &[Bias]) -> bool {
        let equal_bits = |(bias, record): (&i16, &Bias)| {
            pv::metres(self.block, *bias).to_bits() == record.metres.to_bits()
        };
        blocks::raw(self.block, records).is_some_and(|raw| *lists == self.lists(&raw))
            && lists.biases.iter().zip(records).all(equal_bits)
    }
}

impl Case for Read {
    fn verdict(&self) -> Verdict {
        if !self.is_in_domain() {
            return Verdict::new(false, None);
        }
        let Place { data, start } = &self.place;
        let (theirs, place) = CHECKED.read_block(self.block, data, *start);
        let mut lists = self.lists(&[]);
        let told = pv::read_block(self.block, data, *start, &mut lists);
        let same = match &theirs {
            Ok(records) => {
                told == Told::accepted(&[records.len() as u64, place as u64])
                    && self.holds(&lists, records)
            }
            Err("BufferOverflow") => {
                let missing = told.extra[1];
                told == Told::short(place as u64, missing)
                    && (1..=16).contains(&missing)
                    && lists == self.lists(&[])
            }
            Err(_) => false,
        };
        // More than a count of none, and more than data that end before the first field does.
        let means = match &theirs {
            Ok(records) => !records.is_empty(),
            Err(_) => place > *start,
        };
        let theirs = theirs.map(|records| (records.len(), records.first().copied()));
        let first = (lists.satellites[0], lists.signals[0], lists.biases[0]);
        let difference = (!same)
            .then(|| format!("the Rust {theirs:?} at bit {place}, ours {told:?}, first {first:?}"));
        Verdict::new(means, difference)
    }

    fn smaller(&self) -> Smaller<'_, Read> {
        let with = |place| Read { place, ..*self };
        Box::new(self.place.smaller().map(with))
    }

    fn show(&self) -> String {
        format!("block at {} of {}", self.place.start, hex(&self.place.data))
    }
}

/// A list to write into data with room for it. A 1230 list has no signal twice.
#[derive(Clone)]
struct Write {
    block: Block,
    list: Vec<Raw>,
    place: Place,
}

impl Write {
    fn is_in_domain(&self) -> bool {
        let end = self.place.start + blocks::bits(self.block, &self.list);
        let is_accepted = self.block == Block::Msg1230 || blocks::is_accepted_1059(&self.list);
        is_accepted && end <= 8 * self.place.data.len()
    }
}

impl Case for Write {
    fn verdict(&self) -> Verdict {
        if !self.is_in_domain() {
            return Verdict::new(false, None);
        }
        let Place { data, start } = &self.place;
        let mut theirs = data.clone();
        let in_metres = blocks::in_metres(self.block, &self.list);
        let answer = CHECKED.write_block(self.block, &mut theirs, *start, &in_metres);
        let Ok(end) = answer else {
            return Verdict::never(answer);
        };
        let mut ours = data.clone();
        let told = pv::write_block(self.block, &mut ours, *start, &blocks::lists(&self.list));
        let difference = between_writes((Told::accepted(&[end as u64]), &theirs), (told, &ours));
        Verdict::new(!self.list.is_empty(), difference)
    }

    fn smaller(&self) -> Smaller<'_, Write> {
        let without = (0..self.list.len()).map(|i| {
            let mut smaller = self.clone();
            smaller.list.remove(i);
            smaller
        });
        let places = self.place.smaller().map(|place| Write {
            place,
            ..self.clone()
        });
        Box::new(without.chain(places))
    }

    fn show(&self) -> String {
        let Place { data, start } = &self.place;
        format!("{:?} at {start} into {}", self.list, hex(data))
    }
}

/// The two areas of a block.
struct Areas {
    block: Block,
    reads: Area,
    writes: Area,
}

pub fn run_1059(random: &mut Random) -> Vec<Area> {
    let mut areas = Areas {
        block: Block::Msg1059,
        reads: Area::new("1059: reading", 400_000),
        writes: Area::new("1059: writing", 200_000),
    };
    areas.short();
    areas.every_bias(random);
    areas.lists_1059(random);
    areas.blocks_1059(random);
    areas.every_start(random);
    vec![areas.reads, areas.writes]
}

pub fn run_1230(random: &mut Random) -> Vec<Area> {
    let mut areas = Areas {
        block: Block::Msg1230,
        reads: Area::new("1230: reading", 500_000),
        writes: Area::new("1230: writing", 400_000),
    };
    areas.short();
    areas.every_bias(random);
    areas.orders_1230(random);
    areas.every_start(random);
    vec![areas.reads, areas.writes]
}

impl Areas {
    /// Compares a read, if it is in the domain.
    fn read(&mut self, data: &[u8], start: usize) {
        let data = data.to_vec();
        let read = Read {
            block: self.block,
            place: Place { data, start },
        };
        if read.is_in_domain() {
            self.reads.compare(&read);
        }
    }

    /// Compares a write and a read of what it wrote, if it is in the domain. Gives the data after it.
    fn write(&mut self, list: Vec<Raw>, mut data: Vec<u8>, start: usize) -> Option<Vec<u8>> {
        let write = Write {
            block: self.block,
            place: Place {
                data: data.clone(),
                start,
            },
            list,
        };
        if !write.is_in_domain() {
            return None;
        }
        self.writes.compare(&write);
        pv::write_block(self.block, &mut data, start, &blocks::lists(&write.list));
        self.read(&data, start);
        Some(data)
    }

    /// All data of up to two bytes at start 0, and a sixteenth of them at every other start.
    fn short(&mut self) {
        for start in 0..17 {
            self.read(&[], start);
            for number in 0..=u16::MAX {
                let two = number.to_be_bytes();
                if start == 0 || number % 16 == 0 {
                    self.read(&two, start);
                }
                if number < 256 {
                    self.read(&two[1..], start);
                }
            }
        }
    }

    /// Every bias with every signal, one record, at any start.
    fn every_bias(&mut self, random: &mut Random) {
        for bias in blocks::biases(self.block) {
            for (signal, _, _) in self.block.signals() {
                let satellite = match self.block {
                    Block::Msg1059 => random.below(64) as u8,
                    Block::Msg1230 => 0,
                };
                let start = random.below(20);
                self.write(vec![(satellite, *signal, bias)], random.bytes(8), start);
            }
        }
    }

    /// Lists of all sizes; what was written is read, also cut short and with a count changed.
    fn lists_1059(&mut self, random: &mut Random) {
        let mut round = 0;
        while round < 30_000 {
            let list = blocks::without_repeats(blocks::any_list_1059(random));
            let bits = blocks::bits(self.block, &list);
            let start = any_start(random, bits);
            let spare = random.below(20);
            let len = ((start + bits).div_ceil(8) + spare).min(pv::DATA);
            let Some(mut data) = self.write(list, random.bytes(len), start) else {
                continue;
            };
            round += 1;
            self.read(&data[..random.below(len + 1)], start);
            // Another count of satellites, then another count of biases of the first one.
            blocks::set_bits(&mut data, start, 6, random.below(64) as u16);
            self.read(&data, start);
            if start + 17 <= 8 * data.len() {
                blocks::set_bits(&mut data, start + 12, 5, random.below(32) as u16);
                self.read(&data, start);
            }
        }
    }

    /// Every selection of signals in random order, with random biases, at many starts.
    fn orders_1230(&mut self, random: &mut Random) {
        for round in 0..200_000 {
            let list = blocks::any_list_1230(random, round);
            let bits = blocks::bits(self.block, &list);
            let start = any_start(random, bits);
            let spare = random.below(4);
            let len = ((start + bits).div_ceil(8) + spare).min(pv::DATA);
            self.write(list, random.bytes(len), start);
        }
    }

    /// Blocks that no writer made: any satellites in any order, repeated, without a bias, at any start, whole and cut.
    fn blocks_1059(&mut self, random: &mut Random) {
        for round in 0..60_000 {
            let most = if round % 20 == 0 { 8 * pv::DATA } else { 600 };
            let satellites = blocks::any_block_1059(random, most);
            let bits = blocks::bits_of_1059(&satellites);
            let start = any_start(random, bits);
            let spare = random.below(4);
            let len = ((start + bits).div_ceil(8) + spare).min(pv::DATA);
            let mut data = random.bytes(len);
            blocks::put_block_1059(&mut data, start, &satellites);
            self.read(&data, start);
            self.read(&data[..random.below(len + 1)], start);
        }
    }

    /// A block to read and a list to write at every start of the longest data; reading also far past it.
    fn every_start(&mut self, random: &mut Random) {
        let mut data = random.bytes(pv::DATA);
        for start in 0..=65_535 {
            if start % 32 == 0 {
                random.fill(&mut data);
            }
            self.read(&data, start);
            let room = (8 * pv::DATA).saturating_sub(start);
            for list in self.lists_within(random, room) {
                self.write(list, data.clone(), start);
            }
        }
    }

    /// Two lists that fit into so many bits; none where no block does.
    fn lists_within(&self, random: &mut Random, room: usize) -> Vec<Vec<Raw>> {
        let one = |random: &mut Random| match self.block {
            Block::Msg1059 => blocks::without_repeats(blocks::any_list_1059(random)),
            Block::Msg1230 => {
                let mask = random.below(16);
                blocks::any_list_1230(random, mask)
            }
        };
        let mut lists = vec![one(random), one(random)];
        for list in &mut lists {
            list.truncate(8);
            while blocks::bits(self.block, list) > room && !list.is_empty() {
                list.pop();
            }
        }
        lists.retain(|list| blocks::bits(self.block, list) <= room);
        lists
    }
}

/// A start at which so many bits fit into the longest data: often in the first bytes, else anywhere.
fn any_start(random: &mut Random, bits: usize) -> usize {
    let last = (8 * pv::DATA).saturating_sub(bits);
    match random.below(3) {
        0 => random.below(9).min(last),
        1 => random.below(600).min(last),
        _ => random.within(0, last),
    }
}
