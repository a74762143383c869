//! Records of the two bias blocks, raw and as the crate has them.
use crate::pv::Lists;
use crate::random::Random;
use crate::rust::{CAPACITY_1059, CHECKED};
use shapes::{Bias, Block};
use std::collections::BTreeSet;
use std::ops::RangeInclusive;

/// A raw record: satellite (0 in 1230), signal number, bias.
pub type Raw = (u8, u8, i16);

/// The raw biases that a block can hold.
pub fn biases(block: Block) -> RangeInclusive<i16> {
    match block {
        Block::Msg1059 => -8192..=8191,
        Block::Msg1230 => i16::MIN..=i16::MAX,
    }
}

fn is_assigned(block: Block, signal: u8) -> bool {
    let mut signals = block.signals().iter();
    signals.any(|(number, _, _)| *number == signal)
}

/// The raw records as the crate's own writer takes them, biases in metres. Signals must be assigned.
pub fn in_metres(block: Block, raw: &[Raw]) -> Vec<Bias> {
    let record = |(satellite, signal, bias): &Raw| block.record(*satellite, *signal, *bias);
    raw.iter().map(record).collect()
}

/// The raw number whose reading in metres has exactly these bits, if there is one.
fn raw_number(metres: f32, unit: f32) -> Option<i16> {
    let raw = (metres / unit).round() as i16;
    ((raw as f32 * unit).to_bits() == metres.to_bits()).then_some(raw)
}

/// The crate's records as raw ones; nothing where one of them is no raw record.
pub fn raw(block: Block, records: &[Bias]) -> Option<Vec<Raw>> {
    let raw = |record: &Bias| {
        let same = |signal: &&(u8, u8, char)| (signal.1, signal.2) == (record.band, record.letter);
        let (signal, _, _) = block.signals().iter().find(same)?;
        let bias = raw_number(record.metres, block.unit())?;
        Some((record.satellite, *signal, bias))
    };
    records.iter().map(raw).collect()
}

/// What the crate's reader gives in metres for a raw bias that the block can hold, the only one of a block.
pub fn their_metres(block: Block, bias: i16) -> Option<f32> {
    let mut data = [0; 5];
    match block {
        Block::Msg1059 => {
            set_bits(&mut data, 0, 6, 1);
            set_bits(&mut data, 12, 5, 1);
            set_bits(&mut data, 22, 14, bias as u16);
        }
        Block::Msg1230 => {
            set_bits(&mut data, 0, 4, 8);
            set_bits(&mut data, 4, 16, bias as u16);
        }
    }
    let (records, _) = CHECKED.read_block(block, &data, 0);
    Some(records.ok()?.first()?.metres)
}

/// The raw records in three lists.
pub fn lists(raw: &[Raw]) -> Lists {
    Lists {
        satellites: raw.iter().map(|record| record.0).collect(),
        signals: raw.iter().map(|record| record.1).collect(),
        biases: raw.iter().map(|record| record.2).collect(),
    }
}

/// Lists with that many places after our reader has put the records into them.
pub fn lists_read(block: Block, raw: &[Raw], places: usize) -> Lists {
    let mut lists = Lists::unwritten(places);
    for (i, (satellite, signal, bias)) in raw.iter().enumerate() {
        if block == Block::Msg1059 {
            lists.satellites[i] = *satellite;
        }
        lists.signals[i] = *signal;
        lists.biases[i] = *bias;
    }
    lists
}

/// The list without the records that repeat the satellite and the signal of an earlier one.
pub fn without_repeats(raw: Vec<Raw>) -> Vec<Raw> {
    let mut seen = BTreeSet::new();
    let mut raw = raw;
    raw.retain(|(satellite, signal, _)| seen.insert((*satellite, *signal)));
    raw
}

/// Whether our 1059 writer accepts the list, given room, and the crate's vector holds it.
pub fn is_accepted_1059(raw: &[Raw]) -> bool {
    let pairs: BTreeSet<(u8, u8)> = raw.iter().map(|record| (record.0, record.1)).collect();
    let mut counts = [0; 256];
    raw.iter().for_each(|record| counts[record.0 as usize] += 1);
    let is_good = |(satellite, signal, bias): &Raw| {
        *satellite < 64
            && is_assigned(Block::Msg1059, *signal)
            && biases(Block::Msg1059).contains(bias)
    };
    raw.len() <= CAPACITY_1059
        && pairs.len() == raw.len()
        && raw.iter().all(is_good)
        && counts.iter().all(|count| *count <= 31)
        && counts.iter().filter(|count| **count > 0).count() < 64
}

/// The bits of the block that holds the list.
pub fn bits(block: Block, raw: &[Raw]) -> usize {
    match block {
        Block::Msg1059 => {
            let satellites: BTreeSet<u8> = raw.iter().map(|record| record.0).collect();
            6 + 11 * satellites.len() + 19 * raw.len()
        }
        Block::Msg1230 => 4 + 16 * raw.len(),
    }
}

/// A field of up to 16 bits, most significant bit first, if the data reach so far.
fn bits_at(data: &[u8], start: usize, width: usize) -> Option<u16> {
    let bit = |place: usize| {
        let byte = data.get(place / 8)?;
        Some(u16::from(byte >> (7 - place % 8) & 1))
    };
    (start..start + width).try_fold(0, |field, place| Some(field << 1 | bit(place)?))
}

/// Writes a field of up to 16 bits, which must be within the data.
pub fn set_bits(data: &mut [u8], start: usize, width: usize, value: u16) {
    set_bits_of(data, start, width, value.into());
}

/// Writes a field, which must be within the data, bit by bit.
pub fn set_bits_of(data: &mut [u8], start: usize, width: usize, value: u128) {
    for i in 0..width {
        let place = start + i;
        let mask = 0x80 >> (place % 8);
        let is_set = value >> (width - 1 - i) & 1 == 1;
        let byte = &mut data[place / 8];
        *byte = if is_set { *byte | mask } else { *byte & !mask };
    }
}

/// Whether reading the 1059 block meets assigned signals only, and no more records than the crate's vector holds,
/// before it ends or runs out of data.
pub fn is_plain_1059(data: &[u8], start: usize) -> bool {
    let mut place = start;
    let mut field = |width| {
        let field = bits_at(data, place, width);
        place += width;
        field
    };
    let mut records = 0;
    let Some(satellites) = field(6) else {
        return true;
    };
    for _ in 0..satellites {
        let (Some(_), Some(biases)) = (field(6), field(5)) else {
            return true;
        };
        for _ in 0..biases {
            let Some(signal) = field(5) else {
                return true;
            };
            if !is_assigned(Block::Msg1059, signal as u8) {
                return false;
            }
            let Some(_) = field(14) else {
                return true;
            };
            records += 1;
            if records > CAPACITY_1059 {
                return false;
            }
        }
    }
    true
}

/// A random list that the crate's 1059 writer accepts; ours refuses one with a satellite and signal twice.
pub fn any_list_1059(random: &mut Random) -> Vec<Raw> {
    let different = match random.below(4) {
        0 => random.within(0, 63),
        1 => 63,
        _ => random.within(0, 8),
    };
    let first = random.below(64);
    let most = random.pick(&[1, 2, 6, 31]);
    let mut list = Vec::new();
    for i in 0..different {
        let satellite = ((first + i * 5) % 64) as u8;
        for _ in 0..random.within(1, most) {
            list.push(any_record_1059(random, satellite));
        }
    }
    list.truncate(CAPACITY_1059);
    if random.one_in(2) {
        shuffle(random, &mut list);
    }
    list
}

/// A satellite of a block as it stands in the data: its number, and a signal and a bias for each record.
pub type Satellite = (u8, Vec<(u8, i16)>);

/// The satellites of a block that a reader may meet: any numbers in any order, some twice, some without a bias, every
/// signal assigned. At most so many bits.
pub fn any_block_1059(random: &mut Random, most_bits: usize) -> Vec<Satellite> {
    let count = match random.below(4) {
        0 => random.within(0, 63),
        _ => random.within(1, 8),
    };
    let most = random.pick(&[0, 1, 2, 6, 31]);
    let mut satellites: Vec<Satellite> = Vec::new();
    for _ in 0..count {
        let number = match satellites.last() {
            Some(last) if random.one_in(4) => last.0,
            _ => random.below(64) as u8,
        };
        let records = (0..random.within(0, most)).map(|_| any_record_1059(random, number));
        let records = records.map(|(_, signal, bias)| (signal, bias)).collect();
        satellites.push((number, records));
        if bits_of_1059(&satellites) > most_bits || records_of(&satellites) > CAPACITY_1059 {
            satellites.pop();
            break;
        }
    }
    satellites
}

fn records_of(satellites: &[Satellite]) -> usize {
    satellites.iter().map(|(_, records)| records.len()).sum()
}

/// The bits of a 1059 block of these satellites.
pub fn bits_of_1059(satellites: &[Satellite]) -> usize {
    6 + 11 * satellites.len() + 19 * records_of(satellites)
}

/// Puts the block into the data, field by field; it must fit.
pub fn put_block_1059(data: &mut [u8], start: usize, satellites: &[Satellite]) {
    let mut place = start;
    let mut put = |width, value| {
        set_bits(data, place, width, value);
        place += width;
    };
    put(6, satellites.len() as u16);
    for (number, records) in satellites {
        put(6, u16::from(*number));
        put(5, records.len() as u16);
        for (signal, bias) in records {
            put(5, u16::from(*signal));
            put(14, *bias as u16 & 0x3FFF);
        }
    }
}

/// A record that the 1059 writers accept.
pub fn any_record_1059(random: &mut Random, satellite: u8) -> Raw {
    let (signal, _, _) = random.pick(Block::Msg1059.signals());
    (satellite, signal, any_bias(random, Block::Msg1059))
}

/// The 1230 signals that a mask has, the first one as its lowest bit, with random biases in random order.
pub fn any_list_1230(random: &mut Random, mask: usize) -> Vec<Raw> {
    let mut list = Vec::new();
    for (i, (signal, _, _)) in Block::Msg1230.signals().iter().enumerate() {
        if mask >> i & 1 == 1 {
            list.push((0, *signal, any_bias(random, Block::Msg1230)));
        }
    }
    shuffle(random, &mut list);
    list
}

/// A bias that the block can hold, often at a limit.
pub fn any_bias(random: &mut Random, block: Block) -> i16 {
    let (least, greatest) = biases(block).into_inner();
    match random.below(6) {
        0 => random.pick(&[least, least + 1, -1, 0, 1, greatest - 1, greatest]),
        _ if block == Block::Msg1059 => (random.next() as i16) >> 2,
        _ => random.next() as i16,
    }
}

fn shuffle<T>(random: &mut Random, list: &mut [T]) {
    for i in (1..list.len()).rev() {
        list.swap(i, random.below(i + 1));
    }
}
