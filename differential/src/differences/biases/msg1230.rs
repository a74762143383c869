//! Entries on the 1230 block.
use super::{our_biases, our_read, their_biases, their_read, write, write_at, Entry};
use crate::area::hex;
use shapes::{Bias, Block};

const BLOCK: Block = Block::Msg1230;

pub fn entries() -> Vec<Entry> {
    vec![
        doubled_signal(),
        over_four(),
        partial_write(),
        first_signal(),
        beyond_numbers(),
        not_available(),
    ]
}

fn doubled_signal() -> Entry {
    let mut entry = Entry::new("G1");
    let asked = "1C = 1 and 1C = 2, into 5 zero bytes";
    write(BLOCK, 5, asked).both(&mut entry, &[(0, 2, 1), (0, 2, 2)]);
    let data = [0x80, 0x00, 0x10, 0x00, 0x20];
    entry.builds(&hex(&data), |build| their_read(build, BLOCK, &data));
    entry.ours(&hex(&data), our_read(BLOCK, &data));
    entry
}

fn over_four() -> Entry {
    let mut entry = Entry::new("G2");
    let asked = "five records of 1C = 0, into 11 zero bytes";
    write(BLOCK, 11, asked).both(&mut entry, &[(0, 2, 0); 5]);
    entry
}

fn partial_write() -> Entry {
    let mut entry = Entry::new("G3");
    let asked = "1C = 0, into 1 zero byte";
    write(BLOCK, 1, asked).both(&mut entry, &[(0, 2, 0)]);
    entry
}

fn first_signal() -> Entry {
    let mut entry = Entry::new("G4");
    let asked = "first 1C = 0, then 3C = 0 (4 in ours), into 9 zero bytes";
    let write = write(BLOCK, 9, asked);
    let record = |band| Bias {
        satellite: 0,
        band,
        letter: 'C',
        metres: 0.0,
    };
    write.theirs(&mut entry, &[record(1), record(3)]);
    write.ours(&mut entry, &[(0, 2, 0), (0, 4, 0)]);
    entry
}

fn beyond_numbers() -> Entry {
    let mut entry = Entry::new("G5");
    let asked = "1C = 1, at start 2^64 - 4 into 2 zero bytes";
    write_at(BLOCK, 2, usize::MAX - 3, asked).both(&mut entry, &[(0, 2, 1)]);
    entry
}

fn not_available() -> Entry {
    let mut entry = Entry::new("G6");
    let data = [0x88, 0x00, 0x00];
    let asked = format!("the biases of {}", hex(&data));
    entry.builds(&asked, |build| their_biases(build, BLOCK, &data));
    entry.ours(&asked, our_biases(BLOCK, &data));
    entry
}
