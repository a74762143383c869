//! Entries on the signal tables.
use super::Entry;
use crate::pv::{self, Lists};
use crate::rust;
use shapes::{Bias, Block};

const GPS: u32 = 0;

pub fn entries() -> Vec<Entry> {
    vec![partial_order(), no_2d()]
}

fn partial_order() -> Entry {
    let mut entry = Entry::new("T1");
    for letter in ['A', 'B', 'C'] {
        let asked = format!("gps 1A and 1{letter}");
        entry.builds(&asked, |build| {
            let (order, partial) = build.order(GPS, (1, 'A'), (1, letter));
            let partial = partial.map_or("None".to_string(), |order| format!("{order:?}"));
            format!("partial_cmp {partial}, cmp {order:?}")
        });
        let told = pv::signal_order(GPS, (1, 'A' as u32), (1, letter as u32));
        entry.ours(&asked, (told.extra[0] as i64).to_string());
    }
    entry
}

fn no_2d() -> Entry {
    let mut entry = Entry::new("T2");
    let asked = "the gps number of 2D";
    entry.builds(asked, |_| {
        rust::number_of(GPS, 2, 'D').map_or("None".to_string(), |number| number.to_string())
    });
    let told = pv::number_of(GPS, 2, 'D' as u32);
    let is = match told.extra[0] {
        0 => "None",
        _ => "a number",
    };
    entry.ours(asked, is.to_string());
    let data = [0x04, 0x00, 0x98, 0x00, 0x10];
    let asked = "04 00 98 00 10";
    entry.builds(asked, |build| {
        let (records, _) = build.read_block(Block::Msg1059, &data, 0);
        let signal =
            |records: Vec<Bias>| format!("signal {}{}", records[0].band, records[0].letter);
        records.map_or_else(str::to_string, signal)
    });
    let mut lists = Lists::unwritten(1);
    pv::read_block(Block::Msg1059, &data, 0, &mut lists);
    entry.ours(asked, format!("signal {}", lists.signals[0]));
    entry
}
