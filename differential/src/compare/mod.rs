//! The comparison over the whole domain, area by area.
mod biases;
mod checksum;
mod fields;
mod frames;
mod framing;
mod metres;
mod scans;
mod tables;

use crate::area::{hex, Area};
use crate::pv::Told;
use crate::random::Random;
use crate::recordings::Recording;
use std::time::Instant;

pub use fields::any_value;
pub use tables::SYSTEMS;

/// The parts of the comparison, each of some areas.
pub const PARTS: [&str; 9] = [
    "checksum", "frames", "framing", "scans", "fields", "1059", "1230", "tables", "metres",
];

/// The areas of one part.
fn areas(part: &str, random: &mut Random, recordings: &[Recording]) -> Vec<Area> {
    match part {
        "checksum" => checksum::run(random),
        "frames" => frames::run(random),
        "framing" => framing::run(random),
        "scans" => scans::run(random, recordings),
        "fields" => fields::run(random),
        "1059" => biases::run_1059(random),
        "1230" => biases::run_1230(random),
        "tables" => tables::run(random),
        _ => metres::run(),
    }
}

/// Compares the named part, or all of them, and prints the counts. Says whether nothing differed and each area came to
/// its least number.
pub fn run(seed: u64, only: Option<&str>, recordings: &[Recording]) -> bool {
    let began = Instant::now();
    Area::print_heads();
    let (mut compared, mut meant, mut differing) = (0, 0, 0);
    let mut is_well = true;
    for (place, part) in PARTS.into_iter().enumerate() {
        if only.is_some_and(|only| only != part) {
            continue;
        }
        for area in areas(part, &mut Random::new(seed + place as u64), recordings) {
            area.print();
            compared += area.compared();
            meant += area.meant();
            differing += area.differing();
            is_well &= area.is_well();
        }
    }
    let blank = "";
    println!(
        "{:<44}{compared:>12}{meant:>12}{blank:>12}{differing:>12}",
        "in total"
    );
    println!("seed {seed}, {:.1} s", began.elapsed().as_secs_f64());
    is_well
}

/// What differs between two writes, each an answer and the bytes that it left.
fn between_writes(theirs: (Told, &[u8]), ours: (Told, &[u8])) -> Option<String> {
    let show = |(told, left): (Told, &[u8])| format!("{told:?} {}", hex(left));
    (theirs != ours).then(|| format!("the Rust {}, ours {}", show(theirs), show(ours)))
}
