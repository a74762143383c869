//! The seven signal tables both ways, and `Ord`, against `msm_mappings.rs`.
use crate::area::{Area, Case, Verdict};
use crate::pv::{self, Told};
use crate::random::Random;
use crate::rust::{self, CHECKED};
use std::cmp::Ordering;

/// The systems' names, in the order of their numbers.
pub const SYSTEMS: [&str; 7] = ["gps", "glo", "gal", "sbas", "qzss", "bds", "navic"];

type Signal = (u8, char);

fn numbers(signal: Signal) -> (u32, u32) {
    (signal.0 as u32, signal.1 as u32)
}

/// A number, asked for its signal.
#[derive(Clone)]
struct SignalOf {
    system: u32,
    number: u8,
}

impl Case for SignalOf {
    fn verdict(&self) -> Verdict {
        let theirs = rust::signal_of(self.system, self.number);
        let expected = match theirs {
            Some((band, letter)) => Told::accepted(&[1, band as u64, letter as u64]),
            None => Told::accepted(&[0]),
        };
        let ours = pv::signal_of(self.system, self.number as u32);
        let difference = (ours != expected).then(|| format!("the Rust {theirs:?}, ours {ours:?}"));
        Verdict::new(true, difference)
    }

    fn show(&self) -> String {
        format!("{} number {}", SYSTEMS[self.system as usize], self.number)
    }
}

/// A signal, asked for its number.
#[derive(Clone)]
struct NumberOf {
    system: u32,
    signal: Signal,
}

impl Case for NumberOf {
    fn verdict(&self) -> Verdict {
        let theirs = rust::number_of(self.system, self.signal.0, self.signal.1);
        let expected = match theirs {
            Some(number) => Told::accepted(&[1, number as u64]),
            None => Told::accepted(&[0]),
        };
        let (band, letter) = numbers(self.signal);
        let ours = pv::number_of(self.system, band, letter);
        let difference = (ours != expected).then(|| format!("the Rust {theirs:?}, ours {ours:?}"));
        Verdict::new(true, difference)
    }

    fn show(&self) -> String {
        format!("{} signal {:?}", SYSTEMS[self.system as usize], self.signal)
    }
}

/// Two signals, asked for their order.
#[derive(Clone)]
struct Order {
    system: u32,
    a: Signal,
    b: Signal,
}

impl Case for Order {
    fn verdict(&self) -> Verdict {
        let (theirs, _) = CHECKED.order(self.system, self.a, self.b);
        let number = match theirs {
            Ordering::Less => -1i64,
            Ordering::Equal => 0,
            Ordering::Greater => 1,
        };
        let ours = pv::signal_order(self.system, numbers(self.a), numbers(self.b));
        let same = ours == Told::accepted(&[number as u64]);
        let difference = (!same).then(|| format!("the Rust {theirs:?}, ours {ours:?}"));
        Verdict::new(true, difference)
    }

    fn show(&self) -> String {
        let system = SYSTEMS[self.system as usize];
        format!("{system} {:?} and {:?}", self.a, self.b)
    }
}

pub fn run(random: &mut Random) -> Vec<Area> {
    vec![both_ways(random), order(random)]
}

/// Every number, every band and letter of a byte, and letters beyond, above all those that end as an assigned one does.
fn both_ways(random: &mut Random) -> Area {
    let mut area = Area::new("tables: both ways", 470_000);
    for system in 0..SYSTEMS.len() as u32 {
        for number in 0..=255 {
            area.compare(&SignalOf { system, number });
        }
        for (band, letter) in (0..=255).flat_map(|band| (0..=255).map(move |l| (band, l))) {
            let signal = (band, char::from(letter));
            area.compare(&NumberOf { system, signal });
        }
        for (band, letter) in (0..=255).filter_map(|number| rust::signal_of(system, number)) {
            let beyond = [0x100, 0x200, 0x1_0000, 0x10_0000];
            for letter in beyond.map(|beyond| beyond + letter as u32) {
                let signal = (band, char::from_u32(letter).unwrap_or('?'));
                area.compare(&NumberOf { system, signal });
            }
        }
        for _ in 0..2_000 {
            let signal = (random.byte(), any_letter(random));
            area.compare(&NumberOf { system, signal });
        }
    }
    area
}

/// A letter that a table could hold, any one of a byte, or any one at all.
fn any_letter(random: &mut Random) -> char {
    match random.below(4) {
        0 => char::from(random.byte()),
        1 => char::from_u32(random.next() as u32 % 0x11_0000).unwrap_or('\u{FFFD}'),
        _ => (b'A' + random.below(26) as u8) as char,
    }
}

/// All pairs of signals with a band up to 10 and a letter of a table or next to one, and random pairs.
fn order(random: &mut Random) -> Area {
    let mut area = Area::new("tables: Ord", 360_000);
    let letters = "@ABCDILPQSWXYZa";
    let bands = (0..=10).chain([255]);
    let signals: Vec<Signal> = bands
        .flat_map(|band| letters.chars().map(move |letter| (band, letter)))
        .collect();
    for system in 0..SYSTEMS.len() as u32 {
        for a in signals.iter().copied() {
            for b in signals.iter().copied() {
                area.compare(&Order { system, a, b });
            }
        }
        for _ in 0..20_000 {
            let a = (random.byte(), any_letter(random));
            let band = if random.one_in(2) { a.0 } else { random.byte() };
            let b = (band, any_letter(random));
            area.compare(&Order { system, a, b });
        }
    }
    area
}
