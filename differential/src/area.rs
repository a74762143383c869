//! Counting comparisons by area, and making an input that differs small.
use std::time::{Duration, Instant};

/// Inputs that are smaller than another, made one after the other.
pub type Smaller<'a, C> = Box<dyn Iterator<Item = C> + 'a>;

/// What a comparison on one input showed.
pub struct Verdict {
    /// Whether it shows more than what nearly every input shows, as a refusal of data that are too short.
    pub means: bool,
    /// What differs, or nothing.
    pub difference: Option<String>,
}

impl Verdict {
    pub fn new(means: bool, difference: Option<String>) -> Verdict {
        Verdict { means, difference }
    }

    /// An answer of the Rust that no input of the domain may have.
    pub fn never(answer: impl std::fmt::Debug) -> Verdict {
        Verdict::new(true, Some(format!("the Rust answers {answer:?}")))
    }
}

/// An input that both sides are given.
pub trait Case: Clone {
    /// Compares. An input outside the domain has no difference.
    fn verdict(&self) -> Verdict;

    /// Inputs that are smaller than this one, the smallest first.
    fn smaller(&self) -> Smaller<'_, Self> {
        Box::new(std::iter::empty())
    }

    /// The input in words.
    fn show(&self) -> String;
}

/// Differing inputs of an area that are made small, and how long that may take for each; further ones are counted.
const MADE_SMALL: u64 = 8;
const PATIENCE: Duration = Duration::from_secs(1);

/// One area of comparison and its counts. It has to come to a least number of comparisons that mean something.
pub struct Area {
    name: &'static str,
    least: u64,
    compared: u64,
    meant: u64,
    differing: u64,
    smallest: Option<String>,
}

impl Area {
    pub fn new(name: &'static str, least: u64) -> Area {
        Area {
            name,
            least,
            compared: 0,
            meant: 0,
            differing: 0,
            smallest: None,
        }
    }

    /// Compares on one input.
    pub fn compare<C: Case>(&mut self, case: &C) {
        let verdict = case.verdict();
        self.compared += 1;
        self.meant += u64::from(verdict.means);
        if verdict.difference.is_none() {
            return;
        }
        self.differing += 1;
        if self.differing <= MADE_SMALL {
            self.keep(shrunk(case));
        }
    }

    fn keep(&mut self, shown: String) {
        let shorter = |old: &String| (shown.len(), &shown) < (old.len(), old);
        if self.smallest.as_ref().is_none_or(shorter) {
            self.smallest = Some(shown);
        }
    }

    pub fn compared(&self) -> u64 {
        self.compared
    }

    pub fn meant(&self) -> u64 {
        self.meant
    }

    pub fn differing(&self) -> u64 {
        self.differing
    }

    /// Whether nothing differs and enough was compared.
    pub fn is_well(&self) -> bool {
        self.differing == 0 && self.meant >= self.least
    }

    /// Prints the heads of the columns.
    pub fn print_heads() {
        println!(
            "{:<44}{:>12}{:>12}{:>12}{:>12}",
            "area", "compared", "that mean", "at least", "differing"
        );
    }

    /// Prints the counts and, where something differs, the smallest input found.
    pub fn print(&self) {
        let (name, compared, meant) = (self.name, self.compared, self.meant);
        let (least, differing) = (self.least, self.differing);
        println!("{name:<44}{compared:>12}{meant:>12}{least:>12}{differing:>12}");
        if meant < least {
            println!("  TOO FEW comparisons that mean something");
        }
        if let Some(smallest) = &self.smallest {
            println!("  smallest input that differs: {smallest}");
        }
    }
}

/// The case made smaller for as long as a smaller one still differs, in words.
fn shrunk<C: Case>(case: &C) -> String {
    let began = Instant::now();
    let mut best = case.clone();
    let differs = |smaller: &C| smaller.verdict().difference.is_some();
    loop {
        let in_time = |_: &C| began.elapsed() < PATIENCE;
        let Some(smaller) = best.smaller().take_while(in_time).find(differs) else {
            break;
        };
        best = smaller;
    }
    let what = best.verdict().difference.unwrap_or_default();
    format!("{}: {what}", best.show())
}

/// Bytes that are smaller than the given ones: fewer, or some of them 0.
pub fn smaller_bytes(bytes: &[u8]) -> Smaller<'_, Vec<u8>> {
    let halves = std::iter::successors(Some(bytes.len()), |part| Some(part / 2));
    let parts = halves.take_while(|part| *part > 0);
    let fewer = parts.flat_map(move |part| {
        let starts = (0..bytes.len()).step_by(part);
        starts.map(move |from| {
            let to = (from + part).min(bytes.len());
            [&bytes[..from], &bytes[to..]].concat()
        })
    });
    let places = (0..bytes.len()).filter(|place| bytes[*place] != 0);
    let zeroed = places.map(|place| {
        let mut zeroed = bytes.to_vec();
        zeroed[place] = 0;
        zeroed
    });
    Box::new(fewer.chain(zeroed))
}

/// Numbers that are smaller than the given one.
fn smaller_numbers(number: usize) -> impl Iterator<Item = usize> {
    let less = |by| number.saturating_sub(by);
    let candidates = [0, number / 2, less(8), less(1)];
    candidates.into_iter().filter(move |n| *n < number)
}

/// Data, and a bit place in them or behind them.
#[derive(Clone)]
pub struct Place {
    pub data: Vec<u8>,
    pub start: usize,
}

impl Place {
    pub fn smaller(&self) -> Smaller<'_, Place> {
        let starts = smaller_numbers(self.start).map(|start| Place {
            start,
            ..self.clone()
        });
        let data = smaller_bytes(&self.data).map(|data| Place { data, ..*self });
        Box::new(starts.chain(data))
    }
}

/// Bytes in hexadecimal, or how many there are and the first ones.
pub fn hex(bytes: &[u8]) -> String {
    const SHOWN: usize = 64;
    let text = |bytes: &[u8]| {
        bytes
            .iter()
            .map(|b| format!("{b:02X}"))
            .collect::<Vec<_>>()
            .join(" ")
    };
    match bytes.len() {
        0 => "no bytes".to_string(),
        len if len <= SHOWN => text(bytes),
        len => format!("{} .. ({len} bytes)", text(&bytes[..SHOWN])),
    }
}
