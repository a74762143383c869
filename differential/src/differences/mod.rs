//! Runs each entry of DIFFERENCES.md and holds the page's tables to it, row by row and cell by cell.
mod biases;
mod fields;
mod frames;
mod page;
mod tables;

use crate::pv::{self, Told};
use crate::rust::{Build, BUILDS};
use page::Section;
use std::path::Path;

/// Who answers: a build of the Rust by its place in `BUILDS`, or ours.
#[derive(Clone, Copy, Debug, PartialEq, Eq)]
pub enum Who {
    Build(usize),
    Ours,
}

impl Who {
    fn name(self) -> &'static str {
        match self {
            Who::Build(place) => BUILDS[place].name,
            Who::Ours => "Peerivolt",
        }
    }
}

/// A question, and what was answered to it.
struct Row {
    asked: String,
    answers: Vec<(Who, String)>,
}

/// One entry: its mark in the page, and its rows.
pub struct Entry {
    mark: &'static str,
    rows: Vec<Row>,
}

impl Entry {
    fn new(mark: &'static str) -> Entry {
        let rows = Vec::new();
        Entry { mark, rows }
    }

    /// Adds an answer to the question, in its row if it was the last one asked.
    fn answer(&mut self, asked: &str, who: Who, is: String) {
        if self.rows.last().is_none_or(|row| row.asked != asked) {
            self.rows.push(Row {
                asked: asked.to_string(),
                answers: Vec::new(),
            });
        }
        let last = self.rows.last_mut().expect("a row");
        last.answers.push((who, is));
    }

    /// Adds what both builds answer.
    fn builds(&mut self, asked: &str, answer: impl Fn(&Build) -> String) {
        for (place, build) in BUILDS.iter().enumerate() {
            self.answer(asked, Who::Build(place), answer(build));
        }
    }

    /// Adds our answer.
    fn ours(&mut self, asked: &str, is: String) {
        self.answer(asked, Who::Ours, is);
    }

    fn print(&self) {
        println!("{}", self.mark);
        for row in &self.rows {
            for (who, is) in &row.answers {
                println!("  {}; {}: {is}", row.asked, who.name());
            }
        }
    }

    /// What the page's section says otherwise: another question in a row, another answer in a cell, a cell or a row too
    /// many or too few.
    fn otherwise(&self, section: &Section) -> Vec<String> {
        let mut wrong = Vec::new();
        if self.rows.len() != section.rows.len() {
            let (run, said) = (self.rows.len(), section.rows.len());
            wrong.push(format!("{said} rows, where {run} are run"));
        }
        for (row, said) in self.rows.iter().zip(&section.rows) {
            if row.asked != said.asked {
                wrong.push(format!("asks {:?}, not {:?}", said.asked, row.asked));
                continue;
            }
            for (who, is) in &row.answers {
                let says = said.of(*who).unwrap_or("nothing");
                if says != is {
                    let (asked, who) = (&row.asked, who.name());
                    wrong.push(format!("{asked}; {who}: says {says}, where it is {is}"));
                }
            }
            let answered = |who: &Who| row.answers.iter().any(|(answered, _)| answered == who);
            for who in said.speakers().iter().filter(|who| !answered(who)) {
                let (asked, who) = (&row.asked, who.name());
                wrong.push(format!("{asked}; {who}: has an answer that is not run"));
            }
        }
        wrong
    }
}

fn entries() -> Vec<Entry> {
    [
        frames::entries(),
        fields::entries(),
        biases::msg1059::entries(),
        biases::msg1230::entries(),
        tables::entries(),
    ]
    .into_iter()
    .flatten()
    .collect()
}

/// Runs all entries and holds the page to them. Says whether all is as the page says.
pub fn run(page: &Path) -> bool {
    let entries = entries();
    entries.iter().for_each(Entry::print);
    let text = match std::fs::read_to_string(page) {
        Ok(text) => text,
        Err(why) => {
            println!("{}: {why}", page.display());
            return false;
        }
    };
    let wrong = wrong(&entries, &page::sections(&text));
    for (mark, what) in &wrong {
        println!("NOT AS SAID, {mark}: {what}");
    }
    let rows: usize = entries.iter().map(|entry| entry.rows.len()).sum();
    let (count, wrong) = (entries.len(), wrong.len());
    println!("{count} entries, {rows} rows, {wrong} not as said");
    wrong == 0
}

/// What is wrong with the page, and where: entries in another order or number, and what each says otherwise.
fn wrong(entries: &[Entry], sections: &[Section]) -> Vec<(String, String)> {
    let run: Vec<&str> = entries.iter().map(|entry| entry.mark).collect();
    let said: Vec<&str> = sections
        .iter()
        .map(|section| section.mark.as_str())
        .collect();
    if run != said {
        let what = format!("has the entries {said:?}, where {run:?} are run");
        return vec![("the page".to_string(), what)];
    }
    let mut wrong = Vec::new();
    for (entry, section) in entries.iter().zip(sections) {
        let otherwise = entry.otherwise(section).into_iter();
        wrong.extend(otherwise.map(|what| (entry.mark.to_string(), what)));
    }
    wrong
}

/// A refusal in words.
fn refusal(told: &Told) -> Option<String> {
    let carried = told.extra[0];
    let name = match told.number {
        0 => return None,
        pv::SHORT => "Short",
        pv::WIDTH => "Width",
        pv::RANGE => "Range",
        pv::SIGNAL => "Signal",
        pv::SATELLITE => "Satellite",
        pv::TOO_MANY => "TooMany",
        pv::DUPLICATE => "Duplicate",
        pv::ROOM => "Room",
        pv::SIZE => "Size",
        pv::NO_PREAMBLE => "NoPreamble",
        pv::STATE => "State",
        pv::INCOMPLETE => "Incomplete",
        pv::BAD_CHECK => "BadCheck",
        _ => "a number without a name",
    };
    let carries = matches!(told.number, pv::RANGE..=pv::ROOM);
    Some(if told.number == pv::SHORT {
        format!("{name}, carrying {carried} and {}", told.extra[1])
    } else if carries {
        format!("{name}, carrying {carried}")
    } else {
        name.to_string()
    })
}
