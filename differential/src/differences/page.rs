//! The sections of DIFFERENCES.md and the rows of their tables.
use super::Who;

/// A section with a mark: a heading `### B1. Title` has the mark B1. Its rows are those of all its tables.
pub struct Section {
    pub mark: String,
    pub rows: Vec<Said>,
}

/// A row of a table: the question, and under each head of a column what is answered.
pub struct Said {
    pub asked: String,
    cells: Vec<(Vec<Who>, String)>,
}

impl Said {
    /// What the row says that one answers.
    pub fn of(&self, who: Who) -> Option<&str> {
        let mut cells = self.cells.iter();
        let cell = cells.find(|(speakers, _)| speakers.contains(&who))?;
        Some(&cell.1)
    }

    /// Those who answer in the row.
    pub fn speakers(&self) -> Vec<Who> {
        let cells = self.cells.iter();
        cells.flat_map(|(speakers, _)| speakers.clone()).collect()
    }
}

/// Who answers under the head of a column; nobody under one that is not known.
fn speakers(head: &str) -> Vec<Who> {
    match head {
        "The Rust" => vec![Who::Build(0), Who::Build(1)],
        "The Rust, checked" => vec![Who::Build(0)],
        "The Rust, release" => vec![Who::Build(1)],
        "Peerivolt" => vec![Who::Ours],
        _ => Vec::new(),
    }
}

/// The cells of a line of a table.
fn cells(line: &str) -> Option<Vec<&str>> {
    let inner = line.trim().strip_prefix('|')?.strip_suffix('|')?;
    Some(inner.split('|').map(str::trim).collect())
}

/// The rows of the tables in the text. The first line of a table has the heads, the second divides.
fn rows(text: &str) -> Vec<Said> {
    let mut rows = Vec::new();
    let mut heads: Vec<Vec<Who>> = Vec::new();
    let mut in_table = false;
    for line in text.lines() {
        let Some(cells) = cells(line) else {
            in_table = false;
            continue;
        };
        if !in_table {
            in_table = true;
            heads = cells[1..].iter().map(|head| speakers(head)).collect();
            continue;
        }
        if cells[0].starts_with("---") {
            continue;
        }
        let answers = heads.iter().cloned().zip(&cells[1..]);
        let answers = answers.filter(|(_, cell)| !cell.is_empty());
        rows.push(Said {
            asked: cells[0].to_string(),
            cells: answers.map(|(who, cell)| (who, cell.to_string())).collect(),
        });
    }
    rows
}

/// The sections of the page, in order. One ends where the next heading of any kind begins.
pub fn sections(page: &str) -> Vec<Section> {
    let mut sections = Vec::new();
    for part in page.split("\n### ").skip(1) {
        let Some((mark, rest)) = part.split_once(". ") else {
            continue;
        };
        let own = rest.split("\n## ").next().unwrap_or(rest);
        sections.push(Section {
            mark: mark.to_string(),
            rows: rows(own),
        });
    }
    sections
}
