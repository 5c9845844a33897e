//! Rows of counts by number, and what a run must have met in them.

use crate::counts::print_row;

/// What is counted apart, the numbers that a run must have met in it, and how they are shown.
pub struct Row {
    pub name: &'static str,
    pub wanted: &'static [u8],
    pub show: fn(u8) -> String,
}

pub fn decimal(number: u8) -> String {
    number.to_string()
}

pub fn hex(number: u8) -> String {
    format!("{number:02X}")
}

pub struct Rows {
    rows: &'static [Row],
    counts: Vec<[u64; 256]>,
}

impl Rows {
    pub fn new(rows: &'static [Row]) -> Rows {
        Rows { rows, counts: vec![[0; 256]; rows.len()] }
    }

    pub fn add(&mut self, other: &Rows) {
        let theirs = other.counts.iter().flatten();
        self.counts.iter_mut().flatten().zip(theirs).for_each(|(mine, theirs)| *mine += theirs);
    }

    pub fn met(&mut self, row: usize, number: u8) {
        self.counts[row][usize::from(number)] += 1;
    }

    /// So many bytes, at most 255 of them.
    pub fn met_bytes(&mut self, row: usize, bytes: u64) {
        self.met(row, bytes.min(255) as u8);
    }

    /// Prints all rows, and says which of the wanted numbers were not met.
    pub fn print(&self, missing: &mut Vec<String>) {
        for (row, counts) in self.rows.iter().zip(&self.counts) {
            print_row(row.name, row.wanted, counts, row.show, missing);
        }
    }

    /// Says which numbers were met in a row beside the wanted.
    pub fn print_others(&self, row: usize, missing: &mut Vec<String>) {
        let Row { name, wanted, show } = &self.rows[row];
        let is_other = |number: &u8| !wanted.contains(number) && self.counts[row][usize::from(*number)] > 0;
        missing
            .extend((0..=255).filter(is_other).map(|number| format!("{name} {} was answered", show(number))));
    }
}

/// Prints the fewest of some counts, of which each must have been met.
pub fn print_least(what: &str, counts: impl Iterator<Item = u64>, missing: &mut Vec<String>) {
    let fewest = counts.min().unwrap_or(0);
    println!("  {what}: at least {fewest}");
    if fewest == 0 {
        missing.push(format!("not each was met: {what}"));
    }
}
