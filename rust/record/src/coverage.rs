//! What a list covers, so that one which lacks something of what it is for is not written.
use crate::moves::BLOCKS;
use std::collections::{BTreeMap, BTreeSet};
use std::fmt;

#[derive(Default)]
pub struct Coverage {
    rows: BTreeMap<char, usize>,
    refusals: BTreeMap<u8, usize>,
    events: BTreeMap<u64, usize>,
    /// Of the end events: first address and length.
    ranges: BTreeSet<(u64, u64)>,
    pages: BTreeSet<usize>,
}

impl Coverage {
    pub fn row(&mut self, letter: u8) {
        *self.rows.entry(char::from(letter)).or_default() += 1;
    }

    pub fn refusal(&mut self, number: u8) {
        *self.refusals.entry(number).or_default() += 1;
    }

    pub fn event(&mut self, word: u64) {
        let kind = word >> 32;
        *self.events.entry(kind).or_default() += 1;
        if kind != 1 {
            self.ranges.insert((word >> 16 & 0xffff, word & 0xffff));
        }
    }

    pub fn pages(&mut self, pages: usize) {
        self.pages.insert(pages);
    }

    /// What ought to be there and is not.
    pub fn missing(&self) -> Vec<String> {
        let rows = "GNWDBHPROEQLCKS".chars().filter(|letter| !self.rows.contains_key(letter));
        let refusals = [0, 1, 9, 10, 11, 12].into_iter().filter(|n| !self.refusals.contains_key(n));
        let events = (1..=3).filter(|kind| !self.events.contains_key(kind));
        let blocks = BLOCKS.iter().filter(|(_, first, end)| {
            !self.ranges.contains(&(u64::from(*first), u64::from(*end - *first)))
        });
        let pages = [0, 1, 3, 8, 32, 224, 384].into_iter().filter(|n| !self.pages.contains(n));
        rows.map(|letter| format!("no row {letter}"))
            .chain(refusals.map(|number| format!("no refusal {number}")))
            .chain(events.map(|kind| format!("no event of kind {kind}")))
            .chain(blocks.map(|(value, _, _)| format!("no pulse over the block of erase {value}")))
            .chain(pages.map(|pages| format!("no snapshot of {pages} pages")))
            .collect()
    }
}

impl fmt::Display for Coverage {
    fn fmt(&self, f: &mut fmt::Formatter) -> fmt::Result {
        writeln!(f, "rows: {:?}", self.rows)?;
        writeln!(f, "refusals, 0 for none: {:?}", self.refusals)?;
        writeln!(f, "event words by kind: {:?}", self.events)?;
        writeln!(f, "ranges of pulses: {}", self.ranges.len())?;
        write!(f, "pages in a snapshot: {:?}", self.pages)
    }
}
