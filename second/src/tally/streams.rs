//! What streams and single steps were answered: their numbers and places, and where in a stream a symbol was refused.

use super::Runs;
use crate::answer::{Answer, Refusal};
use crate::payload_b::plan;
use crate::trial::{Call, Request};
use std::collections::{BTreeMap, BTreeSet};
use std::fmt;

/// The rows: openings and calls of job 9, those apart that repeat a refusal, and job 16.
const ROWS: [&str; 4] = ["open B", "call", "repeated", "step B"];

/// The numbers that a stream can have: of those that it cannot itself give, a state of job 16 can hold some.
const NUMBERS: [u8; 13] = [0, 1, 2, 3, 4, 5, 6, 7, 8, 9, 10, 11, 16];

#[derive(Default)]
pub struct Streams {
    /// How often, and at which places, by row and number.
    seen: BTreeMap<(usize, u8), (u64, BTreeSet<u64>)>,
    /// Symbols refused by 7, 8 and 9: the first of a stream, one between, the last; the only one is a last.
    refused: BTreeMap<(u8, usize), u64>,
    /// Streams accepted to their end, by mode: how many, of how many symbols, and the totals.
    ended: BTreeMap<u8, (u64, BTreeSet<u64>, BTreeSet<u64>)>,
}

impl Streams {
    pub fn add(&mut self, request: &Request, answer: &Answer) {
        match request {
            Request::StreamB { mode, length, scheme, calls, .. } => {
                self.put(0, answer);
                let symbols = plan(*mode, *length, scheme).map_or(0, |plan| plan.symbols);
                self.add_calls(*mode, symbols, answer.err(), calls);
            }
            _ => self.put(3, answer),
        }
    }

    fn add_calls(&mut self, mode: u8, symbols: usize, mut refused: Option<Refusal>, calls: &[Call]) {
        let mut taken = 0;
        for (answer, _) in calls.iter().filter_map(|call| call.after.as_ref()) {
            self.put(if refused.is_some() { 2 } else { 1 }, answer);
            match answer {
                Ok(counts) => {
                    taken += 1;
                    if taken == symbols {
                        let (count, of_symbols, mended) = self.ended.entry(mode).or_default();
                        *count += 1;
                        of_symbols.insert(symbols as u64);
                        mended.insert(counts.mended);
                    }
                }
                Err(refusal @ (Refusal::Filled(_) | Refusal::Stray(_) | Refusal::Hopeless(_))) if refused.is_none() => {
                    let part = if taken + 1 == symbols { 2 } else { (taken > 0) as usize };
                    *self.refused.entry((refusal.number(), part)).or_default() += 1;
                    refused = Some(*refusal);
                }
                Err(_) => {}
            }
        }
    }

    fn put(&mut self, row: usize, answer: &Answer) {
        let (number, place) = answer.map_or_else(|refusal| (refusal.number(), refusal.place()), |_| (0, 0));
        let (count, places) = self.seen.entry((row, number)).or_default();
        *count += 1;
        places.insert(place);
    }

    /// How often a row has a number: 0 openings, 1 calls, 2 those that repeat, 3 single steps.
    pub fn count(&self, row: usize, number: u8) -> u64 {
        self.seen.get(&(row, number)).map_or(0, |(count, _)| *count)
    }

    /// How many symbols a number refused: 0 first ones, 1 those between, 2 last ones.
    pub fn refused(&self, number: u8, part: usize) -> u64 {
        self.refused.get(&(number, part)).copied().unwrap_or(0)
    }

    fn write_table(&self, f: &mut fmt::Formatter, title: &str, value: fn(&(u64, BTreeSet<u64>)) -> u64) -> fmt::Result {
        write!(f, "\n{title:12}")?;
        NUMBERS.iter().try_for_each(|number| write!(f, "{number:>8}"))?;
        for (row, name) in ROWS.iter().enumerate() {
            write!(f, "\n{name:12}")?;
            NUMBERS
                .iter()
                .try_for_each(|&number| write!(f, "{:>8}", self.seen.get(&(row, number)).map_or(0, value)))?;
        }
        Ok(())
    }
}

/// Lines if there were any, each after a line feed.
impl fmt::Display for Streams {
    fn fmt(&self, f: &mut fmt::Formatter) -> fmt::Result {
        if self.seen.is_empty() {
            return Ok(());
        }
        self.write_table(f, "number", |(count, _)| *count)?;
        self.write_table(f, "places", |(_, places)| places.len() as u64)?;
        for number in [7, 8, 9] {
            let [first, between, last] = [0, 1, 2].map(|part| self.refused(number, part));
            write!(f, "\nstream B, refused with {number}: first symbol {first}, between {between}, last {last}")?;
        }
        for (mode, (count, symbols, mended)) in &self.ended {
            let (symbols, mended) = (Runs(symbols), Runs(mended));
            write!(f, "\nstream B, mode {mode}: {count} accepted to the end; symbols {symbols}; mended {mended}")?;
        }
        Ok(())
    }
}
