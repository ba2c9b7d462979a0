//! The rows as they were timed, and what is asked of all of them together: beside second, beside the cable, and that an
//! OFDM symbol takes no longer among many.

use crate::grids::{MOST, SOME};
use crate::rows::Row;
use crate::streams::Streamed;
use second::payload_a;

/// Nanoseconds from one OFDM symbol on the cable to the next.
const CABLE: f64 = 17_000.0;

/// A row, its inputs gone, and nanoseconds a call.
pub struct Timed {
    pub row: Row,
    pub ours: f64,
    pub second: f64,
}

impl Timed {
    /// The row's line.
    pub fn line(&self) -> String {
        let Row { of, name, .. } = &self.row;
        format!("| {of} | {name} | {:.0} | {:.0} | {:.2} |", self.ours, self.second, self.quotient())
    }

    /// The same, and what an OFDM symbol takes.
    pub fn line_of_symbols(&self) -> String {
        let (ours, second) = (self.a_symbol(), self.second / self.row.symbols as f64);
        let thousands = (a_second(ours) / 1e3).round();
        format!("{} {ours:.0} | {second:.0} | {} |", self.line(), grouped(thousands * 1e3))
    }

    pub fn quotient(&self) -> f64 {
        self.ours / self.second
    }

    /// Ours, nanoseconds an OFDM symbol.
    pub fn a_symbol(&self) -> f64 {
        self.ours / self.row.symbols as f64
    }
}

/// What the cable brings.
pub fn cable() -> String {
    format!("the cable brings {} OFDM symbols a second, one every {} ns", grouped(a_second(CABLE)), grouped(CABLE))
}

/// What is asked, a line each; where no row tells of it, none.
pub fn print(all: &[Timed], streams: &[Streamed], decisions: &[Timed]) {
    let lines = [
        beside_second(all, streams, decisions),
        beside_the_cable(all),
        among_many(all),
        by_steps(streams),
        a_step(streams),
        deciding(decisions),
    ];
    lines.into_iter().flatten().for_each(|line| println!("- {line}"));
}

fn beside_second(all: &[Timed], streams: &[Streamed], decisions: &[Timed]) -> Option<String> {
    let timed = all.iter().chain(streams.iter().map(|streamed| &streamed.timed)).chain(decisions);
    let (quotient, row) = largest(timed.map(|timed| (timed.quotient(), &timed.row)))?;
    Some(format!("ours / second is at most {quotient:.2}: {}", row.whole()))
}

fn by_steps(streams: &[Streamed]) -> Option<String> {
    let (quotient, row) = largest(streams.iter().map(|streamed| (streamed.beside_whole(), &streamed.timed.row)))?;
    Some(format!("ours by steps / ours whole is at most {quotient:.3}: {}", row.whole()))
}

fn a_step(streams: &[Streamed]) -> Option<String> {
    let (time, row) = largest(streams.iter().map(|streamed| (streamed.slowest, &streamed.timed.row)))?;
    Some(format!("a single step takes at most {} ns: {}", grouped(time), row.whole()))
}

fn deciding(decisions: &[Timed]) -> Option<String> {
    let (time, row) = largest(decisions.iter().map(|timed| (timed.a_symbol(), &timed.row)))?;
    let cable = grouped(CABLE);
    Some(format!("deciding a symbol takes at most {} ns of the cable's {cable}: {}", grouped(time), row.whole()))
}

fn beside_the_cable(all: &[Timed]) -> Option<String> {
    let worst = |payload: &str| {
        let rows = all.iter().filter(|timed| timed.row.symbols > 0 && timed.row.of.starts_with(payload));
        let (time, row) = largest(rows.map(|timed| (timed.a_symbol(), &timed.row)))?;
        Some(format!("{} ({})", grouped(time), row.whole()))
    };
    let found: Vec<String> = ["Payload B", "Payload A"].into_iter().filter_map(worst).collect();
    let half = format!("half of the cable's {} is {}", grouped(CABLE), grouped(CABLE / 2.0));
    let burst = format!("a burst of Payload A is {} symbols", payload_a::SYMBOLS);
    (!found.is_empty()).then(|| format!("ours, ns a symbol, is at most {}; {half}; {burst}", found.join(" and ")))
}

/// Rows that differ in the number of OFDM symbols alone stand next to each other.
fn among_many(all: &[Timed]) -> Option<String> {
    let pairs = all.windows(2).map(|two| (&two[0], &two[1]));
    let pairs = pairs.filter(|(a, b)| a.row.of == b.row.of && (a.row.symbols, b.row.symbols) == (SOME, MOST));
    let (change, row) = largest(pairs.map(|(a, b)| (b.a_symbol() / a.a_symbol() - 1.0, &b.row)))?;
    let percent = change * 100.0;
    Some(format!(
        "from {SOME} to {MOST} symbols ours, ns a symbol, changes by at most {percent:+.1} %: {}",
        row.whole()
    ))
}

/// The number that is farthest from 0, and its row.
fn largest<'a>(numbers: impl Iterator<Item = (f64, &'a Row)>) -> Option<(f64, &'a Row)> {
    numbers.max_by(|a, b| a.0.abs().total_cmp(&b.0.abs()))
}

/// How many there are in a second, at so many nanoseconds each.
fn a_second(nanoseconds: f64) -> f64 {
    1e9 / nanoseconds
}

/// The nearest whole number, with a comma before every three digits.
fn grouped(number: f64) -> String {
    let (thousands, rest) = ((number.round() / 1e3).floor(), number.round() % 1e3);
    if thousands > 0.0 {
        format!("{},{rest:03}", grouped(thousands))
    } else {
        rest.to_string()
    }
}
