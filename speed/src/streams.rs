//! The rows of streams: a frame of Payload B opened and received by steps, beside the same frame received whole, and beside
//! second's stream; and its slowest step.

use crate::asked::Timed;
use crate::rows::{Memory, Row};
use crate::{fastest, ours, ROUNDS};
use second::grid::CARRIERS;
use std::time::Instant;

/// A row of frames by steps, nanoseconds a frame whole, and nanoseconds of the slowest step.
pub struct Streamed {
    pub timed: Timed,
    pub whole: f64,
    pub slowest: f64,
}

pub const COLUMNS: &str = "| of | call | ours by steps, ns | ours whole, ns | by steps / whole | second by steps, ns \
    | ours / second | ours by steps, ns a symbol | slowest step, ns |\n|---|---|---|---|---|---|---|---|---|";

impl Streamed {
    /// Times a row.
    pub fn of(row: Row) -> Streamed {
        let [ours, whole, second] = fastest(&row, [row.ours, ours::receive_b, row.theirs]);
        let slowest = slowest(&row);
        Streamed { timed: Timed { row: Row { inputs: Vec::new(), ..row }, ours, second }, whole, slowest }
    }

    /// The row's line.
    pub fn line(&self) -> String {
        let Timed { row, ours, second } = &self.timed;
        format!(
            "| {} | {} | {ours:.0} | {:.0} | {:.2} | {second:.0} | {:.2} | {:.0} | {:.0} |",
            row.of,
            row.name,
            self.whole,
            self.beside_whole(),
            self.timed.quotient(),
            self.timed.a_symbol(),
            self.slowest
        )
    }

    pub fn beside_whole(&self) -> f64 {
        self.timed.ours / self.whole
    }
}

/// Nanoseconds of the slowest step of all frames; of each step the fastest round counts.
fn slowest(row: &Row) -> f64 {
    let mut memory = Memory::new();
    let mut slowest = 0;
    for input in &row.inputs {
        let mut least = vec![u128::MAX; row.symbols];
        for _ in 0..ROUNDS {
            ours::open_b(input, &mut memory);
            let symbols = input.i.chunks(CARRIERS).zip(input.q.chunks(CARRIERS));
            for ((i, q), least) in symbols.zip(&mut least) {
                let start = Instant::now();
                ours::step_b(i, q, &mut memory);
                *least = start.elapsed().as_nanos().min(*least);
            }
        }
        slowest = least.into_iter().chain([slowest]).max().unwrap_or(0);
    }
    slowest as f64
}
