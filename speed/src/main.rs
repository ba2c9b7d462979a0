//! Nanoseconds a call, ours beside second's: tables in Markdown, and what is asked of all rows together. Before a row is
//! timed, every answer and every buffer of the two is compared; a difference ends the program with status 1.
//!
//! `speed [PART]`: only the rows whose name contains PART, such as "code 2" or "mode 0, mixed, send".

mod asked;
mod decisions;
mod grids;
#[cfg(feature = "linux")]
mod linux;
mod ours;
mod rows;
mod streams;
mod theirs;

use asked::Timed;
use rows::{Call, Memory, Row, GROUP, INPUTS};
use std::hint::black_box;
use std::process::exit;
use std::time::Instant;
use streams::Streamed;

/// Rounds over all inputs of a row.
const ROUNDS: usize = 60;

/// The first columns of the tables but those of streams and of deciding.
const COLUMNS: &str = "| of | call | ours, ns | second, ns | ours / second |";

fn main() {
    let part = std::env::args().nth(1).unwrap_or_default();
    #[cfg(feature = "linux")]
    if part == "linux" {
        return linux::print();
    }
    let named = |row: &Row| row.whole().contains(&part);
    println!("- {INPUTS} calls a row, in groups of {GROUP}, the fastest of {ROUNDS} rounds for each group");
    println!(
        "- Payload B: {} OFDM symbols a row, in groups of {GROUP}, or of one call where it has more",
        grids::SYMBOLS
    );
    println!("- deciding: {} OFDM symbols a row, in groups of {GROUP}", decisions::SYMBOLS);
    println!("- answers and buffers compared call by call; no buffer is cleared between calls\n");
    println!("{COLUMNS}\n|---|---|---|---|---|");
    let mut all = table(rows::all().filter(named), Timed::line);
    println!("\n- {}\n", asked::cable());
    println!("{COLUMNS} ours, ns a symbol | second, ns a symbol | ours, symbols a second |");
    println!("|---|---|---|---|---|---|---|---|");
    all.extend(table(grids::all().filter(named), Timed::line_of_symbols));
    println!("\n{}", streams::COLUMNS);
    let streams: Vec<Streamed> = grids::streams().filter(named).map(streamed).collect();
    println!("\n{}", decisions::COLUMNS);
    let decisions = table(decisions::all().filter(named), decisions::line);
    println!();
    asked::print(&all, &streams, &decisions);
}

/// A row of streams compared first and then timed, and its line of the table.
fn streamed(row: Row) -> Streamed {
    compare(&row);
    let streamed = Streamed::of(row);
    println!("{}", streamed.line());
    streamed
}

/// Each row compared first and then timed, and its line of the table.
fn table(rows: impl Iterator<Item = Row>, line: fn(&Timed) -> String) -> Vec<Timed> {
    let timed = rows.map(|row| {
        compare(&row);
        let [ours, second] = fastest(&row, [row.ours, row.theirs]);
        let timed = Timed { row: Row { inputs: Vec::new(), ..row }, ours, second };
        println!("{}", line(&timed));
        timed
    });
    timed.collect()
}

/// The same number, place, counts, places mended and buffers for every input, and the answer that the row says, or the
/// end of the program.
fn compare(row: &Row) {
    let (mut memory, mut other) = (Memory::new(), Memory::new());
    for (n, input) in row.inputs.iter().enumerate() {
        let (a, b) = ((row.ours)(input, &mut memory), (row.theirs)(input, &mut other));
        let alike = memory == other;
        if a != b || !alike || row.told.as_ref().is_some_and(|told| a != *told) {
            eprintln!("{}, input {n}: ours {a:?}, second {b:?}, buffers alike: {alike}", row.whole());
            exit(1);
        }
    }
}

/// Nanoseconds a call of each: rounds over all inputs, the calls by turns, each round beginning with the next; of each group
/// of inputs the fastest round counts, so that a pause of the machine does not.
fn fastest<const N: usize>(row: &Row, calls: [Call; N]) -> [f64; N] {
    let mut least = calls.map(|_| vec![u128::MAX; row.inputs.len() / row.group]);
    let mut memory = Memory::new();
    for turn in 0..ROUNDS {
        for n in (0..N).map(|n| (turn + n) % N) {
            round(row, calls[n], &mut memory, &mut least[n]);
        }
    }
    least.map(|groups| mean(row, &groups))
}

/// One round: the nanoseconds of each group, where they are less than before.
fn round(row: &Row, call: Call, memory: &mut Memory, least: &mut [u128]) {
    for (inputs, least) in row.inputs.chunks(row.group).zip(least) {
        let start = Instant::now();
        for input in inputs {
            black_box(call(black_box(input), memory));
            black_box(&memory);
        }
        *least = start.elapsed().as_nanos().min(*least);
    }
}

/// Nanoseconds a call.
fn mean(row: &Row, groups: &[u128]) -> f64 {
    groups.iter().sum::<u128>() as f64 / (groups.len() * row.group) as f64
}
