//! The rows of deciding: noisy points to the nearest, ours beside second's plain search, for each constellation and for a
//! scheme of all of them. Of each the points as a cable brings them, and the hardest: on a line between levels, or in a
//! hole, where points are compared with each other.

use crate::asked::Timed;
use crate::rows::{Answer, Calls, Input, Row, GROUP};
use crate::{ours, theirs};
use second::nearest::{in_order, PARTS};
use second::noisy::greatest_and_step;
use second::points::Point;
use second::rng::Rng;
use second::stray::Legal;
use second::{grid, payload_a};

/// OFDM symbols in each row, over all its calls.
pub const SYMBOLS: usize = 256;

/// OFDM symbols of a call of Payload B.
const OF_A_FRAME: usize = 4;

/// Sixty-fourths of a level by which noise moves each level of a point, at most.
const NOISE: usize = 40;

const DECIDE_A: Calls = (ours::decide_a, theirs::decide_a);
const DECIDE_B: Calls = (ours::decide_b, theirs::decide_b);

pub const COLUMNS: &str =
    "| of | call | ours, ns a symbol | second, ns a symbol | ours / second |\n|---|---|---|---|---|";

/// The row's line.
pub fn line(timed: &Timed) -> String {
    let Row { of, name, symbols, .. } = &timed.row;
    let second = timed.second / *symbols as f64;
    format!("| {of} | {name} | {:.0} | {second:.0} | {:.2} |", timed.a_symbol(), timed.quotient())
}

/// A kind of points: its name, and one that comes in where this is legal.
type Kind = (&'static str, fn(&mut Rng, Legal) -> Point);

const KINDS: [Kind; 2] = [("noisy", noisy), ("hardest", hardest)];

/// All rows of deciding.
pub fn all() -> impl Iterator<Item = Row> {
    let dqpsk = ("Payload A, mode 0, DQPSK".to_string(), vec![Legal::Dqpsk; grid::AVAILABLE]);
    let alike =
        (2..=10).map(|bits| (format!("Payload B, mode 0, {}", name(bits)), vec![Legal::Qam(bits); grid::AVAILABLE]));
    let mixed = (0..grid::AVAILABLE).map(|s| Legal::Qam(2 + (s % 9) as u8)).collect();
    let schemes = [dqpsk].into_iter().chain(alike).chain([("Payload B, mode 0, mixed".to_string(), mixed)]);
    schemes.flat_map(|(of, legal)| KINDS.map(|kind| row(&of, &legal, kind)))
}

fn name(bits: u8) -> String {
    if bits == 2 {
        "QPSK".to_string()
    } else {
        format!("{}QAM", 1 << bits)
    }
}

/// A row with what is legal for each point of an OFDM symbol.
fn row(of: &str, legal: &[Legal], (kind, point): Kind) -> Row {
    let of_burst = legal[0] == Legal::Dqpsk;
    let ((ours, theirs), symbols) = if of_burst { (DECIDE_A, payload_a::SYMBOLS) } else { (DECIDE_B, OF_A_FRAME) };
    let mut rng = Rng::new(7);
    Row {
        of: of.to_string(),
        name: format!("decide, {symbols} symbols, {kind}"),
        symbols,
        ours,
        theirs,
        inputs: (0..SYMBOLS / symbols).map(|_| input(&mut rng, symbols, legal, point)).collect(),
        group: GROUP / symbols,
        told: Some(Answer::default()),
    }
}

/// The points of so many OFDM symbols, with noise on unavailable sub-carriers too, and for Payload B the longest frame that
/// they hold.
fn input(rng: &mut Rng, symbols: usize, legal: &[Legal], point: fn(&mut Rng, Legal) -> Point) -> Input {
    let scheme: Vec<u8> = legal.iter().filter_map(|&legal| bits(legal)).collect();
    let symbol_bits: usize = scheme.iter().map(|&bits| usize::from(bits)).sum();
    let points: Vec<Point> = (0..symbols).flat_map(|_| legal).map(|&legal| point(rng, legal)).collect();
    let elements = symbols * grid::CARRIERS;
    let (mut i, mut q) = (vec![0; elements], vec![0; elements]);
    grid::write(&points, &mut i, &mut q);
    for index in (0..elements).filter(|index| grid::held_by(index % grid::CARRIERS).is_none()) {
        (i[index], q[index]) = (off(rng), off(rng));
    }
    Input { size: symbols * symbol_bits / 8, scheme, i, q, ..Input::default() }
}

/// An entry of a scheme.
fn bits(legal: Legal) -> Option<u8> {
    match legal {
        Legal::Dqpsk => None,
        Legal::Qam(bits) => Some(bits),
    }
}

/// A legal point, moved.
fn noisy(rng: &mut Rng, legal: Legal) -> Point {
    let (i, q) = rng.pick(in_order(legal));
    (PARTS * i + off(rng), PARTS * q + off(rng))
}

/// Where two lines between levels cross; of constellations with holes every other one in the middle of a hole. In DQPSK as
/// far from one axis as from the other.
fn hardest(rng: &mut Rng, legal: Legal) -> Point {
    if legal == Legal::Dqpsk {
        let far = rng.below(PARTS as usize + 1) as i16;
        return (rng.pick(&[far, -far]), rng.pick(&[far, -far]));
    }
    let (greatest, step) = greatest_and_step(legal);
    let width = (2 * greatest / step + 1) as usize;
    let level = |n: usize| PARTS * (step * n as i16 - greatest);
    // Of each three levels the middle one is a hole's.
    let holes = if bits(legal).is_some_and(|bits| bits % 2 == 1) { width / 3 } else { 0 };
    if holes > 0 && rng.once_in(2) {
        return (level(3 * rng.below(holes) + 1), level(3 * rng.below(holes) + 1));
    }
    let mut line = || level(rng.below(width - 1)) + PARTS * step / 2;
    (line(), line())
}

fn off(rng: &mut Rng) -> i16 {
    rng.between(0, 2 * NOISE) as i16 - NOISE as i16
}
