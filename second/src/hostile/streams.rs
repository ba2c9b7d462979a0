//! Jobs 9 and 16: streams of Payload B, and single steps from a stream's states and from forged ones.

use super::frames::{any_scheme, room_for, told_length, told_mode, told_scheme, with_hopeless};
use super::frames::{Frame, BLOCK_BYTES, SYMBOLS};
use super::grids::{Carried, Grid};
use super::{bytes_of_a_frame, forged, lent, place, some_of, Faults};
use crate::payload_b::mapped;
use crate::rng::Rng;
use crate::state_b::State;
use crate::stream_b::open;
use crate::trial::{Call, Request};

/// I and Q of an OFDM symbol.
type Symbol = (Vec<i16>, Vec<i16>);

/// What a stream is opened with, and the OFDM symbols that come.
struct Sent {
    mode: u8,
    length: u64,
    scheme: Vec<u8>,
    symbols: Vec<Symbol>,
    /// The bytes that the frame needs.
    room: usize,
}

pub fn stream(rng: &mut Rng) -> Request {
    let faults = any_faults(rng);
    let Sent { mode, length, scheme, symbols, room } = sent(rng, &faults);
    // The area is short in every call, or there are calls with short points.
    let short_area = faults.has(3) && rng.once_in(4);
    let mut calls = as_they_come(rng, symbols);
    if faults.has(3) && !short_area {
        with_short_calls(rng, &mut calls);
    }
    with_further_calls(rng, &mut calls);
    if open(mode, length, &scheme).refusal.is_some() {
        calls.truncate(3);
    }
    let area = lent::bytes(rng, room, short_area);
    let calls = calls.into_iter().map(|symbol| lent_call(rng, symbol)).collect();
    Request::StreamB { mode, length, scheme, area, calls }
}

/// A step from the state after some steps of a stream, as it is, or forged; mostly with the symbol that comes next.
pub fn step(rng: &mut Rng) -> Request {
    // In half of them nothing is wrong but the state.
    let faults = if rng.once_in(2) { Faults(vec![]) } else { any_faults(rng) };
    let Sent { mode, length, scheme, symbols, room } = sent(rng, &faults);
    let mut stream = open(mode, length, &scheme);
    let taken = if rng.once_in(8) { symbols.len() } else { place(rng, symbols.len()) };
    for (i, q) in &symbols[..taken] {
        // What is refused stays so; what needs more room than there is, too.
        let _ = stream.step(i, q, &mut vec![0; room]);
    }
    let mut state = State::of(&stream);
    if rng.once_in(2) {
        for _ in 0..rng.pick(&[1, 1, 1, 1, 2, 3]) {
            forged::forge(rng, &mut state);
        }
    }
    let any = rng.below(symbols.len());
    let (mut i, mut q) = symbols.get(taken).unwrap_or(&symbols[any]).clone();
    let short = some_of(rng, 3, faults.has(3));
    lent::fit(rng, &mut i, short[0]);
    lent::fit(rng, &mut q, short[1]);
    let area = lent::bytes(rng, room, short[2]);
    let state = if rng.once_in(40) { rng.bytes(crate::state_b::BYTES) } else { state.to_bytes() };
    Request::StepB { state, i, q, area }
}

/// An eighth is refused when it is opened, mostly; a quarter has several faults in its symbols.
fn any_faults(rng: &mut Rng) -> Faults {
    match rng.below(8) {
        0 => Faults(vec![rng.pick(&[1, 2, 5, 6]), rng.pick(&[1, 2, 5, 6, 3, 7, 8, 9])]),
        1 | 2 => Faults::any_of(rng, &[3, 7, 8, 9]),
        _ => Faults::aim(rng, &[3, 7, 8, 9]),
    }
}

/// A frame's symbols with faults: each in a symbol of its own, or all in the same one.
fn sent(rng: &mut Rng, faults: &Faults) -> Sent {
    let frame = any_frame(rng);
    let count = frame.plan().symbols;
    let meeting = rng.once_in(3).then(|| place(rng, count));
    let chosen = |rng: &mut Rng| meeting.unwrap_or(place(rng, count));
    let mut hopeless = vec![];
    if faults.has(9) {
        for _ in 0..rng.between(1, 2) {
            let symbol = chosen(rng);
            hopeless.push(block_in(rng, &frame, symbol));
        }
    }
    let bits = with_hopeless(rng, &frame, &hopeless);
    let carried = |symbol: &[u8]| Grid::new(&mapped(symbol, &frame.scheme), Carried::Scheme(&frame.scheme));
    let mut grids: Vec<Grid> = bits.chunks(frame.sum()).map(carried).collect();
    if rng.once_in(12) {
        let wanderers = rng.pick(&[1, 1, 2, 5, 210]);
        grids[chosen(rng)].wander(rng, wanderers);
    }
    if faults.has(8) {
        grids[chosen(rng)].stray(rng);
    }
    if faults.has(7) {
        grids[chosen(rng)].fill(rng);
    }
    let symbols = grids.into_iter().map(|grid| (grid.i, grid.q)).collect();
    let length = told_length(rng, faults, &frame);
    let room = room_for(length, &frame);
    let mode = told_mode(rng, faults, frame.mode);
    Sent { mode, length, scheme: told_scheme(rng, faults, frame.scheme), symbols, room }
}

/// A block that is complete with this symbol, one of several at random; with the next one that completes any, if it
/// completes none.
fn block_in(rng: &mut Rng, frame: &Frame, symbol: usize) -> usize {
    let (first, after) = (frame.blocks_of(symbol), frame.blocks_of(symbol + 1));
    let block = if first < after { rng.between(first, after - 1) } else { first };
    block.min(frame.plan().blocks() - 1)
}

/// A frame of one to five symbols, seldom more, and now and then of up to 256.
fn any_frame(rng: &mut Rng) -> Frame {
    let (some, many, few) = (rng.between(6, 24), rng.between(25, SYMBOLS), rng.between(1, 5));
    let symbols = match rng.below(200) {
        0 => SYMBOLS,
        1 => many,
        2..=12 => some,
        _ => few,
    };
    // In long ones nearly all is QPSK, most of the time: each answer has the whole area.
    let mut frame = Frame { mode: rng.below(3), scheme: any_scheme(rng, symbols > 24), bytes: vec![] };
    // The most blocks, the fewest that need so many symbols, or any number between.
    let most = frame.blocks_of(symbols).max(1);
    let fewest = (frame.blocks_of(symbols - 1) + 1).min(most);
    let any = rng.between(fewest, most);
    let blocks = rng.pick(&[fewest, most, any, any]);
    frame.bytes = bytes_of_a_frame(rng, blocks * BLOCK_BYTES[frame.mode]);
    frame
}

/// The symbols as they come: mostly all of them; or one is left out, comes twice or changes places, or they end early.
fn as_they_come(rng: &mut Rng, mut symbols: Vec<Symbol>) -> Vec<Symbol> {
    let (one, other) = (place(rng, symbols.len()), place(rng, symbols.len()));
    match rng.below(24) {
        0 => {
            symbols.remove(one);
        }
        1 => symbols.insert(one, symbols[one].clone()),
        2 => symbols.swap(one, other),
        3 => symbols.truncate(one),
        _ => {}
    }
    symbols
}

/// Puts calls with short lists of points before some of the others.
fn with_short_calls(rng: &mut Rng, calls: &mut Vec<Symbol>) {
    if calls.is_empty() {
        return;
    }
    for _ in 0..rng.pick(&[1, 1, 2, 4]) {
        let at = place(rng, calls.len());
        let (mut i, mut q) = calls[at].clone();
        let short = some_of(rng, 2, true);
        if short[0] {
            lent::fit(rng, &mut i, true);
        }
        if short[1] {
            lent::fit(rng, &mut q, true);
        }
        calls.insert(at, (i, q));
    }
}

/// Calls after the last symbol: none in half of the streams, else one to three, with a symbol, nothing, or anything.
fn with_further_calls(rng: &mut Rng, calls: &mut Vec<Symbol>) {
    for _ in 0..rng.pick(&[0, 0, 0, 1, 2, 3]) {
        let poison = (lent::levels(rng, 256, false), lent::levels(rng, 256, false));
        let further = match rng.below(3) {
            0 if !calls.is_empty() => calls[place(rng, calls.len())].clone(),
            1 => (vec![], vec![]),
            _ => poison,
        };
        calls.push(further);
    }
}

/// A call with these points. What has them all is longer than need be now and then.
fn lent_call(rng: &mut Rng, (mut i, mut q): Symbol) -> Call {
    for list in [&mut i, &mut q] {
        if list.len() >= 256 && rng.once_in(4) {
            lent::fit(rng, list, false);
        }
    }
    Call { i, q, after: None }
}

#[cfg(test)]
mod tests {
    use super::*;

    #[test]
    fn frames_fit_and_have_any_number_of_symbols() {
        let mut rng = Rng::new(1);
        let counts: Vec<usize> = (0..3_000).map(|_| any_frame(&mut rng).plan().symbols).collect();
        assert!((1..=5).all(|few| counts.iter().filter(|&&count| count == few).count() > 100));
        assert!(counts.contains(&SYMBOLS) && counts.iter().any(|count| (25..256).contains(count)));
    }

    #[test]
    fn blocks_are_complete_where_they_should() {
        let mut rng = Rng::new(2);
        for _ in 0..500 {
            let frame = any_frame(&mut rng);
            let plan = frame.plan();
            let symbol = rng.below(plan.symbols);
            let end = (block_in(&mut rng, &frame, symbol) + 1) * plan.block_bits();
            let complete = end.div_ceil(plan.symbol_bits) - 1;
            assert!(complete == symbol || complete == symbol + 1 || end == plan.coded_bits);
        }
    }
}
