//! States of streams with a field that is not what opening and steps give; now and then one that they could give too.

use super::place;
use crate::payload_b::plan;
use crate::rng::Rng;
use crate::scrambler;
use crate::state_b::{State, WORDS};

/// Changes a field.
pub fn forge(rng: &mut Rng, state: &mut State) {
    match rng.below(17) {
        0 => state.seen = beside(rng, state.seen),
        1 => state.seen = further(rng, state),
        2 => state.count = beside(rng, state.count),
        3 => state.count = rng.pick(&[0, 7, 8, 504, 507, 508, 511, 512, 513, 1 << 32, u64::MAX]),
        4 => behind(rng, state),
        5 => waiting(rng, state),
        6 => state.register = register(rng, state),
        7 => state.mode = rng.pick(&[0, 1, 2, 2, 3, 255]),
        8 => state.size = size(rng, state),
        9 => scheme(rng, state),
        10 => state.worst = beside(rng, state.worst),
        11 => state.mended = beside(rng, state.mended),
        12 => (state.mended, state.worst) = counts(rng, state),
        13 => ended(rng, state),
        _ => (state.number, state.place) = refusal(rng),
    }
}

/// A number off by one, off by a power of two, or any; round the end if need be.
fn beside(rng: &mut Rng, number: u64) -> u64 {
    let power = 1u64 << rng.below(64);
    let step = rng.pick(&[1, 1, u64::MAX, u64::MAX, 2, power, power.wrapping_neg()]);
    let any = rng.draw();
    rng.pick(&[number.wrapping_add(step), number.wrapping_add(step), number.wrapping_add(step), any, 0])
}

/// OFDM symbols up to the last and beyond it; or so many that their bits come round to the same number.
fn further(rng: &mut Rng, state: &State) -> u64 {
    let symbols = plan(state.mode, state.size, &state.scheme).map_or(1, |plan| plan.symbols as u64);
    let round = rng.pick(&[8, 16, 32, 56, 60, 61, 62, 63]);
    rng.pick(&[symbols, symbols + 1, 256, 257, state.seen.wrapping_add(1 << round), u64::MAX])
}

/// As at the end of the frame, with as many OFDM symbols as it has, or with more.
fn ended(rng: &mut Rng, state: &mut State) {
    if let Ok(plan) = plan(state.mode, state.size, &state.scheme) {
        (state.block, state.count) = ([0; WORDS], 0);
        state.register = scrambler::stages(8 * plan.length);
        state.seen = plan.symbols as u64;
        state.seen = further(rng, state);
    }
}

/// Sets a bit of the block behind those that wait.
fn behind(rng: &mut Rng, state: &mut State) {
    let first = state.count.min(511) as usize;
    let bit = first + place(rng, 512 - first);
    state.block[bit / 64] |= 1 << (63 - bit % 64);
}

/// Flips a bit of those that wait: other points could have given that.
fn waiting(rng: &mut Rng, state: &mut State) {
    let bit = place(rng, state.count.clamp(1, 512) as usize);
    state.block[bit / 64] ^= 1 << (63 - bit % 64);
}

/// The scrambler's stages after other blocks than those done; or one stage off, or any.
fn register(rng: &mut Rng, state: &State) -> u16 {
    let stage = state.register ^ 1 << rng.below(16);
    let bytes = rng.pick(&[1, 59, 54]) * rng.below(8);
    let elsewhere = scrambler::stages(8 * bytes);
    let any = rng.draw() as u16;
    let beyond = state.register | 1 << 15;
    rng.pick(&[stage, stage, elsewhere, elsewhere, 0, any, beyond, beyond])
}

/// A length off by a block or a little, or one that is none.
fn size(rng: &mut Rng, state: &State) -> u64 {
    let size = state.size;
    let unit = rng.pick(&[1, 59, 54, 59 * 54]);
    let wrapped = size.wrapping_add(1 << rng.pick(&[32, 61, 63]));
    rng.pick(&[size.wrapping_add(unit), size.wrapping_sub(unit), 0, wrapped, u64::MAX, size.wrapping_mul(2)])
}

/// An entry off by one or out of range; or two that change places, with the same sum.
fn scheme(rng: &mut Rng, state: &mut State) {
    let (one, other) = (place(rng, state.scheme.len()), place(rng, state.scheme.len()));
    let entry = state.scheme[one];
    match rng.below(4) {
        0 => state.scheme.swap(one, other),
        1 => state.scheme[one] = rng.pick(&[0, 1, 11, 12, 255]),
        _ => state.scheme[one] = rng.pick(&[entry.wrapping_add(1), entry.wrapping_sub(1)]),
    }
}

/// Totals and worsts at the edges of what is possible: as many as there could be, one more, a worst above the total.
fn counts(rng: &mut Rng, state: &State) -> (u64, u64) {
    let Ok(plan) = plan(state.mode, state.size, &state.scheme) else {
        return (rng.draw(), rng.draw());
    };
    let t = plan.code.map_or(0, |code| code.t as u64);
    let done = (plan.symbol_bits as u64).wrapping_mul(state.seen) / plan.block_bits() as u64;
    let done = done.min(plan.blocks() as u64);
    let worst = rng.between(0, t as usize + 1) as u64;
    let most = worst * done;
    let any = rng.below(most as usize + 2) as u64;
    rng.pick(&[
        (most, worst),
        (most, worst),
        (most + 1, worst),
        (worst, worst),
        (worst.saturating_sub(1), worst),
        (any, worst),
        (t * done, t),
        (t * done + 1, t + 1),
        (0, 1 << 63),
    ])
}

/// A refusal of ours, one with a place where none is named, or a number that is none.
fn refusal(rng: &mut Rng) -> (u8, u64) {
    let (number, any) = (rng.between(1, 17) as u8, rng.draw());
    (rng.pick(&[number, number, number, number, 0, 255]), rng.pick(&[0, 0, 0, 1, 210, 65_535, any, u64::MAX]))
}
