//! Jobs 5 and 6: Payload B.

use super::grids::{Carried, Grid};
use super::{bytes_of_a_frame, flip, lent, place, some_of, unknown, words, Faults};
use crate::grid::{AVAILABLE, CARRIERS};
use crate::payload_b::{mapped, plan, Plan};
use crate::rng::Rng;
use crate::trial::{Request, MOST_BYTES};
use crate::{bch, bits, scrambler};

/// Bits of a block as sent, and bytes of its information, by mode.
const BLOCK_BITS: [usize; 3] = [8, 508, 504];
pub const BLOCK_BYTES: [usize; 3] = [1, 59, 54];

/// The most symbols of a frame.
pub const SYMBOLS: usize = 256;

/// A frame that can be sent.
pub struct Frame {
    pub mode: usize,
    pub scheme: Vec<u8>,
    pub bytes: Vec<u8>,
}

impl Frame {
    pub fn plan(&self) -> Plan {
        plan(self.mode as u8, self.bytes.len() as u64, &self.scheme).expect("a frame that fits")
    }

    /// Bits of a symbol.
    pub fn sum(&self) -> usize {
        self.scheme.iter().map(|&bits| bits as usize).sum()
    }

    /// The most blocks that so many symbols hold.
    pub fn blocks_of(&self, symbols: usize) -> usize {
        symbols * self.sum() / BLOCK_BITS[self.mode]
    }
}

pub fn send(rng: &mut Rng) -> Request {
    let faults = Faults::aim(rng, &[1, 2, 3, 5, 6]);
    let frame = any_frame(rng, faults.has(6));
    let unit = BLOCK_BYTES[frame.mode];
    let need = frame.plan().symbols * CARRIERS;
    let short = some_of(rng, 2, faults.has(3));
    let i = lent::levels(rng, need, short[0]);
    let q = lent::levels(rng, need, short[1]);
    let bytes = if faults.has(2) {
        let length = wrong_length(rng, frame.mode, frame.bytes.len());
        rng.bytes(length)
    } else if faults.has(6) {
        // Mostly one block too many; or the last one that fits, which finds no room then.
        let blocks = frame.blocks_of(SYMBOLS) + rng.pick(&[0, 1, 1, 1]);
        rng.bytes(blocks * unit)
    } else {
        frame.bytes
    };
    let scheme = told_scheme(rng, &faults, frame.scheme);
    Request::SendB { mode: told_mode(rng, &faults, frame.mode), frame: bytes, scheme, i, q }
}

pub fn receive(rng: &mut Rng) -> Request {
    // A quarter are short frames that have no fault but stray points, so that these decide the answer often; an eighth
    // have none, and several blocks, so that the worst of them does.
    let (faults, frame) = match rng.below(8) {
        0 | 1 => (Faults(vec![8]), short_frame(rng)),
        2 => (Faults(vec![]), frame_of_blocks(rng)),
        _ => (Faults::aim(rng, &[1, 2, 3, 5, 6, 7, 8, 9]), any_frame(rng, false)),
    };
    let sent = damaged(rng, &faults, &frame);
    let mut grid = Grid::new(&mapped(&sent, &frame.scheme), Carried::Scheme(&frame.scheme));
    if rng.once_in(12) {
        let count = rng.pick(&[1, 1, 2, 5, 210]);
        grid.wander(rng, count);
    }
    if faults.has(8) {
        grid.stray(rng);
    }
    if faults.has(7) {
        grid.fill(rng);
    }
    let (mut i, mut q) = (grid.i, grid.q);
    let length = told_length(rng, &faults, &frame);
    let short = some_of(rng, 3, faults.has(3));
    lent::fit(rng, &mut i, short[0]);
    lent::fit(rng, &mut q, short[1]);
    let area = lent::bytes(rng, room_for(length, &frame), short[2]);
    let scheme = told_scheme(rng, &faults, frame.scheme);
    Request::ReceiveB { mode: told_mode(rng, &faults, frame.mode), length, scheme, i, q, area }
}

pub fn told_mode(rng: &mut Rng, faults: &Faults, mode: usize) -> u8 {
    if faults.has(1) {
        unknown(rng, 0..=2)
    } else if rng.once_in(60) {
        rng.below(3) as u8
    } else {
        mode as u8
    }
}

/// A frame that fits. In a low one nearly all is QPSK, most of the time, so that one too long for it stays small.
pub fn any_frame(rng: &mut Rng, low: bool) -> Frame {
    if !low && rng.once_in(8) {
        return all_labels(rng);
    }
    let mut frame = Frame { mode: rng.below(3), scheme: any_scheme(rng, low), bytes: vec![] };
    let blocks = any_blocks(rng, &frame);
    frame.bytes = bytes_of_a_frame(rng, blocks * BLOCK_BYTES[frame.mode]);
    frame
}

/// A frame of at most three symbols.
fn short_frame(rng: &mut Rng) -> Frame {
    loop {
        let frame = any_frame(rng, false);
        if frame.plan().symbols <= 3 {
            return frame;
        }
    }
}

/// A coded frame of three to six blocks.
fn frame_of_blocks(rng: &mut Rng) -> Frame {
    let (mode, blocks) = (rng.between(1, 2), rng.between(3, 6));
    Frame { mode, scheme: any_scheme(rng, false), bytes: bytes_of_a_frame(rng, blocks * BLOCK_BYTES[mode]) }
}

/// A frame that is sent as every label of a constellation in turn.
fn all_labels(rng: &mut Rng) -> Frame {
    let bits_each = rng.between(2, 10);
    let labels = 0..1u16 << bits_each;
    let mut sent: Vec<u8> = labels.flat_map(|l| (0..bits_each).rev().map(move |b| (l >> b & 1) as u8)).collect();
    sent.resize(sent.len().next_multiple_of(8), 1);
    Frame { mode: 0, scheme: vec![bits_each as u8; AVAILABLE], bytes: bits::to_bytes(&scrambler::scrambled(&sent)) }
}

/// A scheme: all alike, at random, two kinds, a ramp, or with a sum at the edge of a block.
pub fn any_scheme(rng: &mut Rng, low: bool) -> Vec<u8> {
    if low && !rng.once_in(8) {
        let other = rng.between(2, 3) as u8;
        return (0..AVAILABLE).map(|_| rng.pick(&[2, 2, 2, other])).collect();
    }
    let (one, two) = (rng.between(2, 10) as u8, rng.between(2, 10) as u8);
    match rng.below(6) {
        0 | 1 => vec![one; AVAILABLE],
        2 => (0..AVAILABLE).map(|_| rng.pick(&[one, two])).collect(),
        3 => (0..AVAILABLE).map(|s| 2 + (s + one as usize) as u8 % 9).collect(),
        4 => scheme_of_sum(rng),
        _ => (0..AVAILABLE).map(|_| rng.between(2, 10) as u8).collect(),
    }
}

/// A scheme whose symbols hold a block, two or more of them, or a bit more or less.
fn scheme_of_sum(rng: &mut Rng) -> Vec<u8> {
    let target = rng.pick(&[508, 504, 1016, 1008, 1524, 1512, 2032, 2016]) + rng.pick(&[0, 1, 1, 2]) - 1;
    let mut scheme = vec![2; AVAILABLE];
    for _ in 2 * AVAILABLE..target {
        let mut s = rng.below(AVAILABLE);
        while scheme[s] == 10 {
            s = (s + 1) % AVAILABLE;
        }
        scheme[s] += 1;
    }
    scheme
}

/// The scheme as it is; or of a wrong length, with entries outside 2..10 at the edges, or both.
pub fn told_scheme(rng: &mut Rng, faults: &Faults, mut scheme: Vec<u8>) -> Vec<u8> {
    if !faults.has(5) {
        return scheme;
    }
    let kind = rng.below(5);
    if kind != 0 {
        for _ in 0..rng.pick(&[1, 1, 2, 6]) {
            let s = place(rng, scheme.len());
            scheme[s] = rng.pick(&[0, 1, 1, 11, 11, 255, 12, 18, 128]);
        }
    }
    if kind <= 1 {
        scheme.resize(rng.pick(&[209, 211, 0, 1, 256, 420, 105]), 4);
    }
    scheme
}

/// How many blocks (bytes in mode 0) a frame has: few, just up to the end of a symbol or beyond it, and now and then
/// many, up to the most there can be.
fn any_blocks(rng: &mut Rng, frame: &Frame) -> usize {
    let most = frame.blocks_of(SYMBOLS);
    if rng.once_in(60) {
        return if rng.once_in(2) { most } else { rng.between(1, most) };
    }
    let up_to_the_end = frame.blocks_of(rng.between(1, 3));
    match rng.below(4) {
        0 => up_to_the_end.max(1),
        1 => up_to_the_end + 1,
        _ if frame.mode == 0 => rng.between(1, 400),
        _ => rng.between(1, 6),
    }
}

/// A length that no frame of the mode has: none, beside a multiple, or another mode's.
fn wrong_length(rng: &mut Rng, mode: usize, right: usize) -> usize {
    let any = rng.below(1_000);
    let length = rng.pick(&[0, right + 1, right - 1, 58, 59, 54, 55, any]);
    if length.is_multiple_of(BLOCK_BYTES[mode]) {
        0
    } else {
        length
    }
}

/// The length a receiver is told: mostly the true one.
pub fn told_length(rng: &mut Rng, faults: &Faults, frame: &Frame) -> u64 {
    let (length, unit) = (frame.bytes.len() as u64, BLOCK_BYTES[frame.mode] as u64);
    if faults.has(2) {
        let wrong = wrong_length(rng, frame.mode, frame.bytes.len()) as u64;
        return if unit > 1 && rng.once_in(3) { rng.pick(&[u64::MAX, 1 << 63, 1 << 32]) } else { wrong };
    }
    if faults.has(6) {
        return too_long(rng, frame);
    }
    match rng.below(40) {
        0 => length + unit,
        1 => (length - unit).max(unit),
        // The longest that can be: only the points and the area are too short for it.
        2 => frame.blocks_of(SYMBOLS) as u64 * unit,
        _ => length,
    }
}

/// How many bytes are lent for a frame that is told to have this length.
pub fn room_for(length: u64, frame: &Frame) -> usize {
    let room = if length <= 2 * frame.bytes.len() as u64 { length as usize } else { frame.bytes.len() };
    room.min(MOST_BYTES)
}

/// A legal length of too many symbols: just too many, or so many that some number on the way wraps round.
fn too_long(rng: &mut Rng, frame: &Frame) -> u64 {
    let unit = BLOCK_BYTES[frame.mode] as u64;
    let bits = BLOCK_BITS[frame.mode] as u64;
    let blocks = frame.bytes.len() as u64 / unit;
    let most = u64::MAX / unit;
    let few = rng.below(300) as u64;
    let many = rng.pick(&[
        frame.blocks_of(SYMBOLS) as u64 + 1,
        frame.blocks_of(SYMBOLS) as u64 + 1,
        frame.blocks_of(SYMBOLS) as u64 + blocks.max(1),
        frame.blocks_of(1 << 16) as u64 + blocks.max(1),
        (1 << 32) / bits + 1 + few,
        (1 << 32) + blocks,
        u64::MAX / bits + 1 + few,
        most,
        most - few,
    ]);
    many.min(most) * unit
}

/// The bits of whole symbols for a frame: blocks hit, and a fill that need not be zeros.
fn damaged(rng: &mut Rng, faults: &Faults, frame: &Frame) -> Vec<u8> {
    let blocks = frame.plan().blocks();
    let hopeless = if frame.mode > 0 && faults.has(9) { vec![place(rng, blocks), place(rng, blocks)] } else { vec![] };
    with_hopeless(rng, frame, &hopeless)
}

/// The same, with these blocks hopeless.
pub fn with_hopeless(rng: &mut Rng, frame: &Frame, hopeless: &[usize]) -> Vec<u8> {
    let plan = frame.plan();
    let mut sent = plan.coded(&scrambler::scrambled(&bits::of_bytes(&frame.bytes)));
    if let Some(code) = bch::code(frame.mode as u8) {
        let blocks = sent.len() / code.n;
        let hits = mendable(rng, code.t, blocks);
        for (number, block) in sent.chunks_mut(code.n).enumerate() {
            if hopeless.contains(&number) {
                words::make_hopeless(rng, code, block);
            } else {
                flip(rng, block, hits[number]);
            }
        }
    }
    let fill = plan.symbols * plan.symbol_bits - sent.len();
    let tail = match rng.below(3) {
        0 => vec![0; fill],
        1 => vec![1; fill],
        _ => rng.bits(fill),
    };
    [sent, tail].concat()
}

/// How many hits each block has, at most t: none, or one block alone the worst, or each as it comes.
fn mendable(rng: &mut Rng, t: usize, blocks: usize) -> Vec<usize> {
    match rng.below(5) {
        0 => vec![0; blocks],
        1 | 2 => one_worst(rng, t, blocks),
        _ => (0..blocks).map(|_| words::mendable(rng, t)).collect(),
    }
}

/// Hits of which the first block, the middle one, the last or any has the most, and the others often just one less.
fn one_worst(rng: &mut Rng, t: usize, blocks: usize) -> Vec<usize> {
    let worst = rng.between(1, t);
    let less = |_| {
        let any = rng.below(worst);
        rng.pick(&[any, any, worst - 1])
    };
    let mut hits: Vec<usize> = (0..blocks).map(less).collect();
    let any = rng.below(blocks);
    hits[rng.pick(&[0, blocks / 2, blocks - 1, any])] = worst;
    hits
}

#[cfg(test)]
mod tests {
    use super::*;
    use crate::answer::Refusal;
    use crate::points::constellation;

    #[test]
    fn lengths_are_refused_as_they_should_be() {
        let mut rng = Rng::new(1);
        for _ in 0..2_000 {
            let frame = any_frame(&mut rng, false);
            let mode = frame.mode as u8;
            let long = too_long(&mut rng, &frame);
            assert_eq!(plan(mode, long, &frame.scheme).err(), Some(Refusal::TooManySymbols));
            let wrong = wrong_length(&mut rng, frame.mode, frame.bytes.len()) as u64;
            assert_eq!(plan(mode, wrong, &frame.scheme).err(), Some(Refusal::WrongLength));
        }
    }

    #[test]
    fn one_block_alone_is_the_worst_and_any_can_be_it() {
        let mut rng = Rng::new(5);
        for (t, blocks) in [(4, 1), (4, 2), (8, 3), (8, 6)] {
            let mut seen = vec![0; blocks];
            for _ in 0..500 {
                let hits = one_worst(&mut rng, t, blocks);
                let most = *hits.iter().max().unwrap();
                assert!((1..=t).contains(&most) && hits.iter().filter(|&&count| count == most).count() == 1);
                seen[hits.iter().position(|&count| count == most).unwrap()] += 1;
            }
            assert!(seen.iter().all(|&count| count > 5), "{seen:?}");
        }
    }

    #[test]
    fn spoilt_schemes_are_spoilt() {
        let mut rng = Rng::new(2);
        for _ in 0..500 {
            let scheme = told_scheme(&mut rng, &Faults(vec![5]), scheme_of_sum(&mut Rng::new(3)));
            assert!(matches!(plan(0, 1, &scheme).err(), Some(Refusal::BadScheme(_))));
        }
    }

    #[test]
    fn all_labels_are_sent() {
        let mut rng = Rng::new(4);
        for _ in 0..20 {
            let frame = all_labels(&mut rng);
            let sent = damaged(&mut rng, &Faults(vec![]), &frame);
            let points = mapped(&sent, &frame.scheme);
            assert!(constellation(frame.scheme[0]).unwrap().points().iter().all(|point| points.contains(point)));
        }
    }
}
