//! A stream's state as the proved crates keep it, field by field, and a step from any such state, also from one that no
//! stream has.
//!
//! Whether a stream has it is found by making the stream: its blocks and waiting bits are counted off symbol by symbol,
//! and what is made must have just this state again.

use crate::answer::{Answer, Refusal};
use crate::grid::AVAILABLE;
use crate::payload_b::{plan, Plan};
use crate::scrambler;
use crate::stream_b::Stream;
use std::fmt;

/// Machine words of the unfinished block.
pub const WORDS: usize = 8;

/// Bytes of a state.
pub const BYTES: usize = AVAILABLE + 8 * WORDS + 52;

/// The fields in the order of their bytes; integers are little-endian.
#[derive(Clone, Debug, PartialEq, Eq)]
pub struct State {
    pub scheme: Vec<u8>,
    /// The bits that wait, the first one the highest of the first word, and zeros behind them.
    pub block: [u64; WORDS],
    /// How many wait.
    pub count: u64,
    pub mode: u8,
    /// Bytes of the frame.
    pub size: u64,
    /// OFDM symbols taken.
    pub seen: u64,
    /// The scrambler's stages, 15 binary digits, stage 15 the highest.
    pub register: u16,
    pub mended: u64,
    pub worst: u64,
    /// The refusal that is repeated; 0 and 0 in an open stream.
    pub number: u8,
    pub place: u64,
}

/// A step from a state of `BYTES` bytes, which is left as the step leaves it.
pub fn step(state: &mut Vec<u8>, i: &[i16], q: &[i16], area: &mut [u8]) -> Answer {
    let fields = State::of_bytes(state).expect("as many bytes as a state has");
    if (fields.number, fields.place) != (0, 0) {
        return Err(Refusal::of(fields.number, fields.place).unwrap_or(Refusal::Forged));
    }
    let mut stream = fields.stream().ok_or(Refusal::Forged)?;
    let answer = stream.step(i, q, area);
    *state = State::of(&stream).to_bytes();
    answer
}

impl State {
    /// That of a stream.
    pub fn of(stream: &Stream) -> State {
        let (number, place) = stream.refusal.map_or((0, 0), |refusal| (refusal.number(), refusal.place()));
        State {
            scheme: stream.scheme.clone(),
            block: words(&stream.waiting),
            count: stream.waiting.len() as u64,
            mode: stream.mode,
            size: stream.length,
            seen: stream.seen as u64,
            register: scrambler::stages(8 * bytes_of_block(stream.mode) * stream.done),
            mended: stream.mended,
            worst: stream.worst,
            number,
            place,
        }
    }

    /// The open stream that has this state; none if no opening and no steps give it.
    pub fn stream(&self) -> Option<Stream> {
        let plan = plan(self.mode, self.size, &self.scheme).ok()?;
        if self.seen > plan.symbols as u64 {
            return None;
        }
        let seen = self.seen as usize;
        let (done, waiting) = counted_off(&plan, seen);
        let stream = Stream {
            mode: self.mode,
            length: self.size,
            scheme: self.scheme.clone(),
            seen,
            done,
            waiting: bits(&self.block)[..waiting].to_vec(),
            mended: self.mended,
            worst: self.worst,
            refusal: None,
        };
        (can_be_mended(&plan, done, self.mended, self.worst) && State::of(&stream) == *self).then_some(stream)
    }

    pub fn to_bytes(&self) -> Vec<u8> {
        let mut to = self.scheme.clone();
        to.extend(self.block.iter().flat_map(|word| word.to_le_bytes()));
        to.extend(self.count.to_le_bytes());
        to.push(self.mode);
        to.extend(self.size.to_le_bytes());
        to.extend(self.seen.to_le_bytes());
        to.extend(self.register.to_le_bytes());
        to.extend(self.mended.to_le_bytes());
        to.extend(self.worst.to_le_bytes());
        to.push(self.number);
        to.extend(self.place.to_le_bytes());
        to
    }

    /// The state of just so many bytes.
    pub fn of_bytes(bytes: &[u8]) -> Option<State> {
        if bytes.len() != BYTES {
            return None;
        }
        let (scheme, mut rest) = bytes.split_at(AVAILABLE);
        let mut next = |width: usize| {
            let (first, after) = rest.split_at(width);
            rest = after;
            first.iter().rev().fold(0, |number, &byte| number << 8 | byte as u64)
        };
        Some(State {
            scheme: scheme.to_vec(),
            block: std::array::from_fn(|_| next(8)),
            count: next(8),
            mode: next(1) as u8,
            size: next(8),
            seen: next(8),
            register: next(2) as u16,
            mended: next(8),
            worst: next(8),
            number: next(1) as u8,
            place: next(8),
        })
    }
}

/// The fields in a line, the sum alone of the scheme.
impl fmt::Display for State {
    fn fmt(&self, f: &mut fmt::Formatter) -> fmt::Result {
        let sum: u64 = self.scheme.iter().map(|&bits| bits as u64).sum();
        let State { count, mode, size, seen, register, mended, worst, number, place, .. } = self;
        write!(
            f,
            "mode {mode}, size {size}, bits a symbol {sum}, seen {seen}, count {count}, register {register:015b}"
        )?;
        write!(f, ", mended {mended}, worst {worst}, number {number}, place {place}")
    }
}

/// Bytes of the frame in a block of this mode.
fn bytes_of_block(mode: u8) -> usize {
    crate::bch::code(mode).map_or(1, |code| code.k / 8)
}

/// How many blocks are complete after so many symbols, and how many bits wait, counted symbol by symbol.
fn counted_off(plan: &Plan, symbols: usize) -> (usize, usize) {
    let (mut done, mut waiting) = (0, 0);
    for _ in 0..symbols {
        waiting += plan.symbol_bits;
        while waiting >= plan.block_bits() && done < plan.blocks() {
            waiting -= plan.block_bits();
            done += 1;
        }
    }
    (done, if done < plan.blocks() { waiting } else { 0 })
}

/// Whether so many bits can be mended in the blocks done, and so many in the worst of them: that one has its own, and
/// no other has more.
fn can_be_mended(plan: &Plan, done: usize, mended: u64, worst: u64) -> bool {
    let t = plan.code.map_or(0, |code| code.t as u64);
    worst <= t && (worst..=worst * done as u64).contains(&mended)
}

/// Bits in machine words, the first one the highest of the first word.
pub fn words(bits: &[u8]) -> [u64; WORDS] {
    let bit = |place| bits.get(place).copied().unwrap_or(0) as u64;
    std::array::from_fn(|word| (0..64).fold(0, |sum, place| sum << 1 | bit(64 * word + place)))
}

/// The bits of machine words.
pub fn bits(words: &[u64]) -> Vec<u8> {
    words.iter().flat_map(|word| (0..64).rev().map(move |place| (word >> place & 1) as u8)).collect()
}

#[cfg(test)]
mod tests {
    use super::*;
    use crate::rng::Rng;
    use crate::stream_b::open;

    #[test]
    fn a_state_has_326_bytes_and_is_read_back() {
        assert_eq!(BYTES, 326);
        let mut rng = Rng::new(1);
        for _ in 0..100 {
            let bytes = rng.bytes(BYTES);
            assert_eq!(State::of_bytes(&bytes).unwrap().to_bytes(), bytes);
        }
        assert!([0, 325, 327].iter().all(|&count| State::of_bytes(&vec![0; count]).is_none()));
    }

    #[test]
    fn bytes_of_an_opened_state_by_hand() {
        let head = [&[2; 210][..], &[0; 64], &[0; 8]].concat();
        let size = [177, 0, 0, 0, 0, 0, 0, 0];
        // 010010011011000 is 24D8 hexadecimal.
        let tail = [&[0; 8][..], &[0xD8, 0x24], &[0; 16], &[0; 9]].concat();
        let bytes = [&head[..], &[1], &size, &tail].concat();
        assert_eq!(State::of(&open(1, 177, &[2; 210])).to_bytes(), bytes);
        // A refused opening: 5, place 3.
        let mut scheme = [2; 210];
        scheme[3] = 11;
        let bytes = [&[0; 210 + 64 + 8 + 1 + 8 + 8][..], &[0xD8, 0x24], &[0; 16], &[5, 3], &[0; 7]].concat();
        assert_eq!(State::of(&open(1, 177, &scheme)).to_bytes(), bytes);
    }

    #[test]
    fn words_and_bits() {
        let block = words(&[1, 0, 1]);
        assert_eq!(block, [5 << 61, 0, 0, 0, 0, 0, 0, 0]);
        let any = Rng::new(2).bits(512);
        assert_eq!(bits(&words(&any)), any);
    }

    #[test]
    fn refusals_that_are_none_are_forged() {
        let opened = State::of(&open(0, 5, &[4; 210]));
        for (number, place, answered) in
            [(4, u64::MAX, 4), (16, 0, 16), (0, 1, 16), (3, 1, 16), (12, 0, 16), (255, 9, 16), (11, 0, 11)]
        {
            let before = State { number, place, ..opened.clone() }.to_bytes();
            let mut state = before.clone();
            let mut area = [3; 5];
            let refusal = step(&mut state, &[0; 256], &[0; 256], &mut area).unwrap_err();
            assert_eq!((refusal.number(), refusal.place()), (answered, if answered == 4 { place } else { 0 }));
            assert_eq!((state, area), (before, [3; 5]));
        }
    }
}
