//! The rows of Payload B: all QPSK, all 1024QAM and all sizes mixed, over more and more OFDM symbols, so that the time for
//! each is seen.

use crate::rows::{Answer, Calls, Input, Row, GROUP};
use crate::{ours, theirs};
use second::rng::Rng;
use second::{bch, bits, grid, payload_b, scrambler};

/// OFDM symbols in each row, over all its calls.
pub const SYMBOLS: usize = 1024;

/// OFDM symbols of a call, beside the least that hold a block: so many, and the most of a frame.
pub const SOME: usize = 16;
pub const MOST: usize = payload_b::MOST_SYMBOLS as usize;

/// A scheme's name, and the bits of point s, from 0.
type Scheme = (&'static str, fn(usize) -> u8);

const SCHEMES: [Scheme; 3] = [("QPSK", |_| 2), ("mixed", |s| 2 + (s % 9) as u8), ("1024QAM", |_| 10)];

/// A job's name, and its calls.
type Job = (&'static str, Calls);

const SEND: Job = ("send", (ours::send_b, theirs::send_b));
const RECEIVE: Job = ("receive", (ours::receive_b, theirs::receive_b));
const STREAM: Job = ("receive by steps", (ours::stream_b, theirs::stream_b));

/// All rows of Payload B whole: receiving, clean and, if coded, with t hits in each block, and sending.
pub fn all() -> impl Iterator<Item = Row> {
    schemes().flat_map(|(mode, scheme)| received(mode, scheme, RECEIVE).chain(frames(mode, scheme).map(Longest::sent)))
}

/// All rows of Payload B by steps: the same frames as received whole.
pub fn streams() -> impl Iterator<Item = Row> {
    schemes().flat_map(|(mode, scheme)| received(mode, scheme, STREAM))
}

/// The modes, each with the schemes.
fn schemes() -> impl Iterator<Item = (u8, Scheme)> {
    [2, 1, 0].into_iter().flat_map(|mode| SCHEMES.into_iter().map(move |scheme| (mode, scheme)))
}

/// The longest frames of the three numbers of OFDM symbols. Where one OFDM symbol holds no block, two are the least.
fn frames(mode: u8, scheme: Scheme) -> impl Iterator<Item = Longest> {
    let longest = move |symbols: usize| Longest { mode, scheme, symbols };
    let least = if longest(1).blocks() > 0 { 1 } else { 2 };
    [least, SOME, MOST].into_iter().map(longest)
}

/// They are received clean and, if coded, with t hits in each block.
fn received(mode: u8, scheme: Scheme, job: Job) -> impl Iterator<Item = Row> {
    let hits = [0].into_iter().chain(bch::code(mode).map(|code| code.t));
    hits.flat_map(move |hits| frames(mode, scheme).map(move |frame| frame.received(job, hits)))
}

/// The longest frame that so many OFDM symbols hold.
#[derive(Clone, Copy)]
struct Longest {
    mode: u8,
    scheme: Scheme,
    symbols: usize,
}

impl Longest {
    /// Bytes and bits of a block; uncoded, each byte is one.
    fn block(self) -> (usize, usize) {
        bch::code(self.mode).map_or((1, 8), |code| (code.k / 8, code.n))
    }

    fn blocks(self) -> usize {
        let symbol_bits: usize = self.entries().into_iter().map(usize::from).sum();
        self.symbols * symbol_bits / self.block().1
    }

    fn bytes(self) -> usize {
        self.blocks() * self.block().0
    }

    fn entries(self) -> Vec<u8> {
        (0..grid::AVAILABLE).map(self.scheme.1).collect()
    }

    /// Sending it.
    fn sent(self) -> Row {
        self.row(SEND, "", 0, |rng| Input { bytes: rng.bytes(self.bytes()), ..self.input() })
    }

    /// Receiving it, each block with so many hits: all are mended.
    fn received(self, job: Job, hits: usize) -> Row {
        let hit = if hits > 0 { format!(", {hits} hits in each block") } else { ", clean".to_string() };
        self.row(job, &hit, hits, |rng| self.points(rng, hits))
    }

    /// Each block has so many hits, mended by the call.
    fn row(self, (job, (ours, theirs)): Job, hit: &str, hits: usize, input: impl Fn(&mut Rng) -> Input) -> Row {
        let mut rng = Rng::new(5);
        let plural = if self.symbols > 1 { "s" } else { "" };
        let (mended, worst) = ((self.blocks() * hits) as u64, hits as u64);
        Row {
            of: format!("Payload B, mode {}, {}", self.mode, self.scheme.0),
            name: format!("{job}, {} symbol{plural}, {} bytes{hit}", self.symbols, self.bytes()),
            symbols: self.symbols,
            ours,
            theirs,
            inputs: (0..SYMBOLS / self.symbols).map(|_| input(&mut rng)).collect(),
            group: (GROUP / self.symbols).max(1),
            told: Some(Answer { mended, worst, ..Answer::default() }),
        }
    }

    fn input(self) -> Input {
        Input { number: self.mode, scheme: self.entries(), ..Input::default() }
    }

    /// The points of such a frame, with so many bits of each block flipped on the way.
    fn points(self, rng: &mut Rng, hits: usize) -> Input {
        let (size, scheme) = (self.bytes(), self.entries());
        let plan = payload_b::plan(self.mode, size as u64, &scheme).expect("whole blocks, and few enough");
        assert_eq!(plan.symbols, self.symbols);
        let mut sent = plan.coded(&scrambler::scrambled(&bits::of_bytes(&rng.bytes(size))));
        for block in sent.chunks_mut(self.block().1) {
            rng.distinct(hits, block.len()).into_iter().for_each(|place| block[place] ^= 1);
        }
        sent.resize(plan.symbols * plan.symbol_bits, 0);
        let elements = plan.symbols * grid::CARRIERS;
        let (mut i, mut q) = (vec![0; elements], vec![0; elements]);
        grid::write(&payload_b::mapped(&sent, &scheme), &mut i, &mut q);
        Input { size, i, q, ..self.input() }
    }
}
