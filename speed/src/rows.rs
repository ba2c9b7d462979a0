//! The rows of the tables: what is called, and on what. Here those of the codes and of Payload A, and of the OFDM symbols
//! that a frame of Payload B needs.

use crate::{ours, theirs};
use second::rng::Rng;
use second::{bch, grid, payload_a, scrambler};

/// Words, frames or bursts in each row, all of them different but for chance.
pub const INPUTS: usize = 2048;

/// Calls that are timed together.
pub const GROUP: usize = 32;

/// Elements of the lent lists: more than any call writes, so that what lies beyond is compared too, and whole cache
/// lines.
const BYTES: usize = 67_200 + 64;
const POINTS: usize = 256 * 256 + 64;

/// What is passed: a code's or mode's number, and a word, a frame, or the points of a frame; for Payload B a scheme too,
/// and for deciding and receiving it the frame's size in bytes.
#[derive(Default)]
pub struct Input {
    pub number: u8,
    pub bytes: Vec<u8>,
    pub size: usize,
    pub scheme: Vec<u8>,
    pub i: Vec<i16>,
    pub q: Vec<i16>,
    /// A word as Linux takes it, and as decode_packed does.
    #[cfg(feature = "linux")]
    pub packed: Vec<u8>,
    #[cfg(feature = "linux")]
    pub words: [u64; 8],
}

/// What is lent: at the same place in its cache lines in every run.
#[derive(PartialEq)]
#[repr(C, align(64))]
pub struct Memory {
    pub bytes: [u8; BYTES],
    pub i: [i16; POINTS],
    pub q: [i16; POINTS],
    pub stream: ours::Stream,
}

impl Memory {
    pub fn new() -> Box<Memory> {
        Box::new(Memory { bytes: [7; BYTES], i: [7; POINTS], q: [7; POINTS], stream: ours::Stream::new() })
    }
}

/// The number, 0 for success, its place, and the counts, 0 where a call has none; and the places mended, of a
/// word in the first list, of Payload A's two halves in both, all 0 where a call has none.
#[derive(Debug, Default, PartialEq)]
pub struct Answer {
    pub number: u32,
    pub mended: u64,
    pub protected: u64,
    pub worst: u64,
    pub symbols: u64,
    pub place: u64,
    pub places: [[u16; 16]; 2],
}

pub type Call = fn(&Input, &mut Memory) -> Answer;

pub struct Row {
    pub of: String,
    pub name: String,
    /// OFDM symbols that a call sends, decides or receives; 0 where it does none of these.
    pub symbols: usize,
    pub ours: Call,
    pub theirs: Call,
    pub inputs: Vec<Input>,
    /// Calls that are timed together.
    pub group: usize,
    /// What every call must answer, where the row says so.
    pub told: Option<Answer>,
}

impl Row {
    /// What the row is of, and its call.
    pub fn whole(&self) -> String {
        format!("{}, {}", self.of, self.name)
    }
}

/// A call of ours and of second's.
pub type Calls = (Call, Call);

const ENCODE: Calls = (ours::encode, theirs::encode);
const DECODE: Calls = (ours::decode, theirs::decode);
const SEND_A: Calls = (ours::send_a, theirs::send_a);
const RECEIVE_A: Calls = (ours::receive_a, theirs::receive_a);
const SYMBOLS_B: Calls = (ours::symbols_b, theirs::symbols_b);

/// All rows but those of sending and receiving Payload B.
pub fn all() -> impl Iterator<Item = Row> {
    (1..=3).flat_map(of_code).chain(of_payload_a()).chain([symbols_needed()])
}

/// The rows of decoding a word.
#[cfg(feature = "linux")]
pub fn decoding() -> impl Iterator<Item = Row> {
    (1..=3).flat_map(of_code).filter(|row| row.name.starts_with("decode"))
}

fn row(of: &str, name: &str, (ours, theirs): Calls, mut input: impl FnMut() -> Input) -> Row {
    let inputs = (0..INPUTS).map(|_| input()).collect();
    Row { of: of.to_string(), name: name.to_string(), symbols: 0, ours, theirs, inputs, group: GROUP, told: None }
}

/// All rows of one code.
fn of_code(number: u8) -> Vec<Row> {
    let code = bch::code(number).expect("codes are numbered 1 to 3");
    let mut rng = Rng::new(number.into());
    let mut row = |name: &str, calls: Calls, word: &dyn Fn(&mut Rng) -> Vec<u8>| {
        row(&format!("code {number}"), name, calls, || Input { number, bytes: word(&mut rng), ..Input::default() })
    };
    let hit = |count: usize| {
        move |rng: &mut Rng| {
            let mut word = code.encoded(&rng.bits(code.k));
            rng.distinct(count, code.n).into_iter().for_each(|place| word[place] ^= 1);
            word
        }
    };
    vec![
        row("encode", ENCODE, &|rng| rng.bits(code.k)),
        row("decode, clean", DECODE, &hit(0)),
        row("decode, 1 hit", DECODE, &hit(1)),
        row(&format!("decode, t / 2 = {} hits", code.t / 2), DECODE, &hit(code.t / 2)),
        row(&format!("decode, t = {} hits", code.t), DECODE, &hit(code.t)),
        row(&format!("decode, t + 2 = {} hits", code.t + 2), DECODE, &hit(code.t + 2)),
        row("decode, random words", DECODE, &|rng| rng.bits(code.n)),
    ]
}

/// All rows of Payload A.
fn of_payload_a() -> Vec<Row> {
    let mut rng = Rng::new(4);
    let mut row = |mode: u8, name: &str, calls: Calls, input: &dyn Fn(&mut Rng, u8) -> Input| {
        let row = row(&format!("Payload A, mode {mode}"), name, calls, || input(&mut rng, mode));
        Row { symbols: payload_a::SYMBOLS, ..row }
    };
    vec![
        row(1, "send", SEND_A, &frame),
        row(1, "receive, clean", RECEIVE_A, &|rng, mode| burst(rng, mode, 0)),
        row(1, "receive, 16 hits in each half", RECEIVE_A, &|rng, mode| burst(rng, mode, 16)),
        row(0, "send", SEND_A, &frame),
        row(0, "receive, clean", RECEIVE_A, &|rng, mode| burst(rng, mode, 0)),
        Row {
            told: Some(Answer { number: 11, ..Answer::default() }),
            ..row(1, "receive, noise", RECEIVE_A, &|rng, mode| points(mode, &rng.bits(840)))
        },
    ]
}

/// Frames of Payload B in any mode, by schemes at random: of whole blocks, or a byte more; some are too long.
fn symbols_needed() -> Row {
    let mut rng = Rng::new(6);
    row("Payload B", "symbols needed", SYMBOLS_B, || {
        let (number, blocks) = (rng.below(3) as u8, rng.between(1, 700));
        let size = blocks * [100, 59, 54][number as usize] + rng.pick(&[0, 0, 0, 1]);
        let scheme = (0..grid::AVAILABLE).map(|_| rng.between(2, 10) as u8).collect();
        Input { number, size, scheme, ..Input::default() }
    })
}

/// A frame of this mode.
fn frame(rng: &mut Rng, mode: u8) -> Input {
    let length = payload_a::frame_bytes(mode).expect("modes are 0 and 1");
    Input { number: mode, bytes: rng.bytes(length), ..Input::default() }
}

/// The points of a frame, with so many of the 392 bits of each half flipped on the way.
fn burst(rng: &mut Rng, mode: u8, hits: usize) -> Input {
    let information = scrambler::scrambled(&payload_a::with_check(&frame(rng, mode).bytes));
    let mut bits = payload_a::coded(mode, &information);
    for half in bits.chunks_mut(392) {
        rng.distinct(hits, half.len()).into_iter().for_each(|place| half[place] ^= 1);
    }
    points(mode, &payload_a::with_fields(&bits))
}

/// The points of 840 bits.
fn points(mode: u8, bits: &[u8]) -> Input {
    let (i, q) = payload_a::on_grid(bits);
    Input { number: mode, i, q, ..Input::default() }
}
