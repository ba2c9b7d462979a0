//! Payload B received one OFDM symbol at a time (request 5).
//!
//! A stream keeps the bits that wait for the rest of their block, an element each, and how many blocks are done. The
//! scrambler has no state here: the sequence is taken from the place where the done blocks end.

use crate::answer::{check, Answer, Counts, Refusal};
use crate::payload_b::{plan, unmapped, Plan};
use crate::{bits, grid, scrambler};

/// A stream between two calls.
#[derive(Clone, Debug, PartialEq, Eq)]
pub struct Stream {
    /// What it was opened for. A refused opening leaves mode 0, no bytes, and a scheme of zeros.
    pub mode: u8,
    pub length: u64,
    pub scheme: Vec<u8>,
    /// OFDM symbols taken.
    pub seen: usize,
    /// Blocks complete; in mode 0, bytes.
    pub done: usize,
    /// The bits behind them, fewer than a block. Of the fill nothing is kept.
    pub waiting: Vec<u8>,
    /// Bits mended in the blocks complete, and in the worst of them.
    pub mended: u64,
    pub worst: u64,
    /// What every further call repeats.
    pub refusal: Option<Refusal>,
}

/// Opens a stream: the checks 1, 2, 5 and 6. The stream remembers if one fails.
pub fn open(mode: u8, length: u64, scheme: &[u8]) -> Stream {
    let refusal = plan(mode, length, scheme).err();
    let (mode, length, scheme) =
        if refusal.is_some() { (0, 0, vec![0; grid::AVAILABLE]) } else { (mode, length, scheme.to_vec()) };
    Stream { mode, length, scheme, seen: 0, done: 0, waiting: vec![], mended: 0, worst: 0, refusal }
}

/// What an OFDM symbol completes.
struct Completed {
    /// The frame's bytes.
    bytes: Vec<u8>,
    /// The blocks of these.
    blocks: usize,
    counts: Counts,
    /// The bits behind them.
    waiting: Vec<u8>,
}

impl Stream {
    /// Takes an OFDM symbol: the bytes of the blocks that are complete with it go to their place in the area. The
    /// counts are over all blocks so far.
    pub fn step(&mut self, i: &[i16], q: &[i16], area: &mut [u8]) -> Answer {
        self.refusal.map_or(Ok(()), Err)?;
        let plan = plan(self.mode, self.length, &self.scheme).expect("a stream that was opened");
        check(self.seen < plan.symbols, Refusal::TooManySymbols)?;
        let enough = i.len() >= grid::CARRIERS && q.len() >= grid::CARRIERS && area.len() >= plan.length;
        check(enough, Refusal::NoRoom)?;
        match self.completed(&plan, i, q) {
            Ok(completed) => {
                let begin = self.done * plan.block_bytes();
                area[begin..begin + completed.bytes.len()].copy_from_slice(&completed.bytes);
                Ok(self.goes_on(completed))
            }
            Err(refusal) => {
                area[..plan.length].fill(0);
                self.refusal = Some(refusal);
                Err(refusal)
            }
        }
    }

    /// The checks 7, 8 and 9 of this symbol, with places of the whole frame, and what it completes.
    fn completed(&self, plan: &Plan, i: &[i16], q: &[i16]) -> Result<Completed, Refusal> {
        let symbol = grid::check_unavailable(1, i, q).and_then(|()| unmapped(1, &self.scheme, i, q));
        let symbol = symbol.map_err(|refusal| further(refusal, grid::CARRIERS * self.seen))?;
        let mut complete = [&self.waiting[..], &symbol].concat();
        let blocks = (complete.len() / plan.block_bits()).min(plan.blocks() - self.done);
        let mut waiting = complete.split_off(blocks * plan.block_bits());
        if self.done + blocks == plan.blocks() {
            waiting.clear();
        }
        let (information, places) = plan.decoded(&complete).map_err(|refusal| further(refusal, self.done))?;
        let begin = 8 * plan.block_bytes() * self.done;
        let bytes = bits::to_bytes(&scrambler::scrambled_from(begin, &information));
        Ok(Completed { bytes, blocks, counts: Counts::of_blocks(&places), waiting })
    }

    fn goes_on(&mut self, completed: Completed) -> Counts {
        self.seen += 1;
        self.done += completed.blocks;
        self.waiting = completed.waiting;
        self.mended += completed.counts.mended;
        self.worst = self.worst.max(completed.counts.worst);
        Counts { mended: self.mended, worst: self.worst, ..Counts::default() }
    }
}

/// A refusal by 7, 8 or 9 whose place is counted from so far on.
fn further(refusal: Refusal, from: usize) -> Refusal {
    Refusal::of(refusal.number(), refusal.place() + from as u64).expect("a refusal with a place")
}

#[cfg(test)]
mod tests {
    use super::*;
    use crate::payload_b::tests::{hit, in_blocks};
    use crate::rng::Rng;

    /// Three blocks of 508 bits in four symbols of 420: none, the first, the second, and the third end in them.
    const ENDS: [usize; 4] = [0, 1, 2, 3];

    fn symbol(list: &[i16], number: usize) -> &[i16] {
        &list[256 * number..256 * (number + 1)]
    }

    #[test]
    fn bytes_come_as_their_blocks_are_complete() {
        let frame = Rng::new(1).bytes(177);
        let places = in_blocks(&mut Rng::new(2), 1, &[1, 4, 2]);
        let (i, q) = hit(1, &frame, &[2; 210], &places);
        let mut stream = open(1, 177, &[2; 210]);
        let mut area = vec![9; 180];
        for (number, (done, counts)) in ENDS.into_iter().zip([(0, 0), (1, 1), (5, 4), (7, 4)]).enumerate() {
            // Longer lists, whose rest is not looked at.
            let lent = |list: &[i16]| [symbol(list, number), &[77; 3]].concat();
            let (mended, worst) = counts;
            let answer = stream.step(&lent(&i), &lent(&q), &mut area);
            assert_eq!(answer, Ok(Counts { mended, worst, ..Counts::default() }));
            assert_eq!(area, [&frame[..59 * done], &vec![9; 180 - 59 * done]].concat());
            assert_eq!(stream.waiting.len(), [420, 332, 244, 0][number]);
        }
        let ended = stream.clone();
        assert_eq!(stream.step(&i, &q, &mut area), Err(Refusal::TooManySymbols));
        assert_eq!(stream.step(&[], &[], &mut []), Err(Refusal::TooManySymbols));
        assert_eq!((stream, &area[..177]), (ended, &frame[..]));
    }

    #[test]
    fn refusals_in_order_and_remembered() {
        let frame = Rng::new(3).bytes(177);
        let places = in_blocks(&mut Rng::new(4), 1, &[0, 5, 0]);
        let (mut i, mut q) = hit(1, &frame, &[2; 210], &places);
        for (number, place) in [(9, 1), (8, 2 * 256 + 255), (7, 2 * 256 + 106)] {
            if number == 8 {
                i[2 * 256 + 255] = 0;
            }
            if number == 7 {
                q[2 * 256 + 106] = -1;
            }
            let mut stream = open(1, 177, &[2; 210]);
            let mut area = vec![9; 180];
            for taken in 0..2 {
                stream.step(symbol(&i, taken), symbol(&q, taken), &mut area).unwrap();
            }
            let before = stream.clone();
            for (i, q, area) in [(255, 256, 180), (256, 255, 180), (256, 256, 176)] {
                assert_eq!(stream.step(&vec![1; i], &vec![1; q], &mut vec![0; area]), Err(Refusal::NoRoom));
                assert_eq!(stream, before);
            }
            let refusal = Refusal::of(number, place);
            assert_eq!(stream.step(symbol(&i, 2), symbol(&q, 2), &mut area).err(), refusal);
            assert_eq!(area, [vec![0; 177], vec![9; 3]].concat());
            assert_eq!(stream, Stream { refusal, ..before });
            let mut other = vec![8; 180];
            assert_eq!(stream.step(symbol(&i, 3), symbol(&q, 3), &mut other).err(), refusal);
            assert_eq!(stream.step(&[], &[], &mut other).err(), refusal);
            assert_eq!(other, vec![8; 180]);
        }
    }

    #[test]
    fn refused_openings_are_repeated() {
        for (mode, length, scheme, refusal) in [
            (3, 0, vec![], Refusal::Unknown),
            (1, 58, vec![], Refusal::WrongLength),
            (0, 70_000, vec![2; 209], Refusal::BadScheme(210)),
            (0, u64::MAX, vec![2; 210], Refusal::TooManySymbols),
        ] {
            let mut stream = open(mode, length, &scheme);
            let opened = stream.clone();
            let mut area = vec![5; 9];
            assert_eq!(stream.step(&[0; 256], &[0; 256], &mut area), Err(refusal));
            assert_eq!((stream, area), (opened, vec![5; 9]));
        }
    }

    #[test]
    fn whole_bytes_in_mode_0() {
        let frame = Rng::new(5).bytes(100);
        let mut scheme = [2; 210];
        scheme[0] = 5;
        let (i, q) = hit(0, &frame, &scheme, &[]);
        let mut stream = open(0, 100, &scheme);
        let mut area = vec![9; 100];
        for (number, (done, waiting)) in [(52, 7), (100, 0)].into_iter().enumerate() {
            assert_eq!(stream.step(symbol(&i, number), symbol(&q, number), &mut area), Ok(Counts::default()));
            assert_eq!(area, [&frame[..done], &vec![9; 100 - done]].concat());
            assert_eq!((stream.done, stream.waiting.len()), (done, waiting));
        }
    }
}
