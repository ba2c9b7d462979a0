//! Payload B (clause 7.5): a data frame over as many as 256 OFDM symbols, each sub-carrier with its own constellation.
//!
//! Sending: frame, scrambler, blocks of code 1 or 2 (modes 1 and 2), zero fill, points by the scheme, grid.

use crate::answer::{check, Answer, Counts, Refusal};
use crate::bch::{self, Code};
use crate::points::{constellation, Point};
use crate::{bits, grid, scrambler};

/// The most OFDM symbols of a frame (clause 7.5.5).
pub const MOST_SYMBOLS: u128 = 256;

/// What the checks 1, 2, 5 and 6 find out about a frame.
pub struct Plan {
    /// The code of the blocks; none in mode 0.
    pub code: Option<&'static Code>,
    /// Bytes of the frame.
    pub length: usize,
    /// Bits sent for it, without the fill.
    pub coded_bits: usize,
    /// Bits of one OFDM symbol.
    pub symbol_bits: usize,
    /// OFDM symbols needed.
    pub symbols: usize,
}

/// The checks 1, 2, 5 and 6, which both directions begin with. Any length is looked at without overflow.
pub fn plan(mode: u8, length: u64, scheme: &[u8]) -> Result<Plan, Refusal> {
    check(mode <= 2, Refusal::Unknown)?;
    // Mode 1 uses code 1, mode 2 code 2, and there is no code 0.
    let code = bch::code(mode);
    let block_bytes = code.map_or(1, |code| code.k as u64 / 8);
    check(length > 0 && length.is_multiple_of(block_bytes), Refusal::WrongLength)?;
    check_scheme(scheme)?;
    let block_bits = code.map_or(8, |code| code.n as u128);
    let coded_bits = (length / block_bytes) as u128 * block_bits;
    let symbol_bits: u128 = scheme.iter().map(|&bits| bits as u128).sum();
    let symbols = coded_bits.div_ceil(symbol_bits);
    check(symbols <= MOST_SYMBOLS, Refusal::TooManySymbols)?;
    Ok(Plan {
        code,
        length: length as usize,
        coded_bits: coded_bits as usize,
        symbol_bits: symbol_bits as usize,
        symbols: symbols as usize,
    })
}

/// Check 5: 210 entries first, then each from 2 to 10.
fn check_scheme(scheme: &[u8]) -> Result<(), Refusal> {
    check(scheme.len() == grid::AVAILABLE, Refusal::BadScheme(grid::AVAILABLE))?;
    match scheme.iter().position(|bits| !(2..=10).contains(bits)) {
        Some(place) => Err(Refusal::BadScheme(place)),
        None => Ok(()),
    }
}

/// Sends a frame into the first 256 elements of each list for each symbol needed.
pub fn send(mode: u8, frame: &[u8], scheme: &[u8], i: &mut [i16], q: &mut [i16]) -> Answer {
    let plan = plan(mode, frame.len() as u64, scheme)?;
    let elements = plan.symbols * grid::CARRIERS;
    check(i.len() >= elements && q.len() >= elements, Refusal::NoRoom)?;
    let mut sent = plan.coded(&scrambler::scrambled(&bits::of_bytes(frame)));
    sent.resize(plan.symbols * plan.symbol_bits, 0);
    grid::write(&mapped(&sent, scheme), i, q);
    Ok(Counts::default())
}

/// Receives a frame of this many bytes into the first bytes of the area.
pub fn receive(mode: u8, length: u64, scheme: &[u8], i: &[i16], q: &[i16], area: &mut [u8]) -> Answer {
    let plan = plan(mode, length, scheme)?;
    let elements = plan.symbols * grid::CARRIERS;
    check(i.len() >= elements && q.len() >= elements && area.len() >= plan.length, Refusal::NoRoom)?;
    grid::check_unavailable(plan.symbols, i, q)?;
    let received = unmapped(plan.symbols, scheme, i, q)?;
    let area = &mut area[..plan.length];
    // Number 9 alone leaves something behind: the frame's bytes, all zero.
    let (information, blocks) = plan.decoded(&received[..plan.coded_bits]).inspect_err(|_| area.fill(0))?;
    area.copy_from_slice(&bits::to_bytes(&scrambler::scrambled(&information)));
    Ok(Counts::of_blocks(&blocks))
}

impl Plan {
    /// Bits of a block as sent; in mode 0 a byte is one.
    pub fn block_bits(&self) -> usize {
        self.code.map_or(8, |code| code.n)
    }

    /// Bytes of the frame in a block.
    pub fn block_bytes(&self) -> usize {
        self.code.map_or(1, |code| code.k / 8)
    }

    /// Blocks of the frame.
    pub fn blocks(&self) -> usize {
        self.length / self.block_bytes()
    }

    /// The scrambled bits, block by block coded.
    pub fn coded(&self, information: &[u8]) -> Vec<u8> {
        self.code.map_or(information.to_vec(), |code| code.encoded_blocks(information))
    }

    /// The scrambled bits again, and the mended places of each block; mode 0 has no blocks.
    pub fn decoded(&self, received: &[u8]) -> Result<(Vec<u8>, Vec<Vec<usize>>), Refusal> {
        self.code.map_or(Ok((received.to_vec(), vec![])), |code| code.mended_blocks(received))
    }
}

/// The points of whole symbols' bits: each takes the scheme's number of bits, the first being the label's highest.
pub fn mapped(sent: &[u8], scheme: &[u8]) -> Vec<Point> {
    let mut rest = sent;
    let mut points = Vec::new();
    for &count in scheme.iter().cycle() {
        if rest.is_empty() {
            break;
        }
        let (label, after) = rest.split_at(count as usize);
        let label = label.iter().fold(0, |label, &bit| label << 1 | bit as u16);
        points.push(constellation(count).expect("2 to 10 bits").point(label));
        rest = after;
    }
    points
}

/// Check 8, and the bits of all points in s order.
pub fn unmapped(symbols: usize, scheme: &[u8], i: &[i16], q: &[i16]) -> Result<Vec<u8>, Refusal> {
    let mut received = Vec::new();
    for ((index, point), &count) in grid::read(symbols, i, q).zip(scheme.iter().cycle()) {
        let label = constellation(count).expect("2 to 10 bits").label(point).ok_or(Refusal::Stray(index))?;
        received.extend((0..count).rev().map(|bit| (label >> bit & 1) as u8));
    }
    Ok(received)
}

#[cfg(test)]
pub(crate) mod tests {
    use super::*;
    use crate::rng::Rng;

    fn block_bytes(mode: u8) -> usize {
        [1, 59, 54][mode as usize]
    }

    fn grids(symbols: usize) -> (Vec<i16>, Vec<i16>) {
        (vec![55; symbols * grid::CARRIERS], vec![-55; symbols * grid::CARRIERS])
    }

    #[test]
    fn plan_of_document_01() {
        let plan = plan(2, 54, &[2; 210]).unwrap();
        assert_eq!((plan.coded_bits, plan.symbols), (504, 2));
        assert_eq!(plan.symbols * plan.symbol_bits - plan.coded_bits, 336);
    }

    #[test]
    fn the_largest_frames_of_document_01() {
        let most = [(2, [13_440, 12_449, 11_502]), (10, [67_200, 62_422, 57_564])];
        for (bits, lengths) in most {
            for (mode, length) in (0..).zip(lengths) {
                assert!(plan(mode, length, &[bits; 210]).is_ok());
                let more = length + block_bytes(mode) as u64;
                assert_eq!(plan(mode, more, &[bits; 210]).err(), Some(Refusal::TooManySymbols));
            }
        }
    }

    #[test]
    fn any_length_is_answered() {
        assert_eq!(plan(0, u64::MAX, &[2; 210]).err(), Some(Refusal::TooManySymbols));
        assert_eq!(plan(1, u64::MAX, &[2; 210]).err(), Some(Refusal::WrongLength));
        assert_eq!(plan(1, u64::MAX / 59 * 59, &[10; 210]).err(), Some(Refusal::TooManySymbols));
        assert_eq!(plan(2, u64::MAX / 54 * 54, &[10; 210]).err(), Some(Refusal::TooManySymbols));
        assert_eq!(plan(0, 1 << 61, &[10; 210]).err(), Some(Refusal::TooManySymbols));
    }

    #[test]
    fn clean_round_trip() {
        let mut rng = Rng::new(12);
        for round in 0..150 {
            let mode = round % 3;
            let scheme: Vec<u8> = (0..210).map(|_| rng.between(2, 10) as u8).collect();
            let frame = rng_frame(&mut rng, mode);
            let (mut i, mut q) = grids(40);
            send(mode, &frame, &scheme, &mut i, &mut q).unwrap();
            let used = plan(mode, frame.len() as u64, &scheme).unwrap().symbols * 256;
            assert!(i[used..].iter().all(|&x| x == 55) && q[used..].iter().all(|&x| x == -55));
            let mut area = vec![3; frame.len() + 1];
            let told = frame.len() as u64;
            assert_eq!(receive(mode, told, &scheme, &i[..used], &q[..used], &mut area), Ok(Counts::default()));
            assert_eq!(area[..frame.len()], frame);
            assert_eq!(area[frame.len()], 3);
        }
    }

    fn rng_frame(rng: &mut Rng, mode: u8) -> Vec<u8> {
        let blocks = if mode == 0 { rng.between(1, 500) } else { rng.between(1, 9) };
        rng.bytes(blocks * block_bytes(mode))
    }

    /// The points of a frame, hit in these places of its symbols' bits: the coded bits, and behind them the fill.
    pub(crate) fn hit(mode: u8, frame: &[u8], scheme: &[u8], places: &[usize]) -> (Vec<i16>, Vec<i16>) {
        let plan = plan(mode, frame.len() as u64, scheme).unwrap();
        let mut sent = plan.coded(&scrambler::scrambled(&bits::of_bytes(frame)));
        sent.resize(plan.symbols * plan.symbol_bits, 0);
        places.iter().for_each(|&p| sent[p] ^= 1);
        let (mut i, mut q) = grids(plan.symbols);
        grid::write(&mapped(&sent, scheme), &mut i, &mut q);
        (i, q)
    }

    /// Places of so many hits in each block.
    pub(crate) fn in_blocks(rng: &mut Rng, mode: u8, hits: &[usize]) -> Vec<usize> {
        let n = bch::code(mode).unwrap().n;
        let of_block = |(block, &count)| rng.distinct(count, n).into_iter().map(move |place| block * n + place);
        hits.iter().enumerate().flat_map(of_block).collect()
    }

    /// Where the fill of a frame stands.
    pub(crate) fn fill(mode: u8, frame: &[u8], scheme: &[u8]) -> std::ops::Range<usize> {
        let plan = plan(mode, frame.len() as u64, scheme).unwrap();
        plan.coded_bits..plan.symbols * plan.symbol_bits
    }

    /// Total and worst of a frame hit in these places, which is accepted and comes back.
    fn total_and_worst(mode: u8, frame: &[u8], scheme: &[u8], places: &[usize]) -> (u64, u64) {
        let (i, q) = hit(mode, frame, scheme, places);
        let mut area = vec![8; frame.len()];
        let counts = receive(mode, frame.len() as u64, scheme, &i, &q, &mut area).unwrap();
        assert_eq!(area, frame);
        assert_eq!(counts, Counts { mended: counts.mended, worst: counts.worst, ..Counts::default() });
        (counts.mended, counts.worst)
    }

    #[test]
    fn the_worst_block_is_counted_wherever_it_stands() {
        let mut rng = Rng::new(14);
        // The first, a middle one, the last; the only one that is hit; two, all, none.
        let alone = [([4, 1, 0, 3, 2], 4), ([1, 2, 4, 0, 3], 4), ([3, 0, 2, 1, 4], 4), ([0, 0, 1, 0, 0], 1)];
        let ties = [([0, 3, 1, 3, 2], 3), ([2; 5], 2), ([0; 5], 0)];
        let cases = alone.into_iter().chain(ties);
        for (mode, (hits, worst)) in cases.flat_map(|case| [(1, case), (2, case)]) {
            let frame = rng.bytes(5 * block_bytes(mode));
            let places = in_blocks(&mut rng, mode, &hits);
            let counted = total_and_worst(mode, &frame, &[5; 210], &places);
            assert_eq!(counted, (places.len() as u64, worst), "mode {mode}, {hits:?}");
        }
        // As many as a block can have, in the middle of many blocks.
        for (mode, t) in [(1, 4), (2, 8)] {
            let frame = rng.bytes(40 * block_bytes(mode));
            let mut hits = vec![t - 1; 40];
            (hits[0], hits[17], hits[39]) = (0, t, 1);
            let places = in_blocks(&mut rng, mode, &hits);
            let wanted = (places.len() as u64, t as u64);
            assert_eq!(total_and_worst(mode, &frame, &[9; 210], &places), wanted);
        }
    }

    #[test]
    fn hits_in_the_fill_do_not_count() {
        let mut rng = Rng::new(15);
        for (mode, hits) in [(1, [0, 0, 0]), (1, [1, 4, 2]), (2, [0, 0, 0]), (2, [3, 0, 1]), (2, [0, 1, 8])] {
            let frame = rng.bytes(3 * block_bytes(mode));
            let scheme: Vec<u8> = (0..210).map(|_| rng.between(2, 10) as u8).collect();
            let fill = fill(mode, &frame, &scheme);
            let places = in_blocks(&mut rng, mode, &hits);
            let counted = (places.len() as u64, hits.into_iter().max().unwrap() as u64);
            // The fill's first bit, its last, and all of it.
            let (begin, end) = (fill.start, fill.end);
            for spoilt in [begin..begin + 1, end - 1..end, begin..end] {
                let both: Vec<usize> = places.iter().copied().chain(spoilt).collect();
                assert_eq!(total_and_worst(mode, &frame, &scheme, &both), counted);
            }
        }
    }

    #[test]
    fn uncoded_frames_have_neither_total_nor_worst() {
        let (frame, scheme) = ([6; 200], [3; 210]);
        assert_eq!(total_and_worst(0, &frame, &scheme, &fill(0, &frame, &scheme).collect::<Vec<_>>()), (0, 0));
        // Hits make another frame of it, sent as it came.
        let (i, q) = hit(0, &frame, &scheme, &[0, 7, 8, 1_599]);
        let mut area = [8; 200];
        assert_eq!(receive(0, 200, &scheme, &i, &q, &mut area), Ok(Counts::default()));
        assert_eq!((area[0], area[1], area[199], &area[2..199]), (6 ^ 0x81, 6 ^ 0x80, 7, &frame[2..199]));
    }

    #[test]
    fn a_hopeless_block_zeroes_the_frame_and_no_more() {
        let mut rng = Rng::new(13);
        for mode in [1, 2] {
            let frame = rng.bytes(4 * block_bytes(mode));
            let code = bch::code(mode).unwrap();
            for (block, flips) in [(0, code.t), (3, code.t), (0, code.t + 1), (2, code.t + 1), (3, code.t + 1)] {
                let mut hits = [0; 4];
                hits[block] = flips;
                let mut places = in_blocks(&mut rng, mode, &hits);
                places.extend(fill(mode, &frame, &[6; 210]));
                let (i, q) = hit(mode, &frame, &[6; 210], &places);
                let mut area = vec![8; frame.len() + 3];
                let answer = receive(mode, frame.len() as u64, &[6; 210], &i, &q, &mut area);
                if flips <= code.t {
                    let (mended, worst) = (flips as u64, flips as u64);
                    assert_eq!(answer, Ok(Counts { mended, worst, ..Counts::default() }));
                    assert_eq!(area[..frame.len()], frame);
                } else {
                    assert_eq!(answer, Err(Refusal::Hopeless(block)));
                    assert!(area[..frame.len()].iter().all(|&b| b == 0));
                }
                assert_eq!(area[frame.len()..], [8; 3]);
            }
        }
    }

    #[test]
    fn refusals_in_order() {
        let mut scheme = [4; 210];
        assert_eq!(send(3, &[], &[], &mut [], &mut []), Err(Refusal::Unknown));
        assert_eq!(send(0, &[], &[], &mut [], &mut []), Err(Refusal::WrongLength));
        assert_eq!(send(1, &[0; 58], &[], &mut [], &mut []), Err(Refusal::WrongLength));
        assert_eq!(send(0, &[0; 70_000], &[0; 209], &mut [], &mut []), Err(Refusal::BadScheme(210)));
        (scheme[209], scheme[7]) = (11, 1);
        assert_eq!(send(0, &[0; 70_000], &scheme, &mut [], &mut []), Err(Refusal::BadScheme(7)));
        (scheme[209], scheme[7]) = (10, 2);
        assert_eq!(send(0, &[0; 70_000], &scheme, &mut [], &mut []), Err(Refusal::TooManySymbols));
        assert_eq!(send(0, &[0; 7], &scheme, &mut [0; 256], &mut [0; 255]), Err(Refusal::NoRoom));
        let (mut i, mut q) = grids(1);
        send(0, &[1; 7], &scheme, &mut i, &mut q).unwrap();
        assert_eq!(receive(0, 7, &scheme, &i, &q, &mut [0; 6]), Err(Refusal::NoRoom));
        (i[1], i[255]) = (0, 0);
        assert_eq!(receive(0, 7, &scheme, &i, &q, &mut [0; 7]), Err(Refusal::Stray(255)));
        q[150] = 1;
        assert_eq!(receive(0, 7, &scheme, &i, &q, &mut [0; 7]), Err(Refusal::Filled(150)));
    }
}
