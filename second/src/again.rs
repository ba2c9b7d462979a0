//! The counts of request 8 as it defines them: the frame that was accepted is sent again, and the coded bits that were
//! received are compared with those that are sent then, fill and protected bits left out.
//!
//! The receivers count in another way, by the places that the decoder mended.

use crate::bits::differ;
use crate::payload_a::{self, framed, without_fields, SEGMENT};
use crate::payload_b::{self, plan, unmapped};
use crate::trial::Request;
use crate::{bch, grid};

/// How many coded bits differ in each block of what was received and accepted. Uncoded modes have no blocks.
pub fn blocks(after: &Request) -> Vec<u64> {
    match after {
        Request::ReceiveA { mode: 1, i, q, area } => of_a(i, q, area),
        Request::ReceiveB { mode: mode @ 1..=2, length, scheme, i, q, area } => {
            of_b(*mode, &area[..*length as usize], scheme, i, q)
        }
        _ => vec![],
    }
}

/// The halves of a burst of Payload A, in mode 1.
fn of_a(i: &[i16], q: &[i16], area: &[u8]) -> Vec<u64> {
    let frame = &area[..payload_a::frame_bytes(1).expect("a mode")];
    let (mut again_i, mut again_q) = (vec![0; payload_a::POINTS], vec![0; payload_a::POINTS]);
    payload_a::send(1, frame, &mut again_i, &mut again_q).expect("a frame that was accepted");
    let coded = |i: &[i16], q: &[i16]| without_fields(&framed(i, q).expect("legal points")).0;
    by_block(2 * SEGMENT, &coded(i, q), &coded(&again_i, &again_q))
}

/// The blocks of a frame of Payload B, in a coded mode.
fn of_b(mode: u8, frame: &[u8], scheme: &[u8], i: &[i16], q: &[i16]) -> Vec<u64> {
    let plan = plan(mode, frame.len() as u64, scheme).expect("a frame that was accepted");
    let elements = plan.symbols * grid::CARRIERS;
    let (mut again_i, mut again_q) = (vec![0; elements], vec![0; elements]);
    payload_b::send(mode, frame, scheme, &mut again_i, &mut again_q).expect("a frame that was accepted");
    let symbols = |i: &[i16], q: &[i16]| unmapped(plan.symbols, scheme, i, q).expect("legal points");
    let (received, again) = (symbols(i, q), symbols(&again_i, &again_q));
    let n = bch::code(mode).expect("a coded mode").n;
    by_block(n, &received[..plan.coded_bits], &again[..plan.coded_bits])
}

/// In how many places each n bits of two lists differ.
fn by_block(n: usize, received: &[u8], again: &[u8]) -> Vec<u64> {
    received.chunks(n).zip(again.chunks(n)).map(|(block, other)| differ(block, other) as u64).collect()
}

#[cfg(test)]
mod tests {
    use super::*;
    use crate::answer::Counts;
    use crate::hostile;
    use crate::payload_a::tests::hit as hit_a;
    use crate::payload_b::tests::{fill, hit as hit_b, in_blocks};
    use crate::rng::Rng;

    /// Receives what is accepted: its counts, and its blocks by sending again.
    fn received(mut request: Request) -> (Counts, Vec<u64>) {
        let counts = request.call().unwrap();
        (counts, blocks(&request))
    }

    /// Holds an answer of a coded mode against the blocks by sending again, and the bounds between its counts.
    fn hold(counts: Counts, blocks: &[u64], t: u64) {
        let mut rising = blocks.to_vec();
        rising.sort();
        assert_eq!(counts.mended, rising.iter().sum(), "{blocks:?}");
        assert_eq!(Some(&counts.worst), rising.last(), "{blocks:?}");
        assert!(counts.worst <= counts.mended && counts.mended <= blocks.len() as u64 * counts.worst);
        assert!(counts.worst <= t);
    }

    /// Hits of a block: none, as many as are mended, or any number between.
    fn hits(rng: &mut Rng, blocks: usize, t: usize) -> Vec<usize> {
        (0..blocks)
            .map(|_| {
                let any = rng.between(0, t);
                rng.pick(&[0, any, any, any, t])
            })
            .collect()
    }

    #[test]
    fn total_and_worst_of_payload_a_are_those_of_sending_again() {
        let mut rng = Rng::new(1);
        for _ in 0..400 {
            let frame = rng.bytes(58);
            let hits = hits(&mut rng, 2, 16);
            let mut places = rng.distinct(hits[0], 392);
            places.extend(rng.distinct(hits[1], 392).iter().map(|place| 392 + place));
            let differing = rng.between(0, 12);
            let fields: Vec<usize> =
                rng.distinct(differing, 56).iter().map(|&number| payload_a::field_places()[number]).collect();
            let (i, q) = hit_a(1, &payload_a::with_check(&frame), &places, &fields);
            let (counts, blocks) = received(Request::ReceiveA { mode: 1, i, q, area: vec![9; 58] });
            assert_eq!(blocks, hits.iter().map(|&count| count as u64).collect::<Vec<_>>());
            hold(counts, &blocks, 16);
        }
    }

    #[test]
    fn total_and_worst_of_payload_b_are_those_of_sending_again() {
        let mut rng = Rng::new(2);
        for round in 0..400 {
            let (mode, bytes, t) = [(1, 59, 4), (2, 54, 8)][round % 2];
            let scheme: Vec<u8> = (0..210).map(|_| rng.between(2, 10) as u8).collect();
            let count = rng.between(1, 9);
            let frame = rng.bytes(count * bytes);
            let hits = hits(&mut rng, count, t);
            let mut places = in_blocks(&mut rng, mode, &hits);
            places.extend(fill(mode, &frame, &scheme).filter(|_| rng.once_in(2)));
            let (i, q) = hit_b(mode, &frame, &scheme, &places);
            let (length, area) = (frame.len() as u64, vec![9; frame.len() + 1]);
            let (counts, blocks) = received(Request::ReceiveB { mode, length, scheme, i, q, area });
            assert_eq!(blocks, hits.iter().map(|&count| count as u64).collect::<Vec<_>>());
            hold(counts, &blocks, t as u64);
        }
    }

    #[test]
    fn whatever_is_accepted_has_the_counts_of_sending_again() {
        let mut seen = [0; 3];
        for index in 0..4_000 {
            let mut request = hostile::request(8, index, &[4, 6]);
            let Ok(counts) = request.call() else {
                continue;
            };
            let t = match (request.job(), request.code_or_mode()) {
                (4, 1) => 16,
                (6, 1) => 4,
                (6, 2) => 8,
                _ => {
                    assert_eq!((counts.mended, counts.worst, blocks(&request)), (0, 0, vec![]));
                    continue;
                }
            };
            hold(counts, &blocks(&request), t);
            seen[t.trailing_zeros() as usize - 2] += 1;
        }
        assert!(seen.iter().all(|&count| count >= 100), "{seen:?}");
    }
}
