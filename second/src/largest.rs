//! The largest frames of Payload B that document 01 names, as requests: sent and received back, clean and hit, and one byte or block more.

use crate::grid::{self, CARRIERS};
use crate::hostile::flip;
use crate::payload_b::{mapped, plan};
use crate::rng::Rng;
use crate::trial::Request;
use crate::{bch, bits, scrambler};

/// The bits per point, and the most bytes of a frame in modes 0, 1 and 2.
pub const LARGEST: [(&str, u8, [usize; 3]); 2] =
    [("QPSK", 2, [13_440, 12_449, 11_502]), ("1024QAM", 10, [67_200, 62_422, 57_564])];

/// Bytes of a block, by mode.
pub const BLOCK_BYTES: [usize; 3] = [1, 59, 54];

/// The most points of each list.
const MOST: usize = 256 * CARRIERS;

/// All of them, from a seed.
pub fn requests(seed: u64) -> Vec<Request> {
    let mut rng = Rng::new(seed);
    let mut requests = Vec::new();
    for (_, bits_each, lengths) in LARGEST {
        for (mode, length) in (0..).zip(lengths) {
            let frame = rng.bytes(length);
            let more = rng.bytes(length + BLOCK_BYTES[mode as usize]);
            let scheme = vec![bits_each; 210];
            let (i, q) = points(&mut rng, mode, &frame, &scheme, &[]);
            let sent = |frame: Vec<u8>| Request::SendB {
                mode,
                frame,
                scheme: scheme.clone(),
                i: vec![9; MOST],
                q: vec![-9; MOST],
            };
            let received = |length: usize, i: Vec<i16>, q: Vec<i16>| Request::ReceiveB {
                mode,
                length: length as u64,
                scheme: scheme.clone(),
                i,
                q,
                area: vec![7; length.min(67_200) + 3],
            };
            requests.push(sent(frame.clone()));
            requests.push(sent(more.clone()));
            requests.push(received(length, i.clone(), q.clone()));
            requests.push(received(more.len(), i, q));
            if let Some(code) = bch::code(mode) {
                // t hits in each block; and then one more in the last block.
                let blocks = length / BLOCK_BYTES[mode as usize];
                let mendable = vec![code.t; blocks];
                let (i, q) = points(&mut rng, mode, &frame, &scheme, &mendable);
                requests.push(received(length, i, q));
                let mut hopeless = mendable;
                hopeless[blocks - 1] += 1;
                let (i, q) = points(&mut rng, mode, &frame, &scheme, &hopeless);
                requests.push(received(length, i, q));
            }
        }
    }
    requests
}

/// The points sent for a frame, with so many hits in each block.
fn points(rng: &mut Rng, mode: u8, frame: &[u8], scheme: &[u8], hits: &[usize]) -> (Vec<i16>, Vec<i16>) {
    let plan = plan(mode, frame.len() as u64, scheme).expect("a frame that fits");
    let mut sent = plan.coded(&scrambler::scrambled(&bits::of_bytes(frame)));
    if let Some(code) = bch::code(mode) {
        for (block, &count) in sent.chunks_mut(code.n).zip(hits) {
            flip(rng, block, count);
        }
    }
    sent.resize(plan.symbols * plan.symbol_bits, 0);
    let (mut i, mut q) = (vec![0; plan.symbols * CARRIERS], vec![0; plan.symbols * CARRIERS]);
    grid::write(&mapped(&sent, scheme), &mut i, &mut q);
    (i, q)
}

#[cfg(test)]
mod tests {
    use super::*;

    #[test]
    fn they_are_answered_as_document_01_says() {
        for request in requests(1) {
            let (length, mode) = match &request {
                Request::SendB { frame, mode, .. } => (frame.len(), *mode),
                Request::ReceiveB { length, mode, .. } => (*length as usize, *mode),
                _ => unreachable!("only jobs 5 and 6"),
            };
            let fits = LARGEST.iter().any(|(_, _, lengths)| lengths[mode as usize] == length);
            let number = request.clone().call().map_or_else(|refusal| refusal.number(), |_| 0);
            assert!(if fits { number == 0 || number == 9 } else { number == 6 });
        }
    }
}
