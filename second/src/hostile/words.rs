//! Jobs 1 and 2: information words and received words of the three codes.

use super::{flip, lent, place, unknown, Faults};
use crate::bch::{self, Code};
use crate::field::ORDER;
use crate::poly;
use crate::rng::Rng;
use crate::trial::Request;

pub fn encode(rng: &mut Rng) -> Request {
    let faults = Faults::aim(rng, &[1, 2, 3, 4]);
    let (number, code) = any_code(rng);
    let word = information(rng, code.k);
    let (code, word, out) = spoilt(rng, &faults, number, code, word);
    Request::Encode { code, word, out }
}

pub fn decode(rng: &mut Rng) -> Request {
    // Half of the words have no fault of form, so that the decoder is reached often.
    let faults = if rng.once_in(2) { Faults(vec![]) } else { Faults::aim(rng, &[1, 2, 3, 4]) };
    let (number, code) = any_code(rng);
    let word = received(rng, code);
    let (code, word, out) = spoilt(rng, &faults, number, code, word);
    Request::Decode { code, word, out }
}

fn any_code(rng: &mut Rng) -> (u8, &'static Code) {
    let number = rng.between(1, 3) as u8;
    (number, bch::code(number).expect("1 to 3"))
}

/// The faults of form: code unknown, wrong length, no room, elements that are no bits.
fn spoilt(rng: &mut Rng, faults: &Faults, number: u8, code: &Code, mut word: Vec<u8>) -> (u8, Vec<u8>, Vec<u8>) {
    if faults.has(2) {
        let length = wrong_length(rng, word.len());
        word.resize(length, 1);
    }
    if faults.has(4) {
        no_bits(rng, &mut word);
    }
    let out = lent::bytes(rng, code.n, faults.has(3));
    let number = if faults.has(1) { unknown(rng, 1..=3) } else { number };
    (number, word, out)
}

/// A length other than the right one: beside it, none at all, another code's, or any.
fn wrong_length(rng: &mut Rng, right: usize) -> usize {
    let length = match rng.below(6) {
        0 => right - 1,
        1 => right + 1,
        2 => 0,
        3 => rng.pick(&[508, 472, 504, 432, 392, 248, 511, 512]),
        4 => 1,
        _ => rng.below(700),
    };
    if length == right {
        right - 1
    } else {
        length
    }
}

/// Puts 2 to 255 in the first, the last or any place, sometimes in several.
fn no_bits(rng: &mut Rng, word: &mut [u8]) {
    if word.is_empty() {
        return;
    }
    for _ in 0..rng.pick(&[1, 1, 1, 2, 5]) {
        let at = place(rng, word.len());
        let any = rng.between(2, 255) as u8;
        word[at] = rng.pick(&[2, 3, 128, 254, 255, any, any]);
    }
}

fn information(rng: &mut Rng, k: usize) -> Vec<u8> {
    match rng.below(8) {
        0 => vec![0; k],
        1 => vec![1; k],
        2 => {
            let mut word = vec![0; k];
            word[place(rng, k)] = 1;
            word
        }
        _ => rng.bits(k),
    }
}

/// A received word: near a codeword, near one of the long code's, or near none.
fn received(rng: &mut Rng, code: &Code) -> Vec<u8> {
    let mut word = code.encoded(&information(rng, code.k));
    match rng.below(16) {
        0..=7 => {
            let count = rng.between(0, code.t + 4);
            flip(rng, &mut word, count);
        }
        8 => {
            let count = rng.between(code.t, code.t + 2);
            flip(rng, &mut word, count);
        }
        9 => run_of_flips(rng, code, &mut word),
        10 => {
            // All hits among the check bits.
            let count = rng.between(1, code.t + 2);
            flip(rng, &mut word[code.k..], count);
        }
        11 | 12 => word = hit_in_dropped_places(rng, code),
        13 => word = vec![rng.below(2) as u8; code.n],
        14 => {
            // Every bit turned round, and a few turned back.
            word.iter_mut().for_each(|bit| *bit ^= 1);
            let count = rng.between(0, code.t + 4);
            flip(rng, &mut word, count);
        }
        _ => word = rng.bits(code.n),
    }
    word
}

/// Hits side by side: at the beginning, at the end, or somewhere.
fn run_of_flips(rng: &mut Rng, code: &Code, word: &mut [u8]) {
    let count = rng.between(1, code.t + 2);
    let first = place(rng, code.n - count + 1);
    word[first..first + count].iter_mut().for_each(|bit| *bit ^= 1);
}

/// The last n bits of a codeword of the 511-bit code whose dropped bits are not all zero, with further hits, at most
/// t in all: a decoder that forgets the shortening finds it.
pub fn hit_in_dropped_places(rng: &mut Rng, code: &Code) -> Vec<u8> {
    let dropped = ORDER - code.n;
    let beyond = rng.between(1, code.t.min(dropped));
    let mut leading = vec![0; dropped];
    match rng.below(3) {
        // The dropped place next to the word, or the farthest one; else any.
        0 => leading[dropped - 1] = 1,
        1 => leading[0] = 1,
        _ => flip(rng, &mut leading, beyond),
    }
    let hits = leading.iter().filter(|&&bit| bit == 1).count();
    let long = poly::encoded(&[leading, information(rng, code.k)].concat(), &code.generator);
    let mut word = long[dropped..].to_vec();
    let inside = rng.between(0, code.t - hits);
    flip(rng, &mut word, inside);
    word
}

/// A block that no codeword is near, as far as one can aim at it.
pub fn make_hopeless(rng: &mut Rng, code: &Code, block: &mut [u8]) {
    match rng.below(6) {
        0 | 1 => flip(rng, block, code.t + 1),
        2 => flip(rng, block, code.t + 2),
        3 => {
            let count = rng.between(code.t + 1, code.t + 4);
            flip(rng, block, count);
        }
        4 => block.copy_from_slice(&hit_in_dropped_places(rng, code)),
        _ => block.copy_from_slice(&rng.bits(code.n)),
    }
}

/// A block with at most t hits.
pub fn make_mendable(rng: &mut Rng, code: &Code, block: &mut [u8]) {
    let count = mendable(rng, code.t);
    flip(rng, block, count);
}

/// How many hits such a block has: often none or t.
pub fn mendable(rng: &mut Rng, t: usize) -> usize {
    let any = rng.between(0, t);
    rng.pick(&[0, 0, 1, t, t, any, any])
}

#[cfg(test)]
mod tests {
    use super::*;
    use crate::answer::Refusal;

    #[test]
    fn hits_in_dropped_places_are_what_they_say() {
        let mut rng = Rng::new(1);
        for _ in 0..300 {
            let (number, code) = any_code(&mut rng);
            let word = hit_in_dropped_places(&mut rng, code);
            assert_eq!(bch::decode(number, &word, &mut vec![0; code.n]), Err(Refusal::Hopeless(0)));
        }
    }

    #[test]
    fn mendable_blocks_are_mended() {
        let mut rng = Rng::new(2);
        for _ in 0..300 {
            let (_, code) = any_code(&mut rng);
            let sent = code.encoded(&information(&mut rng, code.k));
            let mut block = sent.clone();
            make_mendable(&mut rng, code, &mut block);
            assert_eq!(code.mended(&block).unwrap().0, sent);
        }
    }

    #[test]
    fn wrong_lengths_are_wrong() {
        let mut rng = Rng::new(3);
        assert!((0..2_000).all(|_| wrong_length(&mut rng, 472) != 472));
    }
}
