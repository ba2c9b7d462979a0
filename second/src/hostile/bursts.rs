//! Jobs 3 and 4: Payload A.

use super::grids::{Carried, Grid};
use super::{bytes_of_a_frame, flip, lent, place, some_of, unknown, words, Faults};
use crate::check::OTHERS;
use crate::payload_a::{
    coded, field_places, frame_bytes, with_check, with_check_by, with_fields, MOST_DIFFERING, POINTS,
};
use crate::rng::Rng;
use crate::trial::Request;
use crate::{bch, dqpsk, scrambler};

pub fn send(rng: &mut Rng) -> Request {
    let faults = Faults::aim(rng, &[1, 2, 3]);
    let (mode, right) = any_mode(rng);
    let length = if faults.has(2) { wrong_length(rng, right) } else { right };
    let frame = bytes_of_a_frame(rng, length);
    let short = some_of(rng, 2, faults.has(3));
    let i = lent::levels(rng, POINTS, short[0]);
    let q = lent::levels(rng, POINTS, short[1]);
    Request::SendA { mode: told_mode(rng, &faults, mode), frame, i, q }
}

pub fn receive(rng: &mut Rng) -> Request {
    // Half of the bursts have no fault but in their bits, so that these decide the answer often.
    let faults =
        if rng.once_in(2) { Faults::any_of(rng, &[11, 9, 10]) } else { Faults::aim(rng, &[1, 3, 7, 8, 11, 9, 10]) };
    let (mode, length) = any_mode(rng);
    let sent = damaged(rng, &faults, mode, length);
    let mut framed = with_fields(&sent);
    hit_fields(rng, &faults, &mut framed);
    let mut grid = Grid::new(&dqpsk::points(&framed), Carried::Dqpsk);
    if rng.once_in(12) {
        let count = rng.pick(&[1, 2, 4, 8, 9, 420]);
        grid.wander(rng, count);
    }
    if faults.has(8) {
        grid.stray(rng);
    }
    if faults.has(7) {
        grid.fill(rng);
    }
    let short = some_of(rng, 3, faults.has(3));
    lent::fit(rng, &mut grid.i, short[0]);
    lent::fit(rng, &mut grid.q, short[1]);
    // Now and then the points of one mode are received in the other.
    let mode = if rng.once_in(25) { 1 - mode } else { mode };
    let area = lent::bytes(rng, frame_bytes(mode).expect("0 or 1"), short[2]);
    Request::ReceiveA { mode: told_mode(rng, &faults, mode), i: grid.i, q: grid.q, area }
}

fn any_mode(rng: &mut Rng) -> (u8, usize) {
    let mode = rng.pick(&[0, 1, 1]);
    (mode, frame_bytes(mode).expect("0 or 1"))
}

fn told_mode(rng: &mut Rng, faults: &Faults, mode: u8) -> u8 {
    if faults.has(1) {
        unknown(rng, 0..=1)
    } else {
        mode
    }
}

fn wrong_length(rng: &mut Rng, right: usize) -> usize {
    let length = rng.pick(&[57, 59, 93, 95, 0, 1, 58, 94, 116, 62, 98]);
    if length == right {
        right - 1
    } else {
        length
    }
}

/// The 784 bits of a frame, with a wrong check or hits in the two halves.
fn damaged(rng: &mut Rng, faults: &Faults, mode: u8, length: usize) -> Vec<u8> {
    let frame = bytes_of_a_frame(rng, length);
    let information = if faults.has(10) { with_wrong_check(rng, &frame) } else { with_check(&frame) };
    let mut sent = coded(mode, &scrambler::scrambled(&information));
    if mode == 1 {
        let hopeless = some_of(rng, 2, faults.has(9));
        let clean = rng.once_in(4);
        let code = bch::code(3).expect("code 3");
        for (half, hopeless) in sent.chunks_mut(code.n).zip(hopeless) {
            if hopeless {
                words::make_hopeless(rng, code, half);
            } else if !clean {
                words::make_mendable(rng, code, half);
            }
        }
    } else if faults.has(9) {
        let count = rng.between(1, 20);
        flip(rng, &mut sent, count);
    }
    sent
}

/// A frame's bits with a wrong check: all zero, hit in one bit, hit together with the frame, or by another rule.
fn with_wrong_check(rng: &mut Rng, frame: &[u8]) -> Vec<u8> {
    let mut information = with_check(frame);
    let count = rng.pick(&[1, 1, 2, 32, 200]);
    match rng.below(6) {
        0 => information[8 * frame.len()..].fill(0),
        1 => information[8 * frame.len() + place(rng, 32)] ^= 1,
        2 => flip(rng, &mut information, count),
        other => information = with_check_by(OTHERS[other - 3], frame),
    }
    information
}

/// Flips protected bits. Aimed at 11, more than may differ, often just one more, or all; else no more than may, often none
/// or just as many.
fn hit_fields(rng: &mut Rng, faults: &Faults, framed: &mut [u8]) {
    let places = field_places();
    let (most, all) = (MOST_DIFFERING as usize, places.len());
    let count = if faults.has(11) {
        let any = rng.between(most + 1, all);
        rng.pick(&[most + 1, most + 1, any, any, any, all])
    } else {
        let any = rng.between(0, most);
        rng.pick(&[0, 0, 0, 1, 2, most, most, any])
    };
    for chosen in rng.distinct(count, all) {
        framed[places[chosen]] ^= 1;
    }
}

#[cfg(test)]
mod tests {
    use super::*;
    use crate::answer::Refusal;
    use crate::payload_a::without_fields;
    use crate::{check, hostile, payload_a};
    use std::collections::BTreeSet;

    #[test]
    fn only_noise_has_more_protected_bits_that_differ_than_may() {
        let mut rng = Rng::new(3);
        for (faults, counts) in [(Faults(vec![9, 10]), 0..=12), (Faults(vec![11]), 13..=56)] {
            let mut seen = BTreeSet::new();
            for _ in 0..3_000 {
                let mut framed = with_fields(&[0; 784]);
                hit_fields(&mut rng, &faults, &mut framed);
                let (segments, differing) = without_fields(&framed);
                assert_eq!(segments, [0; 784]);
                seen.insert(differing);
            }
            assert_eq!(seen, counts.collect());
        }
    }

    #[test]
    fn wrong_checks_are_wrong() {
        let mut rng = Rng::new(2);
        for _ in 0..2_000 {
            let frame = bytes_of_a_frame(&mut rng, 58);
            let information = with_wrong_check(&mut rng, &frame);
            let (message, sum) = information.split_at(464);
            assert_ne!(check::of(message), sum);
        }
    }

    #[test]
    fn checks_by_every_other_rule_decide_answers_among_the_committed_requests() {
        let mut decided = [0; OTHERS.len()];
        for index in 0..1_500 {
            let Request::ReceiveA { mode, i, q, mut area } = hostile::request(1, index, &[1, 2, 3, 4, 5, 6]) else {
                continue;
            };
            if payload_a::receive(mode, &i, &q, &mut area) == Err(Refusal::WrongCheck) {
                for (count, &rule) in decided.iter_mut().zip(&OTHERS) {
                    *count += payload_a::receive_by(rule, mode, &i, &q, &mut area).is_ok() as u64;
                }
            }
        }
        assert!(decided.iter().all(|&count| count > 0), "{decided:?}");
    }

    #[test]
    fn wrong_lengths_are_wrong() {
        let mut rng = Rng::new(1);
        assert!((0..500).all(|_| wrong_length(&mut rng, 58) != 58 && wrong_length(&mut rng, 94) != 94));
    }
}
