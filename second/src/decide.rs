//! The stage before receiving (request 1): noisy points, in sixty-fourths of a level, to the points nearest to them.
//!
//! Unavailable sub-carriers are not looked at and come out (0,0). So what is decided is never refused with 7 or 8.

use crate::answer::{check, Answer, Counts, Refusal};
use crate::grid::{self, AVAILABLE, CARRIERS};
use crate::nearest::nearest;
use crate::points::Point;
use crate::stray::Legal;
use crate::{payload_a, payload_b};

/// Decides the first 512 elements of I and Q for Payload A into those of the lists lent for it.
pub fn decide_a(mode: u8, i: &[i16], q: &[i16], out_i: &mut [i16], out_q: &mut [i16]) -> Answer {
    payload_a::frame_bytes(mode).ok_or(Refusal::Unknown)?;
    decide(payload_a::SYMBOLS, &[Legal::Dqpsk; AVAILABLE], [i, q], [out_i, out_q])
}

/// Decides the first 256 elements of I and Q for each symbol needed for a frame of Payload B of this length.
pub fn decide_b(
    mode: u8,
    length: u64,
    scheme: &[u8],
    i: &[i16],
    q: &[i16],
    out_i: &mut [i16],
    out_q: &mut [i16],
) -> Answer {
    let plan = payload_b::plan(mode, length, scheme)?;
    let legal: Vec<Legal> = scheme.iter().map(|&bits| Legal::Qam(bits)).collect();
    decide(plan.symbols, &legal, [i, q], [out_i, out_q])
}

/// Check 3, and the decision of so many symbols, with what is legal for s(1), s(2), .., s(210).
fn decide(symbols: usize, legal: &[Legal], [i, q]: [&[i16]; 2], [out_i, out_q]: [&mut [i16]; 2]) -> Answer {
    let elements = symbols * CARRIERS;
    let lengths = [i.len(), q.len(), out_i.len(), out_q.len()];
    check(lengths.iter().all(|&length| length >= elements), Refusal::NoRoom)?;
    let came = grid::read(symbols, i, q).zip(legal.iter().cycle());
    let decided: Vec<Point> = came.map(|((_, came), &legal)| nearest(legal, came)).collect();
    grid::write(&decided, out_i, out_q);
    Ok(Counts::default())
}

#[cfg(test)]
mod tests {
    use super::*;
    use crate::hostile;
    use crate::nearest::PARTS;
    use crate::payload_a::{frame_bytes, POINTS};
    use crate::rng::Rng;
    use crate::trial::Request;

    type Lists = (Vec<i16>, Vec<i16>);

    fn lent(count: usize) -> Lists {
        (vec![77; count], vec![-77; count])
    }

    /// Clean points in sixty-fourths, each coordinate off by at most so many; unavailable sub-carriers hold anything.
    fn noisy(rng: &mut Rng, (i, q): &Lists, most: usize) -> Lists {
        let mut off = |list: &[i16]| -> Vec<i16> {
            let each = list.iter().enumerate().map(|(index, level)| match grid::held_by(index % CARRIERS) {
                Some(_) => PARTS * level + rng.between(0, 2 * most) as i16 - most as i16,
                None => rng.level(),
            });
            each.collect()
        };
        (off(i), off(q))
    }

    #[test]
    fn a_burst_comes_through_clean_and_with_noise_of_less_than_half_the_way() {
        let mut rng = Rng::new(1);
        for round in 0..60 {
            // Half of the way from +1 to +j is 32 off in both.
            let (mode, most) = (round % 2, [0, 1, 31][round as usize % 3]);
            let frame = rng.bytes(frame_bytes(mode).unwrap());
            let mut sent = lent(POINTS);
            payload_a::send(mode, &frame, &mut sent.0, &mut sent.1).unwrap();
            let (i, q) = noisy(&mut rng, &sent, most);
            let mut out = lent(POINTS + 3);
            assert_eq!(decide_a(mode, &i, &q, &mut out.0, &mut out.1), Ok(Counts::default()));
            assert_eq!((&out.0[..POINTS], &out.1[..POINTS]), (&sent.0[..], &sent.1[..]));
            assert_eq!((&out.0[POINTS..], &out.1[POINTS..]), (&[77; 3][..], &[-77; 3][..]));
            let mut area = vec![9; frame.len()];
            assert_eq!(payload_a::receive(mode, &out.0, &out.1, &mut area), Ok(Counts::default()));
            assert_eq!(area, frame);
        }
    }

    #[test]
    fn a_frame_comes_through_clean_and_with_noise_of_less_than_half_the_way() {
        let mut rng = Rng::new(2);
        for round in 0..90 {
            // Half of the way from one level to the next is 64.
            let (mode, most) = (round % 3, [0, 1, 63][round as usize / 3 % 3]);
            let bits = rng.between(2, 10) as u8;
            let any: Vec<u8> = (0..210).map(|_| rng.between(2, 10) as u8).collect();
            let scheme = if rng.once_in(2) { vec![bits; 210] } else { any };
            let units = rng.between(1, 6);
            let frame = rng.bytes(units * [1, 59, 54][mode as usize]);
            let length = frame.len() as u64;
            let need = payload_b::plan(mode, length, &scheme).unwrap().symbols * CARRIERS;
            let mut sent = lent(need);
            payload_b::send(mode, &frame, &scheme, &mut sent.0, &mut sent.1).unwrap();
            let (i, q) = noisy(&mut rng, &sent, most);
            let mut out = lent(need + 3);
            assert_eq!(decide_b(mode, length, &scheme, &i, &q, &mut out.0, &mut out.1), Ok(Counts::default()));
            assert_eq!((&out.0[..need], &out.1[..need]), (&sent.0[..], &sent.1[..]));
            assert_eq!((&out.0[need..], &out.1[need..]), (&[77; 3][..], &[-77; 3][..]));
            let mut area = vec![9; frame.len()];
            assert_eq!(payload_b::receive(mode, length, &scheme, &out.0, &out.1, &mut area), Ok(Counts::default()));
            assert_eq!(area, frame);
        }
    }

    #[test]
    fn what_is_decided_is_never_refused_with_7_or_8() {
        let mut numbers = std::collections::BTreeSet::new();
        for index in 0..600 {
            let mut request = hostile::request(3, index, &[7, 8]);
            if request.call().is_err() {
                continue;
            }
            let answer = match &request {
                Request::DecideA { mode, out_i, out_q, .. } => {
                    payload_a::receive(*mode, out_i, out_q, &mut vec![0; frame_bytes(*mode).unwrap()])
                }
                Request::DecideB { mode, length, scheme, out_i, out_q, .. } => {
                    payload_b::receive(*mode, *length, scheme, out_i, out_q, &mut vec![0; *length as usize])
                }
                _ => unreachable!("only jobs 7 and 8"),
            };
            numbers.insert(answer.map_or_else(Refusal::number, |_| 0));
        }
        // Points drawn at random carry no frame: but in mode 0 of Payload B anything is one.
        assert_eq!(numbers, [0, 9, 11].into());
    }

    #[test]
    fn unavailable_sub_carriers_are_not_looked_at() {
        let mut rng = Rng::new(4);
        let (i, q) = noisy(&mut rng, &(vec![1; 512], vec![0; 512]), 20);
        let (mut zero_i, mut zero_q) = (i.clone(), q.clone());
        for index in (0..512).filter(|index| grid::held_by(index % CARRIERS).is_none()) {
            (zero_i[index], zero_q[index]) = (0, 0);
        }
        let (mut one, mut other) = (lent(512), lent(512));
        assert_eq!(decide_a(0, &i, &q, &mut one.0, &mut one.1), Ok(Counts::default()));
        assert_eq!(decide_a(0, &zero_i, &zero_q, &mut other.0, &mut other.1), Ok(Counts::default()));
        assert_eq!(one, other);
        assert_eq!(grid::check_unavailable(2, &one.0, &one.1), Ok(()));
    }

    #[test]
    fn refusals_in_order_change_nothing() {
        let full = vec![5; 512];
        let mut lists = lent(512);
        let short = Err(Refusal::NoRoom);
        assert_eq!(decide_a(2, &[], &[], &mut [], &mut []), Err(Refusal::Unknown));
        assert_eq!(decide_a(255, &full, &full, &mut lists.0, &mut lists.1), Err(Refusal::Unknown));
        assert_eq!(decide_a(0, &full[1..], &full, &mut lists.0, &mut lists.1), short);
        assert_eq!(decide_a(1, &full, &full[1..], &mut lists.0, &mut lists.1), short);
        assert_eq!(decide_a(0, &full, &full, &mut lists.0[1..], &mut lists.1), short);
        assert_eq!(decide_a(1, &full, &full, &mut lists.0, &mut lists.1[1..]), short);
        let mut scheme = [4; 210];
        assert_eq!(decide_b(3, 0, &[], &[], &[], &mut [], &mut []), Err(Refusal::Unknown));
        assert_eq!(decide_b(0, 0, &[], &[], &[], &mut [], &mut []), Err(Refusal::WrongLength));
        assert_eq!(decide_b(1, 58, &[], &[], &[], &mut [], &mut []), Err(Refusal::WrongLength));
        assert_eq!(decide_b(0, u64::MAX, &[0; 209], &[], &[], &mut [], &mut []), Err(Refusal::BadScheme(210)));
        (scheme[209], scheme[7]) = (11, 1);
        assert_eq!(decide_b(0, u64::MAX, &scheme, &[], &[], &mut [], &mut []), Err(Refusal::BadScheme(7)));
        (scheme[209], scheme[7]) = (4, 4);
        assert_eq!(decide_b(0, u64::MAX, &scheme, &[], &[], &mut [], &mut []), Err(Refusal::TooManySymbols));
        // 106 bytes are 848 bits, eight more than a symbol has.
        assert_eq!(decide_b(0, 106, &scheme, &full[1..], &full, &mut lists.0, &mut lists.1), short);
        assert_eq!(decide_b(0, 106, &scheme, &full, &full[1..], &mut lists.0, &mut lists.1), short);
        assert_eq!(decide_b(0, 106, &scheme, &full, &full, &mut lists.0[1..], &mut lists.1), short);
        assert_eq!(decide_b(0, 106, &scheme, &full, &full, &mut lists.0, &mut lists.1[1..]), short);
        assert_eq!(lists, lent(512));
        assert_eq!(
            decide_b(0, 105, &scheme, &full[256..], &full[256..], &mut lists.0, &mut lists.1),
            Ok(Counts::default())
        );
        assert_eq!((&lists.0[256..], &lists.1[256..]), (&lent(256).0[..], &lent(256).1[..]));
        assert_eq!(decide_b(0, 106, &scheme, &full, &full, &mut lists.0, &mut lists.1), Ok(Counts::default()));
        let decided: Vec<Point> = grid::read(2, &lists.0, &lists.1).map(|(_, point)| point).collect();
        assert_eq!(decided, [(1, 1); 420]);
    }
}
