//! Stray points for a sub-carrier: near its legal points, by kinds, or anywhere.

use crate::points::{constellation, Point};
use crate::rng::Rng;
use crate::stray::{Kind, Legal};

/// A point that is not legal, where this one stood.
pub fn stray(rng: &mut Rng, legal: Legal, stood: Point) -> Point {
    let aim = any_kind(rng, legal);
    loop {
        let point = if aim == Kind::Anything { strange(rng, stood) } else { near(rng, legal, aim) };
        let kind = legal.kind_of(point);
        if kind == Some(aim) || (aim == Kind::Anything && kind.is_some()) {
            return point;
        }
    }
}

/// One of the kinds that there are; those that few constellations have, three times as often.
fn any_kind(rng: &mut Rng, legal: Legal) -> Kind {
    let mut kinds = legal.kinds();
    for rare in [Kind::Hole, Kind::Middle] {
        if kinds.contains(&rare) {
            kinds.extend([rare; 2]);
        }
    }
    rng.pick(&kinds)
}

/// A point that is often of this kind: a legal one with one level off, or both.
fn near(rng: &mut Rng, legal: Legal, kind: Kind) -> Point {
    if kind == Kind::Another {
        return any_point(rng);
    }
    let off = |rng: &mut Rng, level: i16| match kind {
        Kind::Hole => rng.pick(legal.points()).0,
        Kind::Middle | Kind::Zero => 0,
        Kind::Outside => rng.pick(&[1, -1]) * legal.outside(),
        _ => level + rng.pick(&[1, -1]),
    };
    let (i, q) = rng.pick(legal.points());
    match rng.below(3) {
        0 => (off(rng, i), q),
        1 => (i, off(rng, q)),
        _ => (off(rng, i), off(rng, q)),
    }
}

/// A point of any constellation.
fn any_point(rng: &mut Rng) -> Point {
    let bits = rng.between(2, 10) as u8;
    rng.pick(constellation(bits).expect("2 to 10").points())
}

/// A point that is seldom legal: off by a little, off by a power of two, of any constellation, or far away.
fn strange(rng: &mut Rng, stood: Point) -> Point {
    let (i, q) = stood;
    let power = 1i16.wrapping_shl(rng.between(5, 15) as u32);
    let step = rng.pick(&[1, -1, 1, -1, 2, -2, 62, -62, power, power, power.wrapping_neg()]);
    let small = |rng: &mut Rng| rng.between(0, 80) as i16 - 40;
    match rng.below(12) {
        0..=2 => (i.wrapping_add(step), q),
        3..=5 => (i, q.wrapping_add(step)),
        6 => rng.pick(&[(0, 0), (q, i), (i, 0), (0, q), (i, 0), (i.wrapping_add(2), q.wrapping_add(2))]),
        7 => (small(rng), small(rng)),
        8 => (rng.level(), rng.level()),
        9 => rng.pick(&[(i16::MIN, q), (i, i16::MAX), (i16::MAX, i16::MIN), (i, i16::MIN), (i16::MAX, q)]),
        10 => any_point(rng),
        _ => (small(rng), q),
    }
}

#[cfg(test)]
mod tests {
    use super::*;

    #[test]
    fn every_kind_is_drawn_and_no_legal_point() {
        let mut rng = Rng::new(1);
        for legal in [Legal::Dqpsk].into_iter().chain((2..=10).map(Legal::Qam)) {
            let stood = legal.points()[0];
            let drawn: Vec<Option<Kind>> = (0..500).map(|_| legal.kind_of(stray(&mut rng, legal, stood))).collect();
            assert!(!drawn.contains(&None));
            assert!(legal.kinds().iter().all(|&kind| drawn.contains(&Some(kind))));
        }
    }
}
