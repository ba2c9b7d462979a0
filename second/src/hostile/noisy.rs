//! Jobs 7 and 8: noisy points to decide, in sixty-fourths of a level.

use super::frames::{any_frame, told_length, told_mode, told_scheme};
use super::{lent, some_of, unknown, Faults};
use crate::grid::{held_by, AVAILABLE, CARRIERS};
use crate::nearest::PARTS;
use crate::noisy::{greatest_and_step, is_point, levels};
use crate::payload_a::SYMBOLS;
use crate::points::Point;
use crate::rng::Rng;
use crate::stray::Legal;
use crate::trial::Request;

/// I, Q, out I and out Q.
type Lists = [Vec<i16>; 4];

pub fn decide_a(rng: &mut Rng) -> Request {
    let faults = Faults::aim(rng, &[1, 3]);
    let grid = noisy_grid(rng, SYMBOLS, &[Legal::Dqpsk; AVAILABLE]);
    let [i, q, out_i, out_q] = lists(rng, &faults, grid);
    let mode = if faults.has(1) { unknown(rng, 0..=1) } else { rng.below(2) as u8 };
    Request::DecideA { mode, i, q, out_i, out_q }
}

pub fn decide_b(rng: &mut Rng) -> Request {
    let faults = Faults::aim(rng, &[1, 2, 3, 5, 6]);
    let frame = any_frame(rng, false);
    let legal: Vec<Legal> = frame.scheme.iter().map(|&bits| Legal::Qam(bits)).collect();
    let grid = noisy_grid(rng, frame.plan().symbols, &legal);
    let [i, q, out_i, out_q] = lists(rng, &faults, grid);
    let length = told_length(rng, &faults, &frame);
    let mode = told_mode(rng, &faults, frame.mode);
    Request::DecideB { mode, length, scheme: told_scheme(rng, &faults, frame.scheme), i, q, out_i, out_q }
}

/// The grid and as much lent, with poison: exact or longer; or one of the four lists too short, or several.
fn lists(rng: &mut Rng, faults: &Faults, (mut i, mut q): (Vec<i16>, Vec<i16>)) -> Lists {
    let mut short = some_of(rng, 4, faults.has(3));
    if faults.has(3) && rng.once_in(2) {
        let only = rng.below(4);
        short = (0..4).map(|list| list == only).collect();
    }
    let need = i.len();
    lent::fit(rng, &mut i, short[0]);
    lent::fit(rng, &mut q, short[1]);
    [i, q, lent::levels(rng, need, short[2]), lent::levels(rng, need, short[3])]
}

/// Noisy points on so many symbols, with what is legal for s(1) to s(210): of all kinds, or in a quarter of the grids of
/// one. On unavailable sub-carriers stands anything, in a quarter of the grids nothing.
fn noisy_grid(rng: &mut Rng, symbols: usize, legal: &[Legal]) -> (Vec<i16>, Vec<i16>) {
    let only = rng.once_in(4).then(|| rng.below(WAYS.len()));
    let empty = rng.once_in(4);
    let mut each = |index: usize| match held_by(index % CARRIERS) {
        Some(s) => {
            let way = only.unwrap_or_else(|| rng.below(WAYS.len()));
            WAYS[way](rng, legal[s - 1])
        }
        None if empty => (0, 0),
        None => (rng.level(), rng.level()),
    };
    (0..symbols * CARRIERS).map(&mut each).unzip()
}

/// A way to draw a noisy point where this is legal.
type Way = fn(&mut Rng, Legal) -> Point;

const WAYS: [Way; 9] = [uniform, clean, near_clean, on_lines, in_and_round_holes, corner, diagonal, axes, axes];

/// Those for one coordinate: all but `axes`, which draws from them.
const OF_AN_AXIS: usize = WAYS.len() - 2;

fn uniform(rng: &mut Rng, _: Legal) -> Point {
    (rng.level(), rng.level())
}

fn clean(rng: &mut Rng, legal: Legal) -> Point {
    let (i, q) = rng.pick(legal.points());
    (PARTS * i, PARTS * q)
}

/// A clean point and a little noise.
fn near_clean(rng: &mut Rng, legal: Legal) -> Point {
    let (i, q) = clean(rng, legal);
    (i + off(rng), q + off(rng))
}

/// Both coordinates multiples of half the way between two levels: levels, and lines between them.
fn on_lines(rng: &mut Rng, legal: Legal) -> Point {
    (line(rng, legal), line(rng, legal))
}

/// Where two levels are no point together, there or round it; where there are no holes, where two lines cross.
fn in_and_round_holes(rng: &mut Rng, legal: Legal) -> Point {
    let (i, q) = centre(rng, legal);
    let (one, two) = (off(rng), off(rng));
    let (right, up) = rng.pick(&[(0, 0), (one, 0), (0, one), (one, one), (one, -one), (one, two), (one, two)]);
    (i + right, q + up)
}

/// The ends of the range and 0.
fn corner(rng: &mut Rng, _: Legal) -> Point {
    const ENDS: [i16; 7] = [i16::MIN, i16::MIN, i16::MIN + 1, 0, i16::MAX - 1, i16::MAX, i16::MAX];
    (rng.pick(&ENDS), rng.pick(&ENDS))
}

/// Both coordinates of the same size, or nearly: near the levels, or anywhere.
fn diagonal(rng: &mut Rng, legal: Legal) -> Point {
    let any = rng.level().saturating_abs() - 1;
    let size = if rng.once_in(4) { any } else { any % (PARTS * legal.outside()) };
    let (i, q) = (rng.pick(&[1, -1]) * size, rng.pick(&[1, -1]) * size);
    (i, q + rng.pick(&[0, 0, 0, 1, -1]))
}

/// Each coordinate drawn in its own way.
fn axes(rng: &mut Rng, legal: Legal) -> Point {
    let mut axis = || {
        let way = WAYS[rng.below(OF_AN_AXIS)];
        way(rng, legal)
    };
    (axis().0, axis().1)
}

/// A little off: often by one or by nothing, else by less than the way from one level to the next.
fn off(rng: &mut Rng) -> i16 {
    let (small, any) = (rng.between(0, 32) as i16 - 16, rng.between(0, 200) as i16 - 100);
    rng.pick(&[0, 1, -1, small, small, any, any])
}

/// A multiple of half the way between two levels, as far as two levels outside.
fn line(rng: &mut Rng, legal: Legal) -> i16 {
    let (greatest, step) = greatest_and_step(legal);
    let half = PARTS / 2 * step;
    let most = (PARTS * (greatest + 2 * step) / half) as usize;
    half * (rng.between(0, 2 * most) as i16 - most as i16)
}

/// The middle of a hole; or of four points, where there are no holes.
fn centre(rng: &mut Rng, legal: Legal) -> Point {
    let levels = levels(legal);
    if levels.len() * levels.len() == legal.points().len() {
        // Between a level and the one below it, 2 less.
        return (PARTS * (rng.pick(&levels[1..]) - 1), PARTS * (rng.pick(&levels[1..]) - 1));
    }
    loop {
        let (i, q) = (rng.pick(levels), rng.pick(levels));
        if !is_point(legal, (i, q)) {
            return (PARTS * i, PARTS * q);
        }
    }
}

#[cfg(test)]
mod tests {
    use super::*;
    use crate::answer::Refusal;
    use crate::nearest::{in_order, nearest};
    use crate::noisy::{all, kind_of, kinds, Kind};
    use crate::{grid, hostile, payload_b};
    use std::collections::BTreeMap;

    #[test]
    fn every_way_draws_what_it_says() {
        let mut rng = Rng::new(1);
        for legal in all() {
            for _ in 0..300 {
                assert_eq!(kind_of(legal, clean(&mut rng, legal)), Kind::Clean);
                let (i, q) = on_lines(&mut rng, legal);
                let half = PARTS / 2 * greatest_and_step(legal).1;
                assert_eq!((i % half, q % half), (0, 0));
                let (i, q) = corner(&mut rng, legal);
                assert!([i, q].iter().all(|&c| c == 0 || c <= i16::MIN + 1 || c >= i16::MAX - 1));
                let (i, q) = diagonal(&mut rng, legal);
                assert!((i.abs() as i32 - q.abs() as i32).abs() <= 1, "({i},{q})");
                let wanted = if kinds(legal).contains(&Kind::Hole) { Kind::Hole } else { Kind::Crossing };
                assert_eq!(kind_of(legal, centre(&mut rng, legal)), wanted, "{legal:?}");
            }
        }
    }

    #[test]
    fn grids_of_few_symbols_are_the_rule_and_many_come() {
        let counts: Vec<usize> = (0..2_000)
            .map(|index| match decide_b(&mut Rng::of_request(2, index)) {
                Request::DecideB { i, .. } => i.len() / CARRIERS,
                _ => unreachable!("only job 8"),
            })
            .collect();
        assert!(counts.iter().filter(|&&count| count <= 5).count() > 1_500);
        assert!(counts.iter().any(|&count| count > 100));
    }

    #[test]
    fn unavailable_sub_carriers_hold_anything_mostly() {
        let mut rng = Rng::new(3);
        let filled = |(i, q): (Vec<i16>, Vec<i16>)| {
            (0..CARRIERS).filter(|&k| held_by(k).is_none() && (i[k], q[k]) != (0, 0)).count()
        };
        let counts: Vec<usize> =
            (0..200).map(|_| filled(noisy_grid(&mut rng, 1, &[Legal::Qam(4); AVAILABLE]))).collect();
        assert!(counts.contains(&0) && counts.iter().filter(|&&count| count > 40).count() > 100);
    }

    /// A decision that is wrong here and there: its name, and what it decides.
    type Wrong = (&'static str, fn(Legal, Point) -> Point);

    /// The first in an order of all points at the least of a measure of the differences on both axes.
    fn least<T: Ord>(points: impl Iterator<Item = Point>, came: Point, measure: fn(i64, i64) -> T) -> Point {
        let off = |level: i16, came: i16| 64 * level as i64 - came as i64;
        points.min_by_key(|point| measure(off(point.0, came.0), off(point.1, came.1))).unwrap()
    }

    fn table(legal: Legal) -> impl DoubleEndedIterator<Item = Point> {
        in_order(legal).iter().copied()
    }

    const WRONG: [Wrong; 8] = [
        ("the last at a tie", |legal, came| least(table(legal).rev(), came, |i, q| i * i + q * q)),
        ("by the sum of the sizes", |legal, came| least(table(legal), came, |i, q| i.abs() + q.abs())),
        ("by the greater size", |legal, came| least(table(legal), came, |i, q| i.abs().max(q.abs()))),
        ("differences of 16 bits", |legal, came| {
            least(table(legal), came, |i, q| (i as i16 as i64).pow(2) + (q as i16 as i64).pow(2))
        }),
        ("squares of 32 bits", |legal, came| {
            least(table(legal), came, |i, q| {
                (i as i32).wrapping_mul(i as i32).wrapping_add((q as i32).wrapping_mul(q as i32))
            })
        }),
        ("rounded to whole levels before", |legal, came| {
            let whole = |c: i16| (c.saturating_add(32) >> 6) << 6;
            nearest(legal, (whole(came.0), whole(came.1)))
        }),
        ("cut to whole levels before", |legal, came| nearest(legal, (came.0 / 64 * 64, came.1 / 64 * 64))),
        ("I and Q changed about", |legal, came| nearest(legal, (came.1, came.0))),
    ];

    #[test]
    fn every_wrong_decision_shows_often() {
        let mut shown: BTreeMap<(u8, &str), u64> = BTreeMap::new();
        for (job, index) in (0..200).flat_map(|index| [(7, index), (8, index)]) {
            let mut request = hostile::request(1, index, &[job]);
            if request.call().is_err() {
                continue;
            }
            let (symbols, legal, i, q) = match &request {
                Request::DecideA { i, q, .. } => (2, vec![Legal::Dqpsk; AVAILABLE], i, q),
                Request::DecideB { mode, length, scheme, i, q, .. } => {
                    let plan = payload_b::plan(*mode, *length, scheme).unwrap();
                    (plan.symbols.min(5), scheme.iter().map(|&bits| Legal::Qam(bits)).collect(), i, q)
                }
                _ => unreachable!("only jobs 7 and 8"),
            };
            for (name, wrong) in WRONG {
                let mut each = grid::read(symbols, i, q).zip(legal.iter().cycle());
                let differs = each.any(|((_, came), &legal)| wrong(legal, came) != nearest(legal, came));
                *shown.entry((job, name)).or_default() += differs as u64;
            }
        }
        assert_eq!(shown.len(), 2 * WRONG.len());
        // Two of them are right there.
        let right = [(7, "by the greater size"), (8, "by the sum of the sizes")];
        let often = |(from, count): (_, &u64)| if right.contains(from) { *count == 0 } else { *count >= 30 };
        assert!(shown.iter().all(often), "{shown:?}");
    }

    #[test]
    fn several_checks_would_refuse_now_and_then() {
        let mut both: BTreeMap<&str, u64> = BTreeMap::new();
        let mut count = |name, holds: bool| *both.entry(name).or_default() += holds as u64;
        for index in 0..3_000 {
            match hostile::request(2, index, &[7, 8]) {
                Request::DecideA { mode, i, q, out_i, out_q } => {
                    count("A: 1 and 3", mode > 1 && [i, q, out_i, out_q].iter().any(|list| list.len() < 512));
                }
                Request::DecideB { mode, length, scheme, i, q, out_i, out_q } => {
                    let short = [i, q, out_i, out_q].iter().any(|list| list.len() < CARRIERS);
                    let bad = matches!(payload_b::plan(0, 1, &scheme), Err(Refusal::BadScheme(_)));
                    let wrong = payload_b::plan(mode, length, &[2; 210]).err() == Some(Refusal::WrongLength);
                    let long = mode <= 2 && payload_b::plan(0, length, &[10; 210]).is_err() && length > 0;
                    count("B: 1 and 5", mode > 2 && bad);
                    count("B: 1 and 2", mode > 2 && length == 0);
                    count("B: 1 and 3", mode > 2 && short);
                    count("B: 2 and 5", wrong && bad);
                    count("B: 2 and 3", wrong && short);
                    count("B: 5 and 6", bad && long && !wrong);
                    count("B: 5 and 3", bad && short);
                }
                _ => unreachable!("only jobs 7 and 8"),
            }
        }
        assert!(both.len() == 8 && both.values().all(|&count| count >= 5), "{both:?}");
    }
}
