//! Noisy points by kinds: where they lie among the levels. A decision that rounds each level by itself, or the wrong way
//! at a tie, goes wrong on some of them.

use crate::nearest::PARTS;
use crate::points::{constellation, Point};
use crate::stray::Legal;
use std::collections::{BTreeMap, BTreeSet};
use std::sync::LazyLock;

/// The kinds, in the order in which they are asked for.
#[derive(Clone, Copy, Debug, PartialEq, Eq, PartialOrd, Ord)]
pub enum Kind {
    /// A coordinate is the least or the greatest of 16 bits.
    End,
    /// Both coordinates lie on a line half way between two levels.
    Crossing,
    /// One of them does.
    Line,
    /// A point of the table, times 64.
    Clean,
    /// A coordinate is beyond the outermost level.
    Outside,
    /// The levels nearest to the coordinates are no point together.
    Hole,
    /// None of these: the levels nearest to the coordinates are a point.
    Inside,
}

/// The kinds and their names.
pub const KINDS: [(Kind, &str); 7] = [
    (Kind::End, "end of the range"),
    (Kind::Crossing, "on two lines"),
    (Kind::Line, "on one line"),
    (Kind::Clean, "clean"),
    (Kind::Outside, "outside"),
    (Kind::Hole, "hole"),
    (Kind::Inside, "inside"),
];

static LEVELS: LazyLock<BTreeMap<Legal, Vec<i16>>> = LazyLock::new(|| {
    let levels_of = |legal: Legal| legal.points().iter().map(|point| point.0).collect::<BTreeSet<i16>>();
    all().into_iter().map(|legal| (legal, levels_of(legal).into_iter().collect())).collect()
});

/// All ten constellations.
pub fn all() -> Vec<Legal> {
    [Legal::Dqpsk].into_iter().chain((2..=10).map(Legal::Qam)).collect()
}

/// The levels of I, rising; those of Q are the same.
pub fn levels(legal: Legal) -> &'static [i16] {
    &LEVELS[&legal]
}

/// The outermost level, and how far one is from the next.
pub fn greatest_and_step(legal: Legal) -> (i16, i16) {
    let greatest = *levels(legal).last().expect("levels");
    (greatest, legal.outside() - greatest)
}

/// Whether two levels are a point together.
pub fn is_point(legal: Legal, point: Point) -> bool {
    match legal {
        Legal::Dqpsk => legal.points().contains(&point),
        Legal::Qam(bits) => constellation(bits).expect("2 to 10").label(point).is_some(),
    }
}

/// The kind of what came in.
pub fn kind_of(legal: Legal, came: Point) -> Kind {
    let is_end = |coordinate| matches!(coordinate, i16::MIN | i16::MAX);
    if is_end(came.0) || is_end(came.1) {
        return Kind::End;
    }
    match (&beside(legal, came.0)[..], &beside(legal, came.1)[..]) {
        (&[i], &[q]) => kind_near(legal, (i, q), came),
        ([_], _) | (_, [_]) => Kind::Line,
        _ => Kind::Crossing,
    }
}

/// The kind of what came in on no line, by the two levels that are nearest.
fn kind_near(legal: Legal, (i, q): Point, came: Point) -> Kind {
    let edge = PARTS * greatest_and_step(legal).0;
    if is_point(legal, (i, q)) && came == (PARTS * i, PARTS * q) {
        Kind::Clean
    } else if came.0.abs() > edge || came.1.abs() > edge {
        Kind::Outside
    } else if is_point(legal, (i, q)) {
        Kind::Inside
    } else {
        Kind::Hole
    }
}

/// The kinds that there are here.
pub fn kinds(legal: Legal) -> Vec<Kind> {
    let holes = matches!(legal, Legal::Dqpsk | Legal::Qam(3 | 5 | 7 | 9));
    KINDS.map(|(kind, _)| kind).into_iter().filter(|&kind| kind != Kind::Hole || holes).collect()
}

/// The levels at the least distance from a coordinate: one, or the two on both sides of a line.
fn beside(legal: Legal, coordinate: i16) -> Vec<i16> {
    let distance = |level: i16| (PARTS as i32 * level as i32 - coordinate as i32).abs();
    let least = levels(legal).iter().map(|&level| distance(level)).min().expect("levels");
    levels(legal).iter().copied().filter(|&level| distance(level) == least).collect()
}

#[cfg(test)]
mod tests {
    use super::*;
    use crate::nearest::{nearest, tied};

    #[test]
    fn levels_by_their_numbers() {
        let outermost = [1, 1, 2, 3, 5, 7, 11, 15, 23, 31];
        let counts = [3, 2, 3, 4, 6, 8, 12, 16, 24, 32];
        for (legal, (greatest, count)) in all().into_iter().zip(outermost.into_iter().zip(counts)) {
            assert_eq!((greatest_and_step(legal).0, levels(legal).len()), (greatest, count));
            let step = greatest_and_step(legal).1;
            assert!(levels(legal).windows(2).all(|two| two[1] - two[0] == step), "{legal:?}");
        }
    }

    #[test]
    fn points_that_one_would_name() {
        let named = [
            (2, (0, 0), Kind::Crossing),
            (2, (0, 64), Kind::Line),
            (2, (64, -64), Kind::Clean),
            (2, (64, -65), Kind::Outside),
            (2, (20_000, 0), Kind::Line),
            (2, (i16::MIN, 0), Kind::End),
            (2, (63, -1), Kind::Inside),
            (3, (0, 0), Kind::Hole),
            (3, (64, 63), Kind::Line),
            (3, (-63, 63), Kind::Hole),
            (5, (3 * 64, -3 * 64), Kind::Hole),
            (5, (3 * 64 + 63, -3 * 64 - 63), Kind::Hole),
            (5, (4 * 64, 3 * 64), Kind::Line),
            (5, (4 * 64, 0), Kind::Crossing),
            (9, (21 * 64 + 1, 9 * 64), Kind::Hole),
            (10, (31 * 64, 31 * 64 + 1), Kind::Outside),
            (10, (1, 1), Kind::Inside),
        ];
        for (bits, came, kind) in named {
            assert_eq!(kind_of(Legal::Qam(bits), came), kind, "{bits} bits, {came:?}");
        }
        let named = [
            ((0, 0), Kind::Hole),
            ((32, 0), Kind::Line),
            ((32, -32), Kind::Crossing),
            ((0, 64), Kind::Clean),
            ((33, 33), Kind::Hole),
            ((0, 65), Kind::Outside),
            ((i16::MAX, 64), Kind::End),
        ];
        for (came, kind) in named {
            assert_eq!(kind_of(Legal::Dqpsk, came), kind, "DQPSK, {came:?}");
        }
    }

    #[test]
    fn there_are_the_kinds_that_are_said_to_be() {
        for legal in all() {
            let outside = PARTS * legal.outside();
            let near = (-outside..=outside).step_by(32).flat_map(|at| [at, at + 1]);
            let axis: Vec<i16> = near.chain([i16::MIN, i16::MAX]).collect();
            let found: BTreeSet<Kind> =
                axis.iter().flat_map(|&i| axis.iter().map(move |&q| kind_of(legal, (i, q)))).collect();
            assert_eq!(kinds(legal), found.into_iter().collect::<Vec<_>>(), "{legal:?}");
        }
    }

    #[test]
    fn only_on_lines_in_holes_and_far_out_is_there_any_tie() {
        for legal in all() {
            let outside = PARTS * legal.outside();
            for (i, q) in
                (-outside..=outside).step_by(16).flat_map(|i| (-outside..=outside).step_by(16).map(move |q| (i, q)))
            {
                if matches!(kind_of(legal, (i, q)), Kind::Clean | Kind::Inside) {
                    let rounded = (beside(legal, i)[0], beside(legal, q)[0]);
                    assert_eq!((nearest(legal, (i, q)), tied(legal, (i, q))), (rounded, 1), "{legal:?}, ({i},{q})");
                }
            }
        }
    }
}
