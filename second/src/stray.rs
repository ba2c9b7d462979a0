//! Stray points by kinds, most of which lie near the legal points: a receiver that looks at levels one by one, or only
//! at their range or parity, takes some of them for legal.

use crate::dqpsk;
use crate::points::{constellation, Point};

/// What is legal on a sub-carrier: the points of DQPSK, or of the constellation with so many bits a point.
#[derive(Clone, Copy, Debug, PartialEq, Eq, PartialOrd, Ord)]
pub enum Legal {
    Dqpsk,
    Qam(u8),
}

/// The kinds, in the order in which they are asked for.
#[derive(Clone, Copy, Debug, PartialEq, Eq, PartialOrd, Ord)]
pub enum Kind {
    /// Two legal levels that are no legal point together: the holes of 32, 128 and 512QAM; in DQPSK the points of QPSK.
    Hole,
    /// (0,0) where 0 is a legal level: in 8QAM and in DQPSK.
    Middle,
    /// A level 0 where it is none; the other legal, or 0 as well.
    Zero,
    /// A level just outside; the other legal, or outside as well.
    Outside,
    /// A level off by one, so that its parity is wrong; the other legal.
    Parity,
    /// A point of another constellation.
    Another,
    /// None of these.
    Anything,
}

/// The kinds of Payload B and their names.
pub const OF_QAM: [(Kind, &str); 7] = [
    (Kind::Hole, "hole"),
    (Kind::Middle, "middle of 8QAM"),
    (Kind::Zero, "level 0"),
    (Kind::Outside, "next level outside"),
    (Kind::Parity, "parity beside"),
    (Kind::Another, "another constellation"),
    (Kind::Anything, "anything else"),
];

/// The kinds of Payload A and their names.
pub const OF_DQPSK: [(Kind, &str); 5] = [
    (Kind::Hole, "point of QPSK"),
    (Kind::Middle, "(0,0)"),
    (Kind::Outside, "level 2"),
    (Kind::Another, "another constellation"),
    (Kind::Anything, "anything else"),
];

/// Where a level lies.
enum Side {
    Legal,
    Zero,
    Outside,
    OffByOne,
    Elsewhere,
}

impl Legal {
    /// The legal points.
    pub fn points(self) -> &'static [Point] {
        match self {
            Legal::Dqpsk => &dqpsk::POINTS,
            Legal::Qam(bits) => constellation(bits).expect("2 to 10").points(),
        }
    }

    /// The kind of a point; none if it is legal.
    pub fn kind_of(self, point: Point) -> Option<Kind> {
        if self.points().contains(&point) {
            return None;
        }
        Some(match (self.side(point.0), self.side(point.1)) {
            (Side::Legal, Side::Legal) if point == (0, 0) => Kind::Middle,
            (Side::Legal, Side::Legal) => Kind::Hole,
            (Side::Zero, Side::Legal | Side::Zero) | (Side::Legal, Side::Zero) => Kind::Zero,
            (Side::Outside, Side::Legal | Side::Outside) | (Side::Legal, Side::Outside) => Kind::Outside,
            (Side::OffByOne, Side::Legal) | (Side::Legal, Side::OffByOne) => Kind::Parity,
            _ if is_of_any(point) => Kind::Another,
            _ => Kind::Anything,
        })
    }

    /// The kinds that there are here.
    pub fn kinds(self) -> Vec<Kind> {
        let has = |kind: &Kind| match (kind, self) {
            (Kind::Hole, Legal::Qam(bits)) => matches!(bits, 5 | 7 | 9),
            (Kind::Middle, Legal::Qam(bits)) => bits == 3,
            (Kind::Zero, Legal::Qam(bits)) => bits != 3,
            (Kind::Zero | Kind::Parity, Legal::Dqpsk) => false,
            _ => true,
        };
        OF_QAM.map(|(kind, _)| kind).into_iter().filter(has).collect()
    }

    /// The size of the levels just outside: the levels of DQPSK follow each other by 1, the others by 2.
    pub fn outside(self) -> i16 {
        let greatest = self.points().iter().map(|point| point.0).max().expect("points");
        greatest + if self == Legal::Dqpsk { 1 } else { 2 }
    }

    /// Where a level lies; I and Q have the same levels.
    fn side(self, level: i16) -> Side {
        let is_legal = |level: i16| self.points().iter().any(|point| point.0 == level);
        if is_legal(level) {
            Side::Legal
        } else if level == 0 {
            Side::Zero
        } else if level.unsigned_abs() == self.outside().unsigned_abs() {
            Side::Outside
        } else if is_legal(level.wrapping_sub(1)) || is_legal(level.wrapping_add(1)) {
            Side::OffByOne
        } else {
            Side::Elsewhere
        }
    }
}

/// Whether a constellation has this point.
fn is_of_any(point: Point) -> bool {
    (2..=10).any(|bits| constellation(bits).expect("2 to 10").label(point).is_some())
}

#[cfg(test)]
mod tests {
    use super::*;
    use std::collections::BTreeSet;

    fn all() -> Vec<Legal> {
        [Legal::Dqpsk].into_iter().chain((2..=10).map(Legal::Qam)).collect()
    }

    /// All points with both levels from -40 to 40, and their kinds.
    fn square(legal: Legal) -> Vec<(Point, Option<Kind>)> {
        let points = (-40..=40).flat_map(|i| (-40..=40).map(move |q| (i, q)));
        points.map(|point| (point, legal.kind_of(point))).collect()
    }

    #[test]
    fn holes_have_two_levels_of_size_3_9_15_or_21() {
        for (bits, greatest) in (2..=10).zip([1, 2, 3, 5, 7, 11, 15, 23, 31]) {
            let holed = |level: i16| level.abs() <= greatest && [3, 9, 15, 21].contains(&level.abs());
            for ((i, q), kind) in square(Legal::Qam(bits)) {
                let hole = matches!(bits, 5 | 7 | 9) && holed(i) && holed(q);
                assert_eq!(kind == Some(Kind::Hole), hole, "{bits} bits, ({i},{q})");
            }
        }
    }

    #[test]
    fn kinds_by_their_numbers() {
        let numbers = |legal: Legal| {
            let square = square(legal);
            let count = |kind| square.iter().filter(|(_, of)| *of == Some(kind)).count();
            [Kind::Hole, Kind::Middle, Kind::Zero, Kind::Outside, Kind::Parity].map(count)
        };
        // Levels, and holes among their pairs.
        let levels = [(2, 0), (3, 0), (4, 0), (6, 4), (8, 0), (12, 16), (16, 0), (24, 64), (32, 0)];
        for (bits, (levels, holes)) in (2..=10).zip(levels).filter(|(bits, _)| *bits != 3) {
            let wanted = [holes, 0, 2 * levels + 1, 4 * levels + 4, 2 * levels * levels];
            assert_eq!(numbers(Legal::Qam(bits)), wanted, "{bits} bits");
        }
        assert_eq!(numbers(Legal::Qam(3)), [0, 1, 0, 16, 24]);
        assert_eq!(numbers(Legal::Dqpsk), [4, 1, 0, 16, 0]);
    }

    #[test]
    fn points_that_one_would_name() {
        let named = [
            (2, (3, 1), Kind::Outside),
            (2, (5, 1), Kind::Another),
            (2, (2, -1), Kind::Parity),
            (3, (0, 0), Kind::Middle),
            (3, (-4, 0), Kind::Outside),
            (3, (1, 1), Kind::Another),
            (4, (0, 0), Kind::Zero),
            (4, (0, -3), Kind::Zero),
            (5, (-3, 3), Kind::Hole),
            (5, (7, -7), Kind::Outside),
            (6, (2, 0), Kind::Another),
            (7, (3, 3), Kind::Hole),
            (9, (-21, 9), Kind::Hole),
            (9, (23, 25), Kind::Outside),
            (10, (32, 1), Kind::Parity),
            (10, (2, 2), Kind::Another),
            (10, (4, 4), Kind::Anything),
        ];
        for (bits, point, kind) in named {
            assert_eq!(Legal::Qam(bits).kind_of(point), Some(kind), "{bits} bits, {point:?}");
        }
        let named = [((-1, 1), Kind::Hole), ((0, 0), Kind::Middle), ((2, 0), Kind::Outside), ((3, 1), Kind::Another)];
        for (point, kind) in named {
            assert_eq!(Legal::Dqpsk.kind_of(point), Some(kind), "DQPSK, {point:?}");
        }
    }

    #[test]
    fn there_are_the_kinds_that_are_said_to_be() {
        for legal in all() {
            let found: BTreeSet<Kind> = square(legal).iter().filter_map(|(_, kind)| *kind).collect();
            assert_eq!(legal.kinds(), found.into_iter().collect::<Vec<_>>());
        }
        assert_eq!(OF_DQPSK.map(|(kind, _)| kind).to_vec(), Legal::Dqpsk.kinds());
    }

    #[test]
    fn legal_points_have_no_kind_and_far_ones_have() {
        for legal in all() {
            assert!(legal.points().iter().all(|&point| legal.kind_of(point).is_none()));
            let ends = [i16::MIN, i16::MAX];
            assert!(ends.iter().all(|&end| legal.kind_of((end, end)) == Some(Kind::Anything)));
        }
    }

    #[test]
    fn i_and_q_have_the_same_levels() {
        for points in all().iter().map(|legal| legal.points()) {
            assert!(points.iter().all(|&(i, q)| points.contains(&(q, i))));
        }
    }
}
