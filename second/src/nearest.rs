//! Deciding a noisy point (request 1): the point at the least squared distance, by a plain search of the table.
//!
//! What comes in is in sixty-fourths of a level. The search goes through the table in its order and keeps the first of
//! those at the least distance: for QAM the order of the labels, for DQPSK +1, +j, -1, -j.

use crate::points::{constellation, Point};
use crate::stray::Legal;

/// What came in for a level of 1.
pub const PARTS: i16 = 64;

/// The points of DQPSK in the order of request 1.
const TURNS: [Point; 4] = [(1, 0), (0, 1), (-1, 0), (0, -1)];

/// The points of a sub-carrier in the order that a tie goes by.
pub fn in_order(legal: Legal) -> &'static [Point] {
    match legal {
        Legal::Dqpsk => &TURNS,
        Legal::Qam(bits) => constellation(bits).expect("2 to 10").points(),
    }
}

/// The first of the points at the least squared distance from what came in.
pub fn nearest(legal: Legal, came: Point) -> Point {
    // Of several at the least distance `min_by_key` gives the first.
    *in_order(legal).iter().min_by_key(|&&point| squared_distance(point, came)).expect("points")
}

/// How many points lie at the least squared distance.
pub fn tied(legal: Legal, came: Point) -> usize {
    let least = squared_distance(nearest(legal, came), came);
    in_order(legal).iter().filter(|&&point| squared_distance(point, came) == least).count()
}

/// In sixty-fourths of a level, squared: at most twice the square of 64 * 31 + 32768.
fn squared_distance(point: Point, came: Point) -> i64 {
    let off = |level: i16, came: i16| PARTS as i64 * level as i64 - came as i64;
    let (i, q) = (off(point.0, came.0), off(point.1, came.1));
    i * i + q * q
}

#[cfg(test)]
mod tests {
    use super::*;
    use crate::noisy::all;
    use crate::rng::Rng;

    /// The label of what is decided.
    fn label(bits: u8, i: i16, q: i16) -> u16 {
        constellation(bits).unwrap().label(nearest(Legal::Qam(bits), (i, q))).unwrap()
    }

    #[test]
    fn clean_points_come_back() {
        for legal in all() {
            for &(i, q) in in_order(legal) {
                assert_eq!((nearest(legal, (PARTS * i, PARTS * q)), tied(legal, (PARTS * i, PARTS * q))), ((i, q), 1));
            }
        }
    }

    #[test]
    fn all_points_and_no_others_stand_in_the_order() {
        for legal in all() {
            assert_eq!(in_order(legal).len(), legal.points().len());
            assert!(legal.points().iter().all(|point| in_order(legal).contains(point)));
        }
    }

    #[test]
    fn ties_of_dqpsk_go_to_the_first_of_the_turns() {
        let decided = [
            ((0, 0), (1, 0), 4),
            ((1, 1), (1, 0), 2),
            ((-1, 1), (0, 1), 2),
            ((-1, -1), (-1, 0), 2),
            ((1, -1), (1, 0), 2),
            ((32, 32), (1, 0), 2),
            ((32, 33), (0, 1), 1),
            ((-32, 33), (0, 1), 1),
            ((-33, -32), (-1, 0), 1),
            ((32, -33), (0, -1), 1),
            ((0, 1), (0, 1), 1),
            ((0, -1), (0, -1), 1),
            ((i16::MIN, i16::MIN), (-1, 0), 2),
            ((i16::MAX, i16::MAX), (1, 0), 2),
            ((i16::MIN, i16::MAX), (-1, 0), 1),
            ((i16::MAX, i16::MIN), (0, -1), 1),
            ((-i16::MAX, i16::MAX), (0, 1), 2),
        ];
        for (came, point, count) in decided {
            assert_eq!((nearest(Legal::Dqpsk, came), tied(Legal::Dqpsk, came)), (point, count), "{came:?}");
        }
    }

    #[test]
    fn ties_of_qam_go_to_the_lowest_label() {
        // QPSK: 00 is (1,1), 01 (1,-1), 10 (-1,1), 11 (-1,-1).
        for (i, q, wanted) in [(0, 0, 0), (0, 1, 0), (0, -1, 1), (1, 0, 0), (-1, 0, 2), (-1, -1, 3), (0, i16::MIN, 1)] {
            assert_eq!(label(2, i, q), wanted, "({i},{q})");
        }
        // Whatever the table is, no lower label is as near.
        let mut rng = Rng::new(1);
        for bits in 2..=10 {
            let table = constellation(bits).unwrap();
            let mut ties = 0;
            for _ in 0..500 {
                // As far as the next level outside.
                let most = Legal::Qam(bits).outside();
                let mut whole = || PARTS * (rng.between(0, 2 * most as usize) as i16 - most);
                let came = (whole(), whole());
                let wanted = label(bits, came.0, came.1);
                let least = squared_distance(table.point(wanted), came);
                assert!((0..wanted).all(|lower| squared_distance(table.point(lower), came) > least));
                assert!((wanted..1 << bits).all(|label| squared_distance(table.point(label), came) >= least));
                ties += (tied(Legal::Qam(bits), came) > 1) as u64;
            }
            assert!(ties > 50, "{bits} bits: {ties}");
        }
    }

    #[test]
    fn the_corners_of_the_range_go_to_the_corners_of_the_table() {
        for bits in 2..=10 {
            let legal = Legal::Qam(bits);
            let greatest = legal.points().iter().map(|point| point.0).max().unwrap();
            let ends = [(i16::MIN, -greatest), (i16::MAX, greatest)];
            for ((i, left), (q, below)) in ends.into_iter().flat_map(|i| ends.map(|q| (i, q))) {
                assert_eq!((nearest(legal, (i, q)), tied(legal, (i, q))), ((left, below), 1), "{bits} bits");
            }
        }
    }

    #[test]
    fn the_middle_of_8qam_is_a_tie_of_the_four_beside_it() {
        assert_eq!((nearest(Legal::Qam(3), (0, 0)), tied(Legal::Qam(3), (0, 0))), ((2, 0), 4));
        let beside = [((1, 0), (2, 0)), ((-1, 0), (-2, 0)), ((0, 1), (0, 2)), ((0, -1), (0, -2))];
        for (came, point) in beside {
            assert_eq!((nearest(Legal::Qam(3), came), tied(Legal::Qam(3), came)), (point, 1));
        }
        // 001 is (2,0), 010 (0,-2), 100 (0,2), 101 (-2,0).
        for (i, q, wanted) in [(9, 9, 0b001), (9, -9, 0b001), (-9, -9, 0b010), (-9, 9, 0b100)] {
            assert_eq!((label(3, i, q), tied(Legal::Qam(3), (i, q))), (wanted, 2), "({i},{q})");
        }
    }

    #[test]
    fn holes_are_decided_to_a_point_beside_them() {
        for (bits, greatest) in [(5, 5), (7, 11), (9, 23)] {
            let legal = Legal::Qam(bits);
            let holed: Vec<i16> = (-greatest..=greatest).filter(|level| level % 6 == 3 || level % 6 == -3).collect();
            for (i, q) in holed.iter().flat_map(|&i| holed.iter().map(move |&q| (i, q))) {
                let beside = [(i - 2, q), (i + 2, q), (i, q - 2), (i, q + 2)];
                let lowest = beside.iter().filter_map(|&point| constellation(bits).unwrap().label(point)).min();
                assert_eq!((Some(label(bits, 64 * i, 64 * q)), tied(legal, (64 * i, 64 * q))), (lowest, 4));
                for (point, (right, up)) in beside.into_iter().zip([(-1, 0), (1, 0), (0, -1), (0, 1)]) {
                    let came = (64 * i + right, 64 * q + up);
                    assert_eq!((nearest(legal, came), tied(legal, came)), (point, 1), "{bits} bits, {came:?}");
                }
                // On the diagonals two of them are as near.
                assert_eq!(tied(legal, (64 * i + 20, 64 * q - 20)), 2);
            }
        }
    }
}
