//! DQPSK as the standard prints it: Table 1, the next symbol by the last symbol and two bits.

use crate::points::Point;

/// +1.
pub const PLUS_ONE: Point = (1, 0);
/// -1.
const MINUS_ONE: Point = (-1, 0);
/// +j.
const PLUS_J: Point = (0, 1);
/// -j.
const MINUS_J: Point = (0, -1);

/// The four points.
pub const POINTS: [Point; 4] = [PLUS_ONE, MINUS_ONE, PLUS_J, MINUS_J];

/// Table 1: a row for each last symbol, and in it the next symbol for the dibits 00, 01, 10, 11.
const TABLE: [(Point, [Point; 4]); 4] = [
    (PLUS_ONE, [PLUS_ONE, PLUS_J, MINUS_J, MINUS_ONE]),
    (MINUS_ONE, [MINUS_ONE, MINUS_J, PLUS_J, PLUS_ONE]),
    (PLUS_J, [PLUS_J, MINUS_ONE, PLUS_ONE, MINUS_J]),
    (MINUS_J, [MINUS_J, PLUS_ONE, MINUS_ONE, PLUS_J]),
];

/// Whether the point is one of the four.
pub fn is_legal(point: Point) -> bool {
    POINTS.contains(&point)
}

/// The row of a legal point.
fn row(last: Point) -> &'static [Point; 4] {
    &TABLE.iter().find(|row| row.0 == last).expect("a legal point").1
}

/// The points of a whole frame's bits, from the reference +1, which is not sent.
pub fn points(bits: &[u8]) -> Vec<Point> {
    let mut last = PLUS_ONE;
    bits.chunks(2)
        .map(|dibit| {
            last = row(last)[(2 * dibit[0] + dibit[1]) as usize];
            last
        })
        .collect()
}

/// The bits of a whole frame's points, all of them legal.
pub fn bits(points: &[Point]) -> Vec<u8> {
    let mut bits = Vec::with_capacity(2 * points.len());
    let mut last = PLUS_ONE;
    for &point in points {
        let dibit = row(last).iter().position(|&next| next == point).expect("a legal point") as u8;
        bits.extend([dibit >> 1, dibit & 1]);
        last = point;
    }
    bits
}

#[cfg(test)]
mod tests {
    use super::*;

    #[test]
    fn table_1_is_turns_by_0_1_minus_1_and_2_quarters() {
        let quarter = |(i, q): Point| (-q, i);
        for (last, nexts) in TABLE {
            for (next, quarters) in nexts.iter().zip([0, 1, 3, 2]) {
                assert_eq!(*next, (0..quarters).fold(last, |p, _| quarter(p)));
            }
        }
    }

    #[test]
    fn there_and_back() {
        let mut rng = crate::rng::Rng::new(5);
        let sent = rng.bits(840);
        assert_eq!(bits(&points(&sent)), sent);
    }

    #[test]
    fn four_points_are_legal() {
        let square = (-3..=3).flat_map(|i| (-3..=3).map(move |q| (i, q)));
        assert_eq!(square.filter(|&p| is_legal(p)).count(), 4);
    }
}
