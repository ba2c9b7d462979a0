//! The nine QAM constellations of clause 6.4 by Annex B: label to point, and point back to label.
//!
//! data/annex_b.txt has the tables as printed (data/extract.py took them from the text). The repairs that document 01
//! fixes are made here, before anything else is done with them.

use std::collections::HashMap;
use std::sync::LazyLock;

/// I and Q, whole numbers.
pub type Point = (i16, i16);

/// Tables B.1 to B.9 as printed, one line a point: bits, label, I, Q.
const PRINTED: &str = include_str!("../data/annex_b.txt");

/// The misprinted points of document 01: label, what is printed, what it shall be.
const MISPRINTS: [(&str, Point, Point); 3] =
    [("010", (0, 2), (0, -2)), ("101100101", (5, 1), (-5, 1)), ("111100101", (5, -1), (-5, -1))];

/// The table whose first sixteen rows print nine-bit labels.
const TEN_BITS: usize = 10;

pub struct Constellation {
    /// The point of each label.
    points: Vec<Point>,
    /// The label of each point.
    labels: HashMap<Point, u16>,
}

static CONSTELLATIONS: LazyLock<Vec<Constellation>> = LazyLock::new(|| (2..=10).map(Constellation::new).collect());

/// The constellation with this many bits a point, 2 to 10.
pub fn constellation(bits: u8) -> Option<&'static Constellation> {
    CONSTELLATIONS.get((bits as usize).checked_sub(2)?)
}

impl Constellation {
    fn new(bits: usize) -> Constellation {
        let mut points = vec![(0, 0); 1 << bits];
        for (label, point) in printed(bits) {
            let (label, point) = repaired(bits, &label, point);
            points[label as usize] = point;
        }
        let labels = (0..).zip(&points).map(|(label, &point)| (point, label)).collect();
        Constellation { points, labels }
    }

    /// The point of a label below 2^bits.
    pub fn point(&self, label: u16) -> Point {
        self.points[label as usize]
    }

    /// The label of a point, if it is one of this constellation's.
    pub fn label(&self, point: Point) -> Option<u16> {
        self.labels.get(&point).copied()
    }

    /// All points, by label.
    pub fn points(&self) -> &[Point] {
        &self.points
    }
}

/// The lines of the table with this many bits a point: label as printed, and the point.
fn printed(bits: usize) -> Vec<(String, Point)> {
    let lines = PRINTED.lines().map(|line| line.split(' ').collect::<Vec<_>>());
    lines
        .filter(|line| line[0] == bits.to_string())
        .map(|line| (line[1].to_string(), (line[2].parse().unwrap(), line[3].parse().unwrap())))
        .collect()
}

/// A printed line with document 01's repairs.
fn repaired(bits: usize, label: &str, point: Point) -> (u16, Point) {
    let mut digits = label.to_string();
    if bits == TEN_BITS && digits.len() == 9 {
        digits.insert(1, '0');
    }
    let misprint = MISPRINTS.iter().find(|m| m.0 == label && label.len() == bits);
    let point = misprint.map_or(point, |m| m.2);
    (u16::from_str_radix(&digits, 2).unwrap(), point)
}

#[cfg(test)]
mod tests {
    use super::*;

    /// Document 01: the squares add up to 2^n times these, for n = 2..10.
    const SQUARES: [i64; 9] = [2, 6, 10, 24, 42, 96, 170, 384, 682];

    fn of(bits: usize) -> &'static Constellation {
        constellation(bits as u8).unwrap()
    }

    #[test]
    fn only_2_to_10_bits() {
        assert!((0..=255).all(|bits| constellation(bits).is_some() == (2..=10).contains(&bits)));
    }

    #[test]
    fn every_label_is_printed_once() {
        for bits in 2..=10 {
            let mut labels: Vec<u16> = printed(bits).iter().map(|(l, p)| repaired(bits, l, *p).0).collect();
            labels.sort();
            assert_eq!(labels, (0..1 << bits).collect::<Vec<u16>>());
        }
    }

    #[test]
    fn misprints_stand_where_document_01_says() {
        for (label, wrong, _) in MISPRINTS {
            assert_eq!(printed(label.len()).iter().filter(|line| **line == (label.to_string(), wrong)).count(), 1);
        }
        // Sixteen rows, two labels a row, all of them the first ones.
        let nine: Vec<bool> = printed(10).iter().map(|(label, _)| label.len() == 9).collect();
        assert!(nine[..32].iter().all(|&n| n) && !nine[32..].contains(&true));
        assert!((2..=9).all(|bits| printed(bits).iter().all(|(label, _)| label.len() == bits)));
    }

    #[test]
    fn points_are_different_and_read_back() {
        for bits in 2..=10 {
            let table = of(bits);
            assert_eq!(table.labels.len(), 1 << bits);
            assert!((0..1 << bits).all(|label| table.label(table.point(label)) == Some(label)));
        }
    }

    #[test]
    fn reading_is_a_search_of_the_table() {
        for bits in 2..=10 {
            let table = of(bits);
            for point in (-40..=40).flat_map(|i| (-40..=40).map(move |q| (i, q))) {
                let found = table.points().iter().position(|&p| p == point);
                assert_eq!(table.label(point), found.map(|label| label as u16));
            }
        }
    }

    #[test]
    fn squares_add_up() {
        for bits in 2..=10 {
            let sum: i64 = of(bits).points().iter().map(|&(i, q)| i as i64 * i as i64 + q as i64 * q as i64).sum();
            assert_eq!(sum, SQUARES[bits - 2] << bits);
        }
    }

    #[test]
    fn first_bit_negates_i_and_second_q_but_in_8qam() {
        for bits in (2..=10).filter(|&bits| bits != 3) {
            let (first, second) = (1 << (bits - 1), 1 << (bits - 2));
            for label in 0..1 << bits {
                let (i, q) = of(bits).point(label & !(first | second));
                let sign = |bit: u16| if label & bit == 0 { 1 } else { -1 };
                assert_eq!(of(bits).point(label), (i * sign(first), q * sign(second)));
            }
        }
    }

    #[test]
    fn walk_of_8qam_once_round_the_square() {
        let walk = [0b000, 0b001, 0b011, 0b010, 0b110, 0b111, 0b101, 0b100].map(|label| of(3).point(label));
        let round = [(2, 2), (2, 0), (2, -2), (0, -2), (-2, -2), (-2, 0), (-2, 2), (0, 2)];
        assert_eq!(walk, round);
    }

    #[test]
    fn as_printed_8qam_would_collide() {
        let points: Vec<Point> = printed(3).iter().map(|line| line.1).collect();
        assert_eq!(points.iter().filter(|&&p| p == (0, 2)).count(), 2);
    }
}
