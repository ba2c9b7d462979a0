//! The grid of clause 6.5: 210 constellation symbols on the 256 sub-carriers of each OFDM symbol, by equation 4.

use crate::answer::Refusal;
use crate::points::Point;

/// Sub-carriers of an OFDM symbol.
pub const CARRIERS: usize = 256;

/// Available ones among them.
pub const AVAILABLE: usize = 210;

/// Which constellation symbol, 1 to 210, sub-carrier k holds; none on an unavailable one.
pub fn held_by(k: usize) -> Option<usize> {
    if (1..=105).contains(&k) {
        Some(k + 105)
    } else if (151..=255).contains(&k) {
        Some(k - 150)
    } else {
        None
    }
}

/// The sub-carrier of s(1), of s(2), .., of s(210).
pub fn carriers() -> [usize; AVAILABLE] {
    let mut order = [0; AVAILABLE];
    for k in 0..CARRIERS {
        if let Some(s) = held_by(k) {
            order[s - 1] = k;
        }
    }
    order
}

/// Writes the points, 210 for each OFDM symbol, and (0,0) between them.
pub fn write(points: &[Point], i: &mut [i16], q: &mut [i16]) {
    for (symbol, held) in points.chunks(AVAILABLE).enumerate() {
        for k in 0..CARRIERS {
            let index = CARRIERS * symbol + k;
            (i[index], q[index]) = held_by(k).map_or((0, 0), |s| held[s - 1]);
        }
    }
}

/// Check 7 over the first `symbols` OFDM symbols: the first unavailable sub-carrier that is not (0,0).
pub fn check_unavailable(symbols: usize, i: &[i16], q: &[i16]) -> Result<(), Refusal> {
    for index in 0..CARRIERS * symbols {
        if held_by(index % CARRIERS).is_none() && (i[index], q[index]) != (0, 0) {
            return Err(Refusal::Filled(index));
        }
    }
    Ok(())
}

/// The points of the first `symbols` OFDM symbols in s order, each with its grid index.
pub fn read<'a>(symbols: usize, i: &'a [i16], q: &'a [i16]) -> impl Iterator<Item = (usize, Point)> + 'a {
    let order = carriers();
    (0..symbols * AVAILABLE).map(move |number| {
        let index = CARRIERS * (number / AVAILABLE) + order[number % AVAILABLE];
        (index, (i[index], q[index]))
    })
}

#[cfg(test)]
mod tests {
    use super::*;

    #[test]
    fn places_of_document_01() {
        let order = carriers();
        assert_eq!((order[0], order[104], order[105], order[209]), (151, 255, 1, 105));
        assert_eq!((0..CARRIERS).filter(|&k| held_by(k).is_none()).count(), 46);
        assert!(held_by(0).is_none() && (106..=150).all(|k| held_by(k).is_none()));
    }

    #[test]
    fn written_points_are_read_back_and_nothing_else_is_touched() {
        let points: Vec<Point> = (1..=3 * AVAILABLE as i16).map(|n| (n, -n)).collect();
        let (mut i, mut q) = (vec![99; 3 * CARRIERS + 5], vec![98; 3 * CARRIERS + 5]);
        write(&points, &mut i, &mut q);
        assert_eq!(read(3, &i, &q).map(|(_, p)| p).collect::<Vec<_>>(), points);
        assert_eq!(check_unavailable(3, &i, &q), Ok(()));
        assert_eq!((&i[768..], &q[768..]), (&[99; 5][..], &[98; 5][..]));
    }

    #[test]
    fn first_filled_is_the_least_index() {
        for index in (0..2 * CARRIERS).filter(|index| held_by(index % CARRIERS).is_none()) {
            let (mut i, q) = (vec![0; 512], vec![0; 512]);
            (i[index], i[406]) = (1, -1);
            assert_eq!(check_unavailable(2, &i, &q), Err(Refusal::Filled(index)));
            assert_eq!(check_unavailable(2, &q, &i), Err(Refusal::Filled(index)));
        }
    }
}
