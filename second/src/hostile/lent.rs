//! Lent lists: short, exact and long, with poison in every element.

use crate::rng::Rng;
use crate::trial::{MOST_BYTES, MOST_POINTS};

/// A length for `need` elements: exact or longer; or too short, which needs at least one.
fn length(rng: &mut Rng, need: usize, short: bool) -> usize {
    if short && need > 0 {
        return match rng.below(6) {
            0..=2 => need - 1,
            3 => 0,
            4 => need / 2,
            _ => rng.below(need),
        };
    }
    match rng.below(4) {
        0 | 1 => need,
        2 => need + 1,
        _ => need + rng.between(1, 40),
    }
}

/// Bytes lent for an answer of `need` bytes. Now and then as many as the trial program can hold.
pub fn bytes(rng: &mut Rng, need: usize, short: bool) -> Vec<u8> {
    let count = if !short && rng.once_in(400) { MOST_BYTES } else { length(rng, need, short) };
    rng.bytes(count.min(MOST_BYTES))
}

/// Levels lent for a grid of `need` points.
pub fn levels(rng: &mut Rng, need: usize, short: bool) -> Vec<i16> {
    let count = if !short && rng.once_in(2_000) { MOST_POINTS } else { length(rng, need, short) };
    (0..count.min(MOST_POINTS)).map(|_| rng.level()).collect()
}

/// Makes a grid that is read longer, with poison, or too short.
pub fn fit(rng: &mut Rng, list: &mut Vec<i16>, short: bool) {
    let poisoned = levels(rng, list.len(), short);
    let kept = list.len().min(poisoned.len());
    list.truncate(kept);
    list.extend_from_slice(&poisoned[kept..]);
}

#[cfg(test)]
mod tests {
    use super::*;

    #[test]
    fn short_lists_are_short_and_others_are_not() {
        let mut rng = Rng::new(1);
        for _ in 0..500 {
            assert!(bytes(&mut rng, 58, true).len() < 58 && bytes(&mut rng, 58, false).len() >= 58);
            assert!(levels(&mut rng, 512, true).len() < 512 && levels(&mut rng, 512, false).len() >= 512);
        }
    }

    #[test]
    fn a_fitted_grid_keeps_its_points() {
        let mut rng = Rng::new(2);
        for _ in 0..100 {
            let mut list = vec![1, 2, 3];
            fit(&mut rng, &mut list, false);
            assert_eq!(list[..3], [1, 2, 3]);
        }
    }
}
