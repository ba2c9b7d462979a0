//! GF(512): polynomials over GF(2) of degree at most 8, modulo x^9 + x^4 + 1 (document 01, "The three codes").
//! A number's bit i is the coefficient of x^i. Everything here is by the definition; there is no table.

/// x^9 + x^4 + 1.
pub const MODULUS: u32 = 0b10_0001_0001;

/// The number of field elements.
pub const SIZE: u16 = 512;

/// The number of powers of a, which are all elements but 0.
pub const ORDER: usize = 511;

/// The product: multiplied without carries, then reduced from the top.
pub fn product(x: u16, y: u16) -> u16 {
    reduced(carryless(x as u32, y as u32)) as u16
}

/// The product of two polynomials over GF(2).
fn carryless(x: u32, y: u32) -> u32 {
    (0..9).filter(|i| y >> i & 1 == 1).fold(0, |sum, i| sum ^ x << i)
}

/// The remainder by the modulus.
fn reduced(p: u32) -> u32 {
    (9..=16).rev().fold(p, |p, i| if p >> i & 1 == 1 { p ^ MODULUS << (i - 9) } else { p })
}

/// The inverse by Euclid's algorithm on polynomials; that of 0 is 0, for want of one.
pub fn inverse(x: u16) -> u16 {
    if x == 0 {
        return 0;
    }
    // Kept: high = (some multiple of MODULUS) + high_times * x, and the same for low.
    let (mut high, mut low) = (MODULUS, x as u32);
    let (mut high_times, mut low_times) = (0, 1);
    while low != 1 {
        while degree(high) >= degree(low) {
            let shift = degree(high) - degree(low);
            high ^= low << shift;
            high_times ^= low_times << shift;
        }
        std::mem::swap(&mut high, &mut low);
        std::mem::swap(&mut high_times, &mut low_times);
    }
    low_times as u16
}

/// The degree of a polynomial that is not 0.
fn degree(p: u32) -> u32 {
    31 - p.leading_zeros()
}

/// x to a power, by squaring; x^0 is 1.
pub fn power(x: u16, exponent: usize) -> u16 {
    if exponent == 0 {
        return 1;
    }
    let half = power(x, exponent / 2);
    let even = product(half, half);
    if exponent % 2 == 1 {
        product(even, x)
    } else {
        even
    }
}

/// The root a of x^9 + x^4 + 1, that is x itself.
pub const A: u16 = 2;

#[cfg(test)]
mod tests {
    use super::*;

    #[test]
    fn product_is_commutative_and_has_one() {
        for x in 0..SIZE {
            assert_eq!(product(x, 1), x);
            assert_eq!(product(x, 0), 0);
            for y in 0..x {
                assert_eq!(product(x, y), product(y, x));
                assert!(product(x, y) < SIZE);
            }
        }
    }

    #[test]
    fn product_is_associative_and_distributive() {
        for x in (0..SIZE).step_by(7) {
            for y in (0..SIZE).step_by(5) {
                for z in 0..SIZE {
                    assert_eq!(product(product(x, y), z), product(x, product(y, z)));
                    assert_eq!(product(x, y ^ z), product(x, y) ^ product(x, z));
                }
            }
        }
    }

    #[test]
    fn inverses_are_those_a_search_finds() {
        assert_eq!(inverse(0), 0);
        for x in 1..SIZE {
            let found: Vec<u16> = (0..SIZE).filter(|&y| product(x, y) == 1).collect();
            assert_eq!(found, [inverse(x)]);
        }
    }

    #[test]
    fn a_is_a_root_and_runs_through_all_elements() {
        assert_eq!(power(A, 9) ^ power(A, 4) ^ 1, 0);
        let mut seen = [false; SIZE as usize];
        (0..ORDER).for_each(|e| seen[power(A, e) as usize] = true);
        assert!(!seen[0] && seen[1..].iter().all(|&s| s));
        assert_eq!(power(A, ORDER), 1);
    }

    #[test]
    fn powers_are_repeated_products() {
        for x in [0, 1, 2, 3, 100, 511] {
            let mut by_hand = 1;
            for e in 0..40 {
                assert_eq!(power(x, e), by_hand);
                by_hand = product(by_hand, x);
            }
        }
    }
}
