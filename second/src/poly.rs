//! Polynomials over GF(2) as bit vectors, an element a coefficient, highest power first.

/// The polynomial with these powers of x, written as equations 1 to 3 of the standard write it, highest first.
pub fn from_powers(powers: &[usize]) -> Vec<u8> {
    let degree = powers[0];
    let mut bits = vec![0; degree + 1];
    for p in powers {
        bits[degree - p] = 1;
    }
    bits
}

/// The remainder of `dividend` by `divisor` (whose first element is 1): long division, as on paper.
pub fn remainder(dividend: &[u8], divisor: &[u8]) -> Vec<u8> {
    let mut rest = dividend.to_vec();
    let degree = divisor.len() - 1;
    let steps = rest.len() - degree;
    for i in 0..steps {
        if rest[i] == 1 {
            for (r, d) in rest[i..].iter_mut().zip(divisor) {
                *r ^= d;
            }
        }
    }
    rest.split_off(steps)
}

/// The information followed by the remainder of information times x^degree: a codeword, whatever its length.
pub fn encoded(information: &[u8], generator: &[u8]) -> Vec<u8> {
    let mut times = information.to_vec();
    times.resize(information.len() + generator.len() - 1, 0);
    let rest = remainder(&times, generator);
    times[information.len()..].copy_from_slice(&rest);
    times
}

#[cfg(test)]
mod tests {
    use super::*;

    #[test]
    fn long_division_by_hand() {
        // x^4 + x + 1 = (x^2 + 1)(x^2 + 1) + x
        assert_eq!(remainder(&[1, 0, 0, 1, 1], &[1, 0, 1]), [1, 0]);
        assert_eq!(from_powers(&[4, 1, 0]), [1, 0, 0, 1, 1]);
    }

    #[test]
    fn what_is_encoded_leaves_no_remainder() {
        let generator = from_powers(&[3, 1, 0]);
        for m in 0..16u8 {
            let information: Vec<u8> = (0..4).map(|i| m >> (3 - i) & 1).collect();
            let word = encoded(&information, &generator);
            assert_eq!(word[..4], information);
            assert_eq!(remainder(&word, &generator), [0, 0, 0]);
        }
    }
}
