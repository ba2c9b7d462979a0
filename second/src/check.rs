//! The frame check of clause 7.4.2 by the rule of request 6: the remainder of the message times x^32 by equation 10,
//! register from all ones, the result inverted, highest power first.

/// The powers of equation 10 below x^32.
const POWERS: [u32; 14] = [26, 23, 22, 16, 12, 11, 10, 8, 7, 5, 4, 2, 1, 0];

/// The length of the check in bits.
pub const BITS: usize = 32;

/// What a reading of the check is free to choose: polynomial and bit order are the same for all.
#[derive(Clone, Copy, Debug, PartialEq, Eq)]
pub struct Rule {
    /// What the register starts with.
    pub start: u32,
    /// What is added to the result.
    pub added: u32,
}

/// The rule of request 6: from all ones, the result inverted.
pub const RULE: Rule = Rule { start: !0, added: !0 };

/// The earlier rule, document 01's: from zero, the result as it is.
pub const EARLIER: Rule = Rule { start: 0, added: 0 };

/// The rules that are not ours: the earlier rule, and those with one of the two changes, the start or the inversion.
pub const OTHERS: [Rule; 3] = [EARLIER, Rule { start: !0, added: 0 }, Rule { start: 0, added: !0 }];

/// The check of these bits as a number.
pub fn value(bits: &[u8]) -> u32 {
    value_by(RULE, bits)
}

/// The check of these bits as 32 bits, highest power first.
pub fn of(bits: &[u8]) -> Vec<u8> {
    of_by(RULE, bits)
}

/// The check by this rule as a number, divided out one bit after the other.
pub fn value_by(rule: Rule, bits: &[u8]) -> u32 {
    let below = POWERS.iter().fold(0u32, |sum, p| sum | 1 << p);
    let register = bits.iter().fold(rule.start, |register, &bit| {
        let out = (register >> 31) ^ bit as u32;
        (register << 1) ^ (below * out)
    });
    register ^ rule.added
}

/// The check by this rule as 32 bits, highest power first.
pub fn of_by(rule: Rule, bits: &[u8]) -> Vec<u8> {
    places(value_by(rule, bits))
}

/// The 32 bits of a number, highest power first.
fn places(number: u32) -> Vec<u8> {
    (0..BITS).rev().map(|p| (number >> p & 1) as u8).collect()
}

#[cfg(test)]
mod tests {
    use super::*;
    use crate::poly;
    use crate::rng::Rng;

    /// Our rule and the others.
    fn rules() -> impl Iterator<Item = Rule> {
        [RULE].into_iter().chain(OTHERS)
    }

    /// The check by long division: of the message times x^32 with the start added to its first 32 places, which a
    /// message of any length has. What is added to the result comes last.
    fn divided(rule: Rule, message: &[u8]) -> Vec<u8> {
        let mut powers = vec![BITS];
        powers.extend(POWERS.iter().map(|&p| p as usize));
        let dividend = [message, &[0; BITS]].concat();
        let start = [places(rule.start), vec![0; message.len()]].concat();
        sum(&poly::remainder(&sum(&dividend, &start), &poly::from_powers(&powers)), &places(rule.added))
    }

    fn sum(v: &[u8], w: &[u8]) -> Vec<u8> {
        v.iter().zip(w).map(|(x, y)| x ^ y).collect()
    }

    #[test]
    fn the_two_check_cases() {
        let zeros = vec![0; 464];
        let last = [&zeros[..463], &[1]].concat();
        for (rule, of_zeros, of_last) in [(RULE, 0x3846_7B63, 0x3C87_66D4), (EARLIER, 0, 0x04C1_1DB7)] {
            assert_eq!(divided(rule, &zeros), places(of_zeros));
            assert_eq!(divided(rule, &last), places(of_last));
            assert_eq!((value_by(rule, &zeros), value_by(rule, &last)), (of_zeros, of_last));
        }
        assert_eq!((value(&zeros), value(&last)), (0x3846_7B63, 0x3C87_66D4));
    }

    #[test]
    fn agrees_with_long_division() {
        for length in [1, 8, 31, 32, 33, 464, 752] {
            let bits: Vec<u8> = (0..length).map(|i| (i * (i + length) / 3 % 2) as u8).collect();
            assert!(rules().all(|rule| divided(rule, &bits) == of_by(rule, &bits)), "{length}");
            assert_eq!(divided(RULE, &bits), of(&bits));
        }
    }

    #[test]
    fn known_values_of_this_polynomial() {
        let bits = crate::bits::of_bytes(b"123456789");
        // CRC-32/BZIP2 is the rule of request 6; its catalogued value of these nine bytes is FC891918.
        assert_eq!(value(&bits), 0xFC89_1918);
        // CRC-32/CKSUM is the last of the others, from zero and inverted; its catalogued value of them is 765E7680.
        assert_eq!(value_by(OTHERS[2], &bits), 0x765E_7680);
    }

    #[test]
    fn changing_the_last_bit_changes_the_check_by_the_polynomial() {
        let mut rng = Rng::new(1);
        for length in [1, 2, 31, 32, 33, 248, 464, 752] {
            for message in [vec![0; length], vec![1; length], rng.bits(length), rng.bits(length)] {
                let mut changed = message.clone();
                changed[length - 1] ^= 1;
                for rule in rules() {
                    assert_eq!(value_by(rule, &message) ^ value_by(rule, &changed), 0x04C1_1DB7);
                }
            }
        }
    }

    #[test]
    fn the_sum_of_two_checks_is_the_check_of_the_sum_by_the_earlier_rule() {
        let mut rng = Rng::new(2);
        for length in [0, 1, 8, 31, 32, 33, 464, 752] {
            for _ in 0..20 {
                let (v, w) = (rng.bits(length), rng.bits(length));
                for rule in rules() {
                    assert_eq!(value_by(rule, &v) ^ value_by(rule, &w), value_by(EARLIER, &sum(&v, &w)));
                }
            }
        }
    }

    #[test]
    fn the_rules_part_on_every_frame() {
        // By the sum of two checks, what holds for one message of a length holds for all of it.
        for length in [464, 752] {
            let mut values: Vec<u32> = rules().map(|rule| value_by(rule, &vec![0; length])).collect();
            values.sort();
            values.dedup();
            assert_eq!(values.len(), rules().count());
        }
    }
}
