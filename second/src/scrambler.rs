//! The scrambler of clause 6.2, as document 01 reads Figure 2.
//!
//! Each step shifts stage 14 xor stage 15 into stage 1, so stage m holds what was formed m steps ago. The sequence is
//! therefore z(i) = z(i-14) xor z(i-15), and the stages at the start, bit 15 down to bit 1, are z(-15) .. z(-1).

use std::sync::LazyLock;

/// Stage 15 down to stage 1 before the first bit of each frame.
const START: &[u8; 15] = b"010010011011000";

/// The first `count` bits of the scrambling sequence.
pub fn sequence(count: usize) -> Vec<u8> {
    let mut z: Vec<u8> = START.iter().map(|digit| digit - b'0').collect();
    for i in START.len()..START.len() + count {
        z.push(z[i - 14] ^ z[i - 15]);
    }
    z.split_off(START.len())
}

/// The length after which the sequence comes again.
const PERIOD: usize = (1 << START.len()) - 1;

static ONCE: LazyLock<Vec<u8>> = LazyLock::new(|| sequence(PERIOD));

/// The bits of the sequence from a place on, without those before it: by its period.
fn from_place(place: usize) -> impl Iterator<Item = u8> {
    ONCE.iter().copied().cycle().skip(place % PERIOD)
}

/// Bits scrambled, or unscrambled, that stand in their frame from this place on.
pub fn scrambled_from(place: usize, bits: &[u8]) -> Vec<u8> {
    bits.iter().zip(from_place(place)).map(|(bit, z)| bit ^ z).collect()
}

/// The stages after so many bits of a frame, as 15 binary digits: stage 15, the highest, was formed 15 steps ago, and
/// before the first bit a period ago.
pub fn stages(place: usize) -> u16 {
    from_place(place + PERIOD - START.len()).take(START.len()).fold(0, |stages, z| stages << 1 | z as u16)
}

/// A frame's bits scrambled, or unscrambled: the same thing. The sequence starts anew.
pub fn scrambled(bits: &[u8]) -> Vec<u8> {
    bits.iter().zip(sequence(bits.len())).map(|(bit, z)| bit ^ z).collect()
}

#[cfg(test)]
mod tests {
    use super::*;

    /// Document 01's reading word for word: fifteen stages, a step at a time.
    fn stage_by_stage(count: usize) -> Vec<u8> {
        let mut stage = [0; 16];
        for (i, digit) in START.iter().enumerate() {
            stage[15 - i] = digit - b'0';
        }
        let mut out = Vec::new();
        for _ in 0..count {
            let formed = stage[14] ^ stage[15];
            for m in (2..=15).rev() {
                stage[m] = stage[m - 1];
            }
            stage[1] = formed;
            out.push(formed);
        }
        out
    }

    #[test]
    fn first_sixteen_bits_of_document_01() {
        assert_eq!(sequence(16), [1, 1, 0, 1, 1, 0, 1, 0, 1, 1, 0, 1, 0, 0, 1, 0]);
    }

    #[test]
    fn the_recurrence_is_the_register() {
        assert_eq!(sequence(70_000), stage_by_stage(70_000));
    }

    #[test]
    fn the_sequence_has_the_full_period() {
        let z = sequence(3 * 32_767);
        assert_eq!(z[..32_767], z[32_767..2 * 32_767]);
        assert_eq!(z[..32_767].iter().filter(|&&b| b == 1).count(), 16_384);
    }

    #[test]
    fn from_any_place_it_is_the_rest_of_the_sequence() {
        let z = sequence(70_000);
        for place in [0, 1, 15, 471, 472, 32_766, 32_767, 32_768, 65_534, 69_000] {
            assert_eq!(scrambled_from(place, &[0; 1_000]), z[place..place + 1_000]);
        }
    }

    #[test]
    fn stages_are_what_was_formed_last() {
        assert_eq!(stages(0), 0b010010011011000);
        assert_eq!(stages(1), 0b100100110110001);
        let z = sequence(40_000);
        for place in (15..40_000).step_by(97) {
            let formed = (1..=15).fold(0, |sum, m| sum | (z[place - m] as u16) << (m - 1));
            assert_eq!(stages(place), formed);
        }
    }

    #[test]
    fn scrambling_twice_is_nothing() {
        let bits: Vec<u8> = (0..999).map(|i| (i * i / 7 % 2) as u8).collect();
        assert_eq!(scrambled(&scrambled(&bits)), bits);
    }
}
