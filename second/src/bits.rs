//! Bytes and bits, most significant bit first (document 01, "Bits, lengths and grids").

/// The bits of the bytes, an element each.
pub fn of_bytes(bytes: &[u8]) -> Vec<u8> {
    bytes.iter().flat_map(|byte| (0..8).rev().map(move |i| byte >> i & 1)).collect()
}

/// The bytes of the bits, whose number is a multiple of eight.
pub fn to_bytes(bits: &[u8]) -> Vec<u8> {
    bits.chunks(8).map(|eight| eight.iter().fold(0, |byte, bit| byte << 1 | bit)).collect()
}

/// The number of places where two lists of one length differ.
pub fn differ(v: &[u8], w: &[u8]) -> usize {
    v.iter().zip(w).filter(|(x, y)| x != y).count()
}

/// The places where two lists of one length differ, rising.
pub fn differing(v: &[u8], w: &[u8]) -> Vec<usize> {
    (0..v.len()).filter(|&place| v[place] != w[place]).collect()
}

#[cfg(test)]
mod tests {
    use super::*;

    #[test]
    fn most_significant_first() {
        assert_eq!(of_bytes(&[0x80, 0x03]), [1, 0, 0, 0, 0, 0, 0, 0, 0, 0, 0, 0, 0, 0, 1, 1]);
    }

    #[test]
    fn there_and_back() {
        let all: Vec<u8> = (0..=255).collect();
        assert_eq!(to_bytes(&of_bytes(&all)), all);
    }

    #[test]
    fn places_that_differ() {
        assert_eq!(differing(&[0, 1, 1, 0, 1], &[1, 1, 0, 0, 0]), [0, 2, 4]);
        assert_eq!(differ(&[0, 1, 1, 0, 1], &[1, 1, 0, 0, 0]), 3);
        assert_eq!(differing(&[1, 0], &[1, 0]), []);
    }
}
