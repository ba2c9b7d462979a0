//! The three shortened BCH codes of clause 6.3, one word at a time.
//!
//! Encoding is long division of bit vectors. Decoding is Peterson's way, with the parity-check matrix:
//!
//! 1. The syndromes S(1) .. S(2t) are the word's values at a, a^2, .., a^(2t). The odd ones come from the matrix, the
//!    even ones are squares: S(2j) = S(j)^2. All are zero exactly for a codeword; nothing is to be mended then.
//! 2. If nu places were hit, the locator X^nu + c(1) X^(nu-1) + .. + c(nu) solves nu linear equations in the
//!    syndromes. They are singular for more than the true number and regular for the true number, so nu goes from t
//!    down and stops at the first regular system.
//! 3. The n places of the shortened word are tried; a root elsewhere (a dropped place, or none in the field) is
//!    missing then, and the word is refused.
//! 4. The mended word is looked at again: a codeword, at most t places away. Only then is it answered.
//! 5. The places that are answered are found by comparing the mended word with the word that came, index by index.
//!
//! That the words with zero syndromes are those that the generator divides, and no others, is a test below: the matrix
//! has rank n - k, and takes every codeword to zero.

use crate::answer::{check, listed, Answer, Counts, Refusal};
use crate::bits::differing;
use crate::field::ORDER;
use crate::logs::LOGS;
use crate::poly;
use std::sync::LazyLock;

/// The largest t of the three codes.
const MOST: usize = 16;

pub struct Code {
    /// The length of a word.
    pub n: usize,
    /// The number of information bits.
    pub k: usize,
    /// The number of bits that are mended.
    pub t: usize,
    /// The generator's coefficients, highest power first.
    pub generator: Vec<u8>,
    /// For each place of a word, what a 1 there adds to S(1), S(3), .., S(2t-1).
    parity: Vec<[u16; MOST]>,
}

/// Equation 1.
const POWERS_1: &[usize] = &[36, 35, 34, 31, 30, 25, 23, 21, 20, 19, 16, 15, 11, 8, 7, 5, 0];

/// Equation 2.
const POWERS_2: &[usize] = &[
    72, 71, 69, 68, 67, 63, 61, 60, 59, 57, 50, 49, 47, 44, 43, 41, 40, 39, 35, 33, 32, 28, 27, 26, 25, 24, 23, 22, 21,
    20, 19, 18, 17, 13, 10, 9, 7, 6, 5, 2, 0,
];

/// Equation 3.
const POWERS_3: &[usize] = &[
    144, 141, 139, 137, 136, 134, 133, 131, 129, 128, 127, 126, 124, 118, 116, 114, 110, 108, 107, 106, 104, 103, 101,
    100, 97, 96, 94, 91, 90, 84, 83, 82, 81, 72, 71, 70, 68, 66, 64, 61, 59, 56, 54, 53, 51, 50, 49, 46, 44, 43, 39,
    38, 35, 31, 30, 29, 27, 26, 24, 21, 18, 17, 16, 8, 7, 5, 3, 2, 0,
];

static CODES: LazyLock<[Code; 3]> =
    LazyLock::new(|| [Code::new(508, 4, POWERS_1), Code::new(504, 8, POWERS_2), Code::new(392, 16, POWERS_3)]);

/// The code of this number, 1 to 3.
pub fn code(number: u8) -> Option<&'static Code> {
    CODES.get((number as usize).checked_sub(1)?)
}

/// Encodes k bits into the first n elements of `out`.
pub fn encode(number: u8, word: &[u8], out: &mut [u8]) -> Answer {
    let code = code(number).ok_or(Refusal::Unknown)?;
    check(word.len() == code.k, Refusal::WrongLength)?;
    check(out.len() >= code.n, Refusal::NoRoom)?;
    all_bits(word)?;
    out[..code.n].copy_from_slice(&code.encoded(word));
    Ok(Counts::default())
}

/// Decodes n bits: the only codeword within t goes to the first n elements of `out`, if there is one. The answer has
/// the places where it differs from the word.
pub fn decode(number: u8, word: &[u8], out: &mut [u8]) -> Answer {
    let code = code(number).ok_or(Refusal::Unknown)?;
    check(word.len() == code.n, Refusal::WrongLength)?;
    check(out.len() >= code.n, Refusal::NoRoom)?;
    all_bits(word)?;
    let (codeword, places) = code.mended(word).ok_or(Refusal::Hopeless(0))?;
    out[..code.n].copy_from_slice(&codeword);
    Ok(Counts { mended: places.len() as u64, places: [listed(&places), listed(&[])], ..Counts::default() })
}

/// Check 4: every element is 0 or 1.
fn all_bits(word: &[u8]) -> Result<(), Refusal> {
    match word.iter().position(|&element| element > 1) {
        Some(place) => Err(Refusal::NotABit(place)),
        None => Ok(()),
    }
}

impl Code {
    fn new(n: usize, t: usize, powers: &[usize]) -> Code {
        let parity = (0..n).map(|place| odd_powers(n - 1 - place, t)).collect();
        Code { n, k: n - powers[0], t, generator: poly::from_powers(powers), parity }
    }

    /// The k information bits, then the remainder (clause 6.3.5).
    pub fn encoded(&self, information: &[u8]) -> Vec<u8> {
        poly::encoded(information, &self.generator)
    }

    /// The codeword within t of these n bits and the places that differ, rising; or none.
    pub fn mended(&self, word: &[u8]) -> Option<(Vec<u8>, Vec<usize>)> {
        let odd = self.odd_syndromes(word);
        if odd == [0; MOST] {
            return Some((word.to_vec(), vec![]));
        }
        let locator = self.locator(&all_syndromes(&odd[..self.t]))?;
        let mut answer = word.to_vec();
        for place in self.roots(&locator)? {
            answer[place] ^= 1;
        }
        let places = differing(&answer, word);
        let good = self.odd_syndromes(&answer) == [0; MOST] && places.len() <= self.t;
        good.then_some((answer, places))
    }

    /// Blocks of k bits coded one after the other.
    pub fn encoded_blocks(&self, information: &[u8]) -> Vec<u8> {
        let mut sent = Vec::with_capacity(information.len() / self.k * self.n);
        for block in information.chunks(self.k) {
            sent.extend_from_slice(&self.encoded(block));
        }
        sent
    }

    /// The information bits of received blocks and the mended places of each block; or the first hopeless block.
    pub fn mended_blocks(&self, received: &[u8]) -> Result<(Vec<u8>, Vec<Vec<usize>>), Refusal> {
        let mut information = Vec::with_capacity(received.len() / self.n * self.k);
        let mut mended = Vec::new();
        for (number, block) in received.chunks(self.n).enumerate() {
            let (word, places) = self.mended(block).ok_or(Refusal::Hopeless(number))?;
            information.extend_from_slice(&word[..self.k]);
            mended.push(places);
        }
        Ok((information, mended))
    }

    /// The parity-check matrix times the word: S(1), S(3), .., S(2t-1), and zeros up to the length.
    fn odd_syndromes(&self, word: &[u8]) -> [u16; MOST] {
        let mut odd = [0; MOST];
        for (&bit, row) in word.iter().zip(&self.parity) {
            for (sum, entry) in odd.iter_mut().zip(row) {
                *sum ^= entry * bit as u16;
            }
        }
        odd
    }

    /// The locator of the largest number of hits, up to t, whose equations have one solution: c(nu), .., c(1).
    fn locator(&self, syndromes: &[u16]) -> Option<Vec<u16>> {
        (1..=self.t).rev().find_map(|nu| solve(equations(syndromes, nu)))
    }

    /// The places of the word where a^(power of the place) is a root of the locator; none unless all roots are there.
    fn roots(&self, locator: &[u16]) -> Option<Vec<usize>> {
        let logs = &*LOGS;
        let nu = locator.len();
        // The terms c X^e of the locator at X = 1: the logarithm of each, and e, by which it grows from power to power.
        let mut terms = vec![(0, nu)];
        terms.extend((0..nu).filter(|&e| locator[e] != 0).map(|e| (logs.log(locator[e]), e)));
        let mut places = Vec::new();
        for power in 0..self.n {
            let mut value = 0;
            for (log, e) in terms.iter_mut() {
                value ^= logs.power(*log);
                *log += *e;
                if *log >= ORDER {
                    *log -= ORDER;
                }
            }
            if value == 0 {
                places.push(self.n - 1 - power);
            }
        }
        (places.len() == nu).then_some(places)
    }
}

/// S(1) .. S(2t), S(j) at index j - 1, from the odd ones.
fn all_syndromes(odd: &[u16]) -> Vec<u16> {
    let mut all: Vec<u16> = Vec::new();
    for j in 1..=2 * odd.len() {
        all.push(if j % 2 == 1 { odd[j / 2] } else { LOGS.product(all[j / 2 - 1], all[j / 2 - 1]) });
    }
    all
}

/// a^p, a^(3p), .., a^((2t-1)p), and zeros up to the length.
fn odd_powers(p: usize, t: usize) -> [u16; MOST] {
    std::array::from_fn(|j| if j < t { LOGS.power((2 * j + 1) * p % ORDER) } else { 0 })
}

/// Rows of unknowns' factors and the right-hand side.
type System = Vec<[u16; MOST + 1]>;

/// Peterson's equations for nu hits: for i = 1 .. nu, c(nu) S(i) + .. + c(1) S(i+nu-1) = S(i+nu).
fn equations(syndromes: &[u16], nu: usize) -> System {
    (0..nu)
        .map(|i| {
            let mut row = [0; MOST + 1];
            row[..=nu].copy_from_slice(&syndromes[i..=i + nu]);
            row
        })
        .collect()
}

/// The one solution by Gaussian elimination, or none if the system is singular.
fn solve(mut rows: System) -> Option<Vec<u16>> {
    let logs = &*LOGS;
    let size = rows.len();
    for column in 0..size {
        let pivot = (column..size).find(|&r| rows[r][column] != 0)?;
        rows.swap(column, pivot);
        let upper = rows[column];
        for row in rows[column + 1..].iter_mut() {
            let factor = logs.quotient(row[column], upper[column]);
            for c in column..=size {
                row[c] ^= logs.product(factor, upper[c]);
            }
        }
    }
    Some(back_substituted(&rows))
}

/// The unknowns of a triangular system, the last one first.
fn back_substituted(rows: &System) -> Vec<u16> {
    let size = rows.len();
    let mut unknown = vec![0; size];
    for r in (0..size).rev() {
        let known = (r + 1..size).fold(rows[r][size], |sum, c| sum ^ LOGS.product(rows[r][c], unknown[c]));
        unknown[r] = LOGS.quotient(known, rows[r][r]);
    }
    unknown
}

#[cfg(test)]
mod tests;
