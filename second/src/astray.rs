//! What no decoder can promise: a word with more than t hits may lie within t of a codeword that was not sent, and is
//! mended into that one. How often, by trying, and by counting the words that lie within t of any codeword.

use crate::bch::{self, Code};
use crate::hostile::flip;
use crate::rng::Rng;
use std::io::{self, Write};

/// Hits beyond t that are tried.
const BEYOND: usize = 4;

/// What became of the words that were tried.
#[derive(Debug, Default, PartialEq, Eq)]
struct Outcome {
    refused: u64,
    right: u64,
    astray: u64,
}

/// A line for each of these codes and number of hits, and for words at random, with so many words each.
pub fn write(seed: u64, count: u64, codes: &[u8], to: &mut impl Write) -> io::Result<()> {
    writeln!(to, "code  hits {:>10} {:>10} {:>10} {:>10} {:>10}", "words", "refused", "astray", "share", "by count")?;
    for &number in codes {
        let code = bch::code(number).expect("1 to 3");
        let hits = (1..=BEYOND).map(|more| Some(code.t + more)).chain([None]);
        for (row, hits) in ((BEYOND as u64 + 1) * number as u64..).zip(hits) {
            let outcome = tried(&mut Rng::of_request(seed, row), code, hits, count);
            let name = hits.map_or("any".to_string(), |hits| hits.to_string());
            let share = outcome.astray as f64 / count as f64;
            write!(to, "{number:4}  {name:>4} {count:>10} {:>10} {:>10}", outcome.refused, outcome.astray)?;
            writeln!(to, " {share:>10.2e} {:>10.2e}", share_by_count(code))?;
            to.flush()?;
        }
    }
    Ok(())
}

/// Tries words: codewords with so many hits, or words at random.
fn tried(rng: &mut Rng, code: &Code, hits: Option<usize>, count: u64) -> Outcome {
    let mut outcome = Outcome::default();
    for _ in 0..count {
        let (sent, word) = drawn(rng, code, hits);
        match code.mended(&word) {
            None => outcome.refused += 1,
            Some((codeword, _)) if codeword == sent => outcome.right += 1,
            Some(_) => outcome.astray += 1,
        }
    }
    outcome
}

/// The codeword that was sent, nothing for a word at random; and the word that came.
fn drawn(rng: &mut Rng, code: &Code, hits: Option<usize>) -> (Vec<u8>, Vec<u8>) {
    let Some(hits) = hits else {
        return (vec![], rng.bits(code.n));
    };
    let sent = code.encoded(&rng.bits(code.k));
    let mut word = sent.clone();
    flip(rng, &mut word, hits);
    (sent, word)
}

/// Which part of all words lies within t of a codeword: V / 2^(n-k), with V words within t of each.
fn share_by_count(code: &Code) -> f64 {
    words_within(code.n, code.t) as f64 / 2f64.powi((code.n - code.k) as i32)
}

/// C(n,0) + .. + C(n,t).
fn words_within(n: usize, t: usize) -> u128 {
    let mut binomial = 1;
    let mut sum = 1;
    for i in 1..=t as u128 {
        binomial = binomial * (n as u128 + 1 - i) / i;
        sum += binomial;
    }
    sum
}

#[cfg(test)]
mod tests {
    use super::*;

    #[test]
    fn with_t_hits_nothing_goes_astray() {
        for code in [1, 2, 3].map(|number| bch::code(number).unwrap()) {
            let outcome = tried(&mut Rng::new(1), code, Some(code.t), 500);
            assert_eq!(outcome, Outcome { refused: 0, right: 500, astray: 0 });
        }
    }

    #[test]
    fn with_more_nothing_is_right() {
        for code in [1, 2, 3].map(|number| bch::code(number).unwrap()) {
            let outcome = tried(&mut Rng::new(2), code, Some(code.t + 1), 500);
            assert_eq!((outcome.right, outcome.refused + outcome.astray), (0, 500));
        }
    }

    #[test]
    fn shares_by_count() {
        let shares = [1, 2, 3].map(|number| format!("{:.1e}", share_by_count(bch::code(number).unwrap())));
        assert_eq!(shares, ["4.0e-2", "2.1e-5", "5.1e-16"]);
    }

    #[test]
    fn words_within_a_small_distance() {
        assert_eq!([0, 1, 2, 5].map(|t| words_within(5, t)), [1, 6, 16, 32]);
        assert_eq!(words_within(508, 4), 2_764_070_038);
    }
}
