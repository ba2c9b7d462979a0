//! The noisy points that were decided: how many of each kind, by what is legal there, on which half of the grid, and how
//! many were ties.

use crate::grid::{self, AVAILABLE};
use crate::nearest::tied;
use crate::noisy::{all, kind_of, Kind, KINDS};
use crate::payload_b::plan;
use crate::stray::Legal;
use crate::trial::Request;
use std::collections::BTreeMap;
use std::fmt;

/// How many, by what is legal there, half (0 or 1) and kind; and how many ties of two, and of more.
#[derive(Default)]
pub struct Noisy {
    kinds: BTreeMap<(Legal, usize, Kind), u64>,
    ties: BTreeMap<Legal, [u64; 2]>,
}

impl Noisy {
    /// Counts the points of a request to decide that was accepted.
    pub fn add(&mut self, request: &Request) {
        let (symbols, legal, i, q) = match request {
            Request::DecideA { i, q, .. } => (2, vec![Legal::Dqpsk; AVAILABLE], i, q),
            Request::DecideB { mode, length, scheme, i, q, .. } => {
                let symbols = plan(*mode, *length, scheme).expect("an accepted frame").symbols;
                (symbols, scheme.iter().map(|&bits| Legal::Qam(bits)).collect(), i, q)
            }
            _ => unreachable!("only those who decide have noisy points"),
        };
        for (number, (_, came)) in grid::read(symbols, i, q).enumerate() {
            let s = number % AVAILABLE;
            *self.kinds.entry((legal[s], s / (AVAILABLE / 2), kind_of(legal[s], came))).or_default() += 1;
            match tied(legal[s], came) {
                1 => {}
                2 => self.ties.entry(legal[s]).or_default()[0] += 1,
                _ => self.ties.entry(legal[s]).or_default()[1] += 1,
            }
        }
    }

    /// How many there were where this is legal, of the halves and kinds that are meant.
    pub fn count(&self, legal: Legal, meant: impl Fn(usize, Kind) -> bool) -> u64 {
        let those = self.kinds.iter().filter(|((of, half, kind), _)| *of == legal && meant(*half, *kind));
        those.map(|(_, count)| count).sum()
    }

    /// How many were ties of two points where this is legal, and how many of more.
    pub fn ties(&self, legal: Legal) -> [u64; 2] {
        self.ties.get(&legal).copied().unwrap_or_default()
    }
}

/// If there were any: a row for each kind and for ties, a column for each constellation, each after a line feed.
impl fmt::Display for Noisy {
    fn fmt(&self, f: &mut fmt::Formatter) -> fmt::Result {
        if self.kinds.is_empty() {
            return Ok(());
        }
        write!(f, "\n{:24}{:>8}", "decided points", "DQPSK")?;
        (2..=10).try_for_each(|bits| write!(f, "{bits:>8}"))?;
        for (kind, name) in KINDS {
            write!(f, "\n{name:24}")?;
            all().into_iter().try_for_each(|legal| write!(f, "{:>8}", self.count(legal, |_, of| of == kind)))?;
        }
        for (more, name) in ["ties of two points", "ties of more"].iter().enumerate() {
            write!(f, "\n{name:24}")?;
            all().into_iter().try_for_each(|legal| write!(f, "{:>8}", self.ties(legal)[more]))?;
        }
        Ok(())
    }
}

#[cfg(test)]
mod tests {
    use super::*;

    #[test]
    fn points_are_counted_where_they_stand() {
        let mut scheme = vec![4; 210];
        (scheme[104], scheme[105]) = (5, 7);
        let (mut i, mut q) = (vec![64; 512], vec![64; 512]);
        // The first OFDM symbol's s(105) and s(106), and an unavailable sub-carrier; the second symbol is not needed.
        ((i[255], q[255]), (i[1], q[1]), (i[0], q[0])) = ((3 * 64, -3 * 64), (0, 64), (i16::MIN, 0));
        q[256 + 1] = i16::MAX;
        let (out_i, out_q) = (vec![0; 256], vec![0; 256]);
        let request = Request::DecideB { mode: 0, length: 1, scheme, i, q, out_i, out_q };
        let mut noisy = Noisy::default();
        noisy.add(&request);
        let wanted = [
            ((Legal::Qam(4), 0, Kind::Clean), 104),
            ((Legal::Qam(4), 1, Kind::Clean), 104),
            ((Legal::Qam(5), 0, Kind::Hole), 1),
            ((Legal::Qam(7), 1, Kind::Line), 1),
        ];
        assert_eq!(noisy.kinds, BTreeMap::from(wanted));
        assert_eq!(noisy.ties, BTreeMap::from([(Legal::Qam(5), [0, 1]), (Legal::Qam(7), [1, 0])]));
        assert_eq!(Noisy::default().to_string(), "");
    }
}
