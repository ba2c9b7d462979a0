//! The stray points that were refused: how many of each kind, by what is legal there, and on which half of the grid.

use crate::grid::{held_by, AVAILABLE, CARRIERS};
use crate::stray::{Kind, Legal, OF_DQPSK, OF_QAM};
use crate::trial::Request;
use std::collections::BTreeMap;
use std::fmt;

/// The halves of the grid.
const HALVES: [&str; 2] = ["s 1 to 105", "s 106 to 210"];

/// How many, by what is legal there, half (0 or 1) and kind.
#[derive(Default)]
pub struct Strays(BTreeMap<(Legal, usize, Kind), u64>);

impl Strays {
    /// Counts the point at this grid index of a request to receive, which was refused for it.
    pub fn add(&mut self, request: &Request, index: usize) {
        let s = held_by(index % CARRIERS).expect("an available sub-carrier");
        let (legal, i, q) = match request {
            Request::ReceiveA { i, q, .. } => (Legal::Dqpsk, i, q),
            Request::ReceiveB { scheme, i, q, .. } => (Legal::Qam(scheme[s - 1]), i, q),
            _ => unreachable!("only those who receive look at points"),
        };
        let half = (s - 1) / (AVAILABLE / 2);
        let kind = legal.kind_of((i[index], q[index])).expect("a stray point");
        *self.0.entry((legal, half, kind)).or_default() += 1;
    }

    /// How many there were where this is legal, of the halves and kinds that are meant.
    pub fn count(&self, legal: Legal, meant: impl Fn(usize, Kind) -> bool) -> u64 {
        let those = self.0.iter().filter(|((of, half, kind), _)| *of == legal && meant(*half, *kind));
        those.map(|(_, count)| count).sum()
    }

    /// Payload B's: a row for each kind and half, a column for each number of bits a point.
    fn write_b(&self, f: &mut fmt::Formatter) -> fmt::Result {
        write!(f, "\n{:24}", "receive B, stray points")?;
        (2..=10).try_for_each(|bits| write!(f, "{bits:>8}"))?;
        for (kind, name) in OF_QAM {
            write!(f, "\n{name:24}")?;
            (2..=10).try_for_each(|bits| write!(f, "{:>8}", self.count(Legal::Qam(bits), |_, of| of == kind)))?;
        }
        for (half, name) in HALVES.iter().enumerate() {
            write!(f, "\n{name:24}")?;
            (2..=10).try_for_each(|bits| write!(f, "{:>8}", self.count(Legal::Qam(bits), |of, _| of == half)))?;
        }
        Ok(())
    }

    /// Payload A's, in a line.
    fn write_a(&self, f: &mut fmt::Formatter) -> fmt::Result {
        let of_kind = |kind| self.count(Legal::Dqpsk, |_, of| of == kind);
        let of_half = |half| self.count(Legal::Dqpsk, |of, _| of == half);
        let kinds = OF_DQPSK.map(|(kind, name)| format!("{name} {}", of_kind(kind)));
        let halves = [0, 1].map(|half| format!("{} {}", HALVES[half], of_half(half)));
        write!(f, "\nreceive A, stray points: {}; {}", kinds.join(", "), halves.join(", "))
    }
}

/// Lines for the payloads that had any, each after a line feed.
impl fmt::Display for Strays {
    fn fmt(&self, f: &mut fmt::Formatter) -> fmt::Result {
        if self.count(Legal::Dqpsk, |_, _| true) > 0 {
            self.write_a(f)?;
        }
        if (2..=10).any(|bits| self.count(Legal::Qam(bits), |_, _| true) > 0) {
            self.write_b(f)?;
        }
        Ok(())
    }
}

#[cfg(test)]
mod tests {
    use super::*;

    #[test]
    fn a_point_is_counted_where_it_stands() {
        let mut scheme = vec![4; 210];
        (scheme[104], scheme[105]) = (5, 7);
        let (mut i, mut q) = (vec![1; 512], vec![1; 512]);
        // The second OFDM symbol's s(105) and s(106).
        (i[256 + 255], q[256 + 255]) = (3, -3);
        (i[256 + 1], q[256 + 1]) = (13, 1);
        let request = Request::ReceiveB { mode: 0, length: 1, scheme, i, q, area: vec![] };
        let mut strays = Strays::default();
        strays.add(&request, 256 + 255);
        strays.add(&request, 256 + 1);
        let wanted = [((Legal::Qam(5), 0, Kind::Hole), 1), ((Legal::Qam(7), 1, Kind::Outside), 1)];
        assert_eq!(strays.0, BTreeMap::from(wanted));
        assert!(!strays.to_string().contains("receive A"));
    }
}
