//! The bursts of Payload A that came as far as their protected bits: how many of these differ, and what is answered
//! with all of them right.

use super::Runs;
use crate::answer::{Answer, Refusal};
use crate::payload_a::{framed, on_grid, receive, with_fields, without_fields};
use crate::trial::Request;
use std::collections::{BTreeMap, BTreeSet};
use std::fmt;
use std::ops::RangeInclusive;

/// What is answered with all protected bits right.
#[derive(Clone, Copy, Debug, PartialEq, Eq, PartialOrd, Ord)]
pub enum Rest {
    /// Accepted, and nothing mended.
    Clean,
    /// Accepted, and bits mended.
    Mended,
    /// Refused with 9.
    Hopeless,
    /// Refused with 10.
    WrongCheck,
}

/// What there is in each mode, and its names.
pub const RESTS: [(u8, Rest, &str); 6] = [
    (0, Rest::Clean, "mode 0, clean"),
    (0, Rest::WrongCheck, "mode 0, wrong check"),
    (1, Rest::Clean, "mode 1, clean"),
    (1, Rest::Mended, "mode 1, mended"),
    (1, Rest::Hopeless, "mode 1, hopeless"),
    (1, Rest::WrongCheck, "mode 1, wrong check"),
];

/// How many differ: the columns, in which the edges stand alone.
const COLUMNS: [RangeInclusive<u64>; 6] = [0..=0, 1..=11, 12..=12, 13..=13, 14..=55, 56..=56];

/// A burst, as far as it is told apart from others.
#[derive(Debug, PartialEq, Eq, PartialOrd, Ord)]
pub struct Burst {
    pub mode: u8,
    /// How many protected bits differ.
    pub differing: u64,
    /// Whether it was refused with 11.
    pub noise: bool,
    pub rest: Rest,
}

/// How many, by what they are.
#[derive(Default)]
pub struct Protected(BTreeMap<Burst, u64>);

impl Protected {
    /// Counts a request to receive Payload A that passed all checks up to 8.
    pub fn add(&mut self, request: &Request, answer: &Answer) {
        let Request::ReceiveA { mode, i, q, area } = request else {
            unreachable!("only Payload A has protected bits");
        };
        let (segments, differing) = without_fields(&framed(i, q).expect("legal points"));
        let (i, q) = on_grid(&with_fields(&segments));
        let rest = match receive(*mode, &i, &q, &mut area.clone()) {
            Ok(counts) if counts.mended == 0 => Rest::Clean,
            Ok(_) => Rest::Mended,
            Err(Refusal::Hopeless(_)) => Rest::Hopeless,
            Err(Refusal::WrongCheck) => Rest::WrongCheck,
            Err(_) => unreachable!("it passed all other checks"),
        };
        let burst = Burst { mode: *mode, differing, noise: *answer == Err(Refusal::Noise), rest };
        *self.0.entry(burst).or_default() += 1;
    }

    /// How many of the bursts that are meant there were.
    pub fn count(&self, meant: impl Fn(&Burst) -> bool) -> u64 {
        self.0.iter().filter(|(burst, _)| meant(burst)).map(|(_, count)| count).sum()
    }

    /// How many protected bits differed in those that were refused with 11 in this mode.
    pub fn of_noise(&self, mode: u8) -> BTreeSet<u64> {
        self.0.keys().filter(|burst| burst.noise && burst.mode == mode).map(|burst| burst.differing).collect()
    }
}

/// If there were any: a line for each mode that had noise, and a row for each mode and rest, each after a line feed.
impl fmt::Display for Protected {
    fn fmt(&self, f: &mut fmt::Formatter) -> fmt::Result {
        if self.0.is_empty() {
            return Ok(());
        }
        for mode in [0, 1] {
            let count = self.count(|burst| burst.noise && burst.mode == mode);
            if count > 0 {
                write!(
                    f,
                    "\nreceive A, mode {mode}: {count} refused with 11; protected {}",
                    Runs(&self.of_noise(mode))
                )?;
            }
        }
        write!(f, "\n{:24}", "receive A, protected")?;
        COLUMNS.iter().try_for_each(|column| write!(f, "{:>8}", Runs(&column.clone().collect()).to_string()))?;
        for (mode, rest, name) in RESTS {
            write!(f, "\n{name:24}")?;
            for column in &COLUMNS {
                let meant =
                    |burst: &Burst| (burst.mode, burst.rest) == (mode, rest) && column.contains(&burst.differing);
                write!(f, "{:>8}", self.count(meant))?;
            }
        }
        Ok(())
    }
}

#[cfg(test)]
mod tests {
    use super::*;
    use crate::payload_a::tests::hit;
    use crate::payload_a::{field_places, frame_bytes, with_check};

    /// Adds a burst with so many hits in its first half and so many protected bits that differ.
    fn add(protected: &mut Protected, mode: u8, right: bool, hits: usize, differing: usize) {
        let mut information = with_check(&vec![4; frame_bytes(mode).unwrap()]);
        information[0] ^= !right as u8;
        let places: Vec<usize> = (0..hits).collect();
        let (i, q) = hit(mode, &information, &places, &field_places()[..differing]);
        let mut request = Request::ReceiveA { mode, i, q, area: vec![9; 94] };
        let answer = request.call();
        protected.add(&request, &answer);
    }

    #[test]
    fn bursts_are_told_by_their_protected_bits_and_the_rest() {
        let mut protected = Protected::default();
        assert_eq!(protected.to_string(), "");
        for (differing, times) in [(0, 1), (1, 1), (11, 1), (12, 3), (13, 4), (14, 1), (55, 1), (56, 5)] {
            for _ in 0..times {
                add(&mut protected, 0, true, 0, differing);
                add(&mut protected, 1, true, 1, differing);
            }
        }
        for (mode, right, hits) in [(0, true, 1), (0, false, 0), (1, true, 0), (1, true, 17), (1, false, 16)] {
            add(&mut protected, mode, right, hits, 12);
            add(&mut protected, mode, right, hits, 13);
        }
        let text = "
receive A, mode 0: 13 refused with 11; protected 13..14, 55..56
receive A, mode 1: 14 refused with 11; protected 13..14, 55..56
receive A, protected           0   1..11      12      13  14..55      56
mode 0, clean                  1       2       3       4       2       5
mode 0, wrong check            0       0       2       2       0       0
mode 1, clean                  0       0       1       1       0       0
mode 1, mended                 1       2       3       4       2       5
mode 1, hopeless               0       0       1       1       0       0
mode 1, wrong check            0       0       1       1       0       0";
        assert_eq!(protected.to_string(), text);
    }

    #[test]
    fn only_bursts_refused_with_11_are_noise() {
        let mut protected = Protected::default();
        add(&mut protected, 1, true, 17, 12);
        assert_eq!((protected.count(|_| true), protected.count(|burst| burst.noise)), (1, 0));
        assert!(!protected.to_string().contains("refused with 11"));
        add(&mut protected, 1, true, 17, 13);
        assert_eq!((protected.of_noise(0), protected.of_noise(1)), (BTreeSet::new(), BTreeSet::from([13])));
    }
}
