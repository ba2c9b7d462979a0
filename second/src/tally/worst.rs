//! The worst blocks of accepted bursts and frames: their counts, and where they stood.

use super::Runs;
use std::collections::BTreeSet;
use std::fmt;

/// Of one job and mode. Only what has two blocks or more, and hits, is counted below.
#[derive(Default)]
pub struct Worst {
    /// The counts of worst blocks that were answered.
    pub counts: BTreeSet<u64>,
    /// How often the worst block was the first, one between, or the last, and no other as bad.
    pub first: u64,
    pub middle: u64,
    pub last: u64,
    /// How often several blocks were the worst.
    pub several: u64,
}

impl Worst {
    /// Adds the count that was answered, and the counts of all blocks.
    pub fn add(&mut self, answered: u64, blocks: &[u64]) {
        self.counts.insert(answered);
        let worst = blocks.iter().max().copied().unwrap_or(0);
        if blocks.len() < 2 || worst == 0 {
            return;
        }
        let those: Vec<usize> = (0..blocks.len()).filter(|&number| blocks[number] == worst).collect();
        let count = match those[..] {
            [0] => &mut self.first,
            [number] if number == blocks.len() - 1 => &mut self.last,
            [_] => &mut self.middle,
            _ => &mut self.several,
        };
        *count += 1;
    }
}

impl fmt::Display for Worst {
    fn fmt(&self, f: &mut fmt::Formatter) -> fmt::Result {
        let Worst { counts, first, middle, last, several } = self;
        write!(f, "; worst {}", Runs(counts))?;
        if first + middle + last + several > 0 {
            write!(f, ", of the first block {first}, of one between {middle}")?;
            write!(f, ", of the last {last}, of several {several}")?;
        }
        Ok(())
    }
}

#[cfg(test)]
mod tests {
    use super::*;

    fn told(frames: &[&[u64]]) -> String {
        let mut worst = Worst::default();
        frames.iter().for_each(|blocks| worst.add(blocks.iter().max().copied().unwrap_or(0), blocks));
        worst.to_string()
    }

    #[test]
    fn worst_blocks_are_told_by_where_they_stood() {
        let frames: [&[u64]; 9] =
            [&[2, 1], &[4, 0, 3], &[0, 1, 0], &[1, 3, 2], &[1, 5, 2, 3], &[0, 1], &[2, 2], &[0, 6, 6], &[1, 0, 1]];
        let text = "; worst 1..6, of the first block 2, of one between 3, of the last 1, of several 3";
        assert_eq!(told(&frames), text);
    }

    #[test]
    fn single_blocks_and_clean_frames_and_uncoded_ones_do_not_stand_anywhere() {
        assert_eq!(told(&[]), "; worst ");
        assert_eq!(told(&[&[]]), "; worst 0");
        assert_eq!(told(&[&[4], &[0], &[0, 0]]), "; worst 0, 4");
    }
}
