//! Products and quotients in GF(512) by logarithms, for the decoder's inner loops. Built at start-up from field.rs.

use crate::field::{self, ORDER, SIZE};
use std::sync::LazyLock;

pub struct Logs {
    /// a^e for e below 2 * 511, so that a sum of two logarithms needs no reduction.
    power: [u16; 2 * ORDER],
    /// The e below 511 with a^e = x. Entry 0 means nothing.
    log: [u16; SIZE as usize],
}

pub static LOGS: LazyLock<Logs> = LazyLock::new(Logs::new);

impl Logs {
    fn new() -> Logs {
        let mut logs = Logs { power: [1; 2 * ORDER], log: [0; SIZE as usize] };
        for e in 1..2 * ORDER {
            logs.power[e] = field::product(logs.power[e - 1], field::A);
        }
        for e in 0..ORDER {
            logs.log[logs.power[e] as usize] = e as u16;
        }
        logs
    }

    /// a^e, for e below 1022.
    pub fn power(&self, e: usize) -> u16 {
        self.power[e]
    }

    /// The logarithm of x, which is not 0.
    pub fn log(&self, x: u16) -> usize {
        self.log[x as usize] as usize
    }

    pub fn product(&self, x: u16, y: u16) -> u16 {
        if x == 0 || y == 0 {
            return 0;
        }
        self.power[self.log(x) + self.log(y)]
    }

    /// x divided by y, which is not 0.
    pub fn quotient(&self, x: u16, y: u16) -> u16 {
        if x == 0 {
            return 0;
        }
        self.power[self.log(x) + ORDER - self.log(y)]
    }
}

#[cfg(test)]
mod tests {
    use super::*;

    #[test]
    fn agrees_with_the_field_on_every_pair() {
        for x in 0..SIZE {
            for y in 0..SIZE {
                assert_eq!(LOGS.product(x, y), field::product(x, y));
                if y != 0 {
                    assert_eq!(LOGS.quotient(x, y), field::product(x, field::inverse(y)));
                }
            }
        }
    }
}
