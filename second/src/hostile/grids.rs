//! What goes wrong in a grid of points: filled sub-carriers, strays, and legal points that are not those sent.

use super::{place, strays};
use crate::grid::{self, carriers, AVAILABLE, CARRIERS};
use crate::points::Point;
use crate::rng::Rng;
use crate::stray::Legal;

/// What the sub-carriers carry: DQPSK (Payload A), or a scheme (Payload B).
pub enum Carried<'a> {
    Dqpsk,
    Scheme(&'a [u8]),
}

impl Carried<'_> {
    /// What is legal for s(number + 1).
    fn legal(&self, number: usize) -> Legal {
        match self {
            Carried::Dqpsk => Legal::Dqpsk,
            Carried::Scheme(scheme) => Legal::Qam(scheme[number]),
        }
    }
}

/// A grid under attack: `symbols` OFDM symbols of exact length.
pub struct Grid<'a> {
    pub i: Vec<i16>,
    pub q: Vec<i16>,
    pub symbols: usize,
    pub carried: Carried<'a>,
}

impl Grid<'_> {
    pub fn new<'a>(points: &[Point], carried: Carried<'a>) -> Grid<'a> {
        let symbols = points.len() / AVAILABLE;
        let (mut i, mut q) = (vec![0; symbols * CARRIERS], vec![0; symbols * CARRIERS]);
        grid::write(points, &mut i, &mut q);
        Grid { i, q, symbols, carried }
    }

    fn set(&mut self, index: usize, point: Point) {
        (self.i[index], self.q[index]) = point;
    }

    /// Puts something on one to three unavailable sub-carriers.
    pub fn fill(&mut self, rng: &mut Rng) {
        for _ in 0..rng.between(1, 3) {
            let any = rng.between(106, 150);
            let k = rng.pick(&[0, 106, 150, any, any]);
            let index = CARRIERS * place(rng, self.symbols) + k;
            let level = rng.level() | 1;
            let point = rng.pick(&[(1, 0), (0, 1), (-1, 0), (level, 0), (0, level), (0, i16::MIN), (256, 256)]);
            self.set(index, point);
        }
    }

    /// Puts stray points on one to three available sub-carriers.
    pub fn stray(&mut self, rng: &mut Rng) {
        for _ in 0..rng.pick(&[1, 1, 1, 2, 3]) {
            let (index, number) = self.carrier(rng);
            let stood = (self.i[index], self.q[index]);
            let point = strays::stray(rng, self.carried.legal(number), stood);
            self.set(index, point);
        }
    }

    /// Puts other legal points on some available sub-carriers.
    pub fn wander(&mut self, rng: &mut Rng, count: usize) {
        for _ in 0..count {
            let (index, number) = self.carrier(rng);
            let point = rng.pick(self.carried.legal(number).points());
            self.set(index, point);
        }
    }

    /// The grid index of an available sub-carrier, at the edges or anywhere, and its s counted from 0.
    fn carrier(&self, rng: &mut Rng) -> (usize, usize) {
        let any = rng.below(AVAILABLE);
        let number = rng.pick(&[0, 104, 105, 209, any, any, any, any]);
        (CARRIERS * place(rng, self.symbols) + carriers()[number], number)
    }
}

#[cfg(test)]
mod tests {
    use super::*;
    use crate::{answer::Refusal, payload_a};

    #[test]
    fn strays_and_filled_carriers_are_found() {
        let mut rng = Rng::new(1);
        for _ in 0..200 {
            let mut grid = Grid::new(&[(1, 0); 420], Carried::Dqpsk);
            grid.wander(&mut rng, 300);
            let answer = payload_a::receive(1, &grid.i, &grid.q, &mut [0; 58]);
            assert_eq!(answer, Err(Refusal::Noise));
            grid.stray(&mut rng);
            let answer = payload_a::receive(1, &grid.i, &grid.q, &mut [0; 58]);
            assert!(matches!(answer, Err(Refusal::Stray(_))));
            grid.fill(&mut rng);
            let answer = payload_a::receive(1, &grid.i, &grid.q, &mut [0; 58]);
            assert!(matches!(answer, Err(Refusal::Filled(_))));
        }
    }
}
