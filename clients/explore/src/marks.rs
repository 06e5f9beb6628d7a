//! A few bits for each state.

use crate::memory::{filled, Refused};
use crate::set::{Number, PARTS};

/// As many bits for each state as a round of passes asks for, in whole bytes.
#[derive(Debug)]
pub struct Marks {
    width: usize,
    parts: Vec<Vec<u8>>,
}

impl Marks {
    /// No bits yet.
    ///
    /// # Errors
    ///
    /// Refused memory.
    pub fn new(bits: usize, counts: &[u32; PARTS]) -> Result<Marks, Refused> {
        let width = bits.div_ceil(8);
        let parts = counts.iter().map(|count| filled(0, *count as usize * width));
        Ok(Marks {
            width,
            parts: parts.collect::<Result<_, Refused>>()?,
        })
    }

    pub fn get(&self, state: Number) -> u64 {
        let mut word = [0; 8];
        let first = state.place as usize * self.width;
        word[..self.width].copy_from_slice(&self.parts[state.part][first..first + self.width]);
        u64::from_le_bytes(word)
    }

    pub fn set(&mut self, state: Number, bits: u64) {
        let first = state.place as usize * self.width;
        let word = bits.to_le_bytes();
        self.parts[state.part][first..first + self.width].copy_from_slice(&word[..self.width]);
    }
}

#[cfg(test)]
mod tests {
    use super::*;

    #[test]
    fn bits_stay_with_their_state() {
        for bits in [1, 8, 9, 33, 64] {
            let mut marks = Marks::new(bits, &[5; PARTS]).expect("memory");
            let all = u64::MAX >> (64 - bits);
            let value = |n: u64| n.wrapping_mul(0x9e37_79b9_7f4a_7c15) & all;
            let states = || (0..5).flat_map(|place| [0, 7, 63].map(|part| Number { part, place }));
            for (n, state) in (0..).zip(states()) {
                marks.set(state, value(n));
            }
            assert!((0..).zip(states()).all(|(n, state)| marks.get(state) == value(n)));
        }
    }
}
