//! Many states, packed one after another in pieces that are freed one by one.

use crate::list::{next_piece, PIECE};
use crate::memory::{one_more, Refused};
use crate::packed::Packing;

/// Packed states in the order in which they came. Each is whole in a piece.
#[derive(Debug, Default)]
pub struct States {
    pieces: Vec<Vec<u8>>,
}

/// The most bytes of a packed word.
const MOST: usize = 10;

impl States {
    /// Adds a state, and returns where it is.
    pub fn add(&mut self, packing: &mut Packing, words: &[u64]) -> Result<usize, Refused> {
        let most = words.len() * MOST;
        let has_room = |piece: &Vec<u8>| piece.len() + most <= PIECE;
        if !self.pieces.last().is_some_and(has_room) {
            one_more(&mut self.pieces)?;
            self.pieces.push(next_piece(self.pieces.len(), PIECE)?);
        }
        let others = self.pieces.len() - 1;
        let piece = &mut self.pieces[others];
        piece.try_reserve(most).map_err(|_| Refused)?;
        let place = others * PIECE + piece.len();
        packing.pack(words, piece);
        Ok(place)
    }

    /// The bytes that begin with the state that is there.
    pub fn at(&self, place: usize) -> &[u8] {
        &self.pieces[place / PIECE][place % PIECE..]
    }

    /// Bytes of memory, also those that are kept for more states.
    pub fn bytes(&self) -> usize {
        self.pieces.iter().map(Vec::capacity).sum()
    }

    /// Tells the words of each state.
    pub fn each<E>(
        &self,
        packing: &Packing,
        width: usize,
        mut tell: impl FnMut(&[u64]) -> Result<(), E>,
    ) -> Result<(), E> {
        let mut words = vec![0; width];
        for piece in &self.pieces {
            let mut states = &piece[..];
            while !states.is_empty() {
                states = packing.unpack(states, &mut words);
                tell(&words)?;
            }
        }
        Ok(())
    }

    /// Pieces with whole states. A piece that isn't needed any more may be freed.
    pub fn pieces(&mut self) -> &mut [Vec<u8>] {
        &mut self.pieces
    }
}

#[cfg(test)]
mod tests {
    use super::*;
    use crate::hash::mixed;

    const WIDTH: usize = 8;

    fn state(n: u64) -> [u64; WIDTH] {
        [mixed(n), n, mixed(n) % 3, n % 400, 7, mixed(n) >> 40, 0, n]
    }

    /// Each is whole in a piece, and where `add` said.
    #[test]
    fn states_come_out_as_they_went_in() {
        let (mut packing, mut states) = (Packing::default(), States::default());
        let places: Vec<usize> = (0..30_000)
            .map(|n| states.add(&mut packing, &state(n)).expect("memory"))
            .collect();
        assert!(states.pieces.len() > 3 && states.pieces.iter().all(|piece| piece.len() <= PIECE));
        let mut found = [0; WIDTH];
        for (n, place) in (0..).zip(places) {
            packing.unpack(states.at(place), &mut found);
            assert_eq!(found, state(n));
        }
        let mut n = 0;
        let count = states.each(&packing, WIDTH, |words| {
            assert_eq!(words, state(n));
            n += 1;
            if n == 29_999 {
                Err(n)
            } else {
                Ok(())
            }
        });
        assert_eq!(count, Err(29_999));
        let mut n = 0;
        for piece in states.pieces() {
            let (mut rest, mut words) = (&piece[..], [0; 5 * WIDTH]);
            while !rest.is_empty() {
                for words in packing.unpack_some(&mut rest, &mut words, WIDTH).chunks_exact(WIDTH) {
                    assert_eq!(words, state(n));
                    n += 1;
                }
            }
        }
        assert_eq!(n, 30_000);
    }
}
