//! A list in pieces: it grows without a copy, for which old and new would take memory at once.

use crate::memory::{one_more, room, Refused};
use std::mem::size_of;
use std::ops::{Index, IndexMut};

/// The bytes of a piece.
pub const PIECE: usize = 1 << 18;

/// Elements in the order in which they came.
#[derive(Clone, Debug, PartialEq, Eq)]
pub struct List<T> {
    /// All but the last one are full.
    pieces: Vec<Vec<T>>,
}

/// An empty piece after so many others. The first one has to grow, so that a short list takes little.
pub fn next_piece<T>(others: usize, length: usize) -> Result<Vec<T>, Refused> {
    room(if others == 0 { 0 } else { length })
}

impl<T> List<T> {
    /// How many elements a piece has: a power of two.
    const LENGTH: usize = PIECE / size_of::<T>().next_power_of_two();

    pub const fn new() -> List<T> {
        List { pieces: Vec::new() }
    }

    pub fn len(&self) -> usize {
        let last = self.pieces.last().map_or(0, Vec::len);
        self.pieces.len().saturating_sub(1) * Self::LENGTH + last
    }

    #[inline]
    pub fn push(&mut self, element: T) -> Result<(), Refused> {
        match self.pieces.last_mut() {
            Some(piece) if piece.len() < Self::LENGTH => {
                one_more(piece)?;
                piece.push(element);
                Ok(())
            }
            _ => self.push_piece(element),
        }
    }

    /// Adds a piece that begins with this element.
    #[cold]
    fn push_piece(&mut self, element: T) -> Result<(), Refused> {
        let mut piece = next_piece(self.pieces.len(), Self::LENGTH)?;
        one_more(&mut piece)?;
        one_more(&mut self.pieces)?;
        piece.push(element);
        self.pieces.push(piece);
        Ok(())
    }

    pub fn iter(&self) -> impl Iterator<Item = &T> {
        self.pieces.iter().flatten()
    }

    /// Takes all elements of another list, whose pieces but the first are freed one by one. If memory is refused, some are lost.
    pub fn append(&mut self, other: &mut List<T>) -> Result<(), Refused> {
        let mut pieces = other.pieces.iter_mut();
        if let Some(first) = pieces.next() {
            first.drain(..).try_for_each(|element| self.push(element))?;
        }
        for piece in pieces {
            std::mem::take(piece)
                .into_iter()
                .try_for_each(|element| self.push(element))?;
        }
        other.pieces.truncate(1);
        Ok(())
    }

    #[cfg(test)]
    pub fn of(elements: impl IntoIterator<Item = T>) -> Result<List<T>, Refused> {
        let mut list = List::new();
        elements.into_iter().try_for_each(|element| list.push(element))?;
        Ok(list)
    }

    /// Frees all pieces but the first, which the next elements need.
    pub fn clear(&mut self) {
        self.pieces.truncate(1);
        self.pieces.iter_mut().for_each(Vec::clear);
    }

    /// Bytes of memory, also those that are kept for more elements.
    pub fn bytes(&self) -> usize {
        let of = |piece: &Vec<T>| piece.capacity() * size_of::<T>() + size_of::<Vec<T>>();
        self.pieces.iter().map(of).sum()
    }
}

impl<T> Index<usize> for List<T> {
    type Output = T;

    fn index(&self, place: usize) -> &T {
        &self.pieces[place / Self::LENGTH][place % Self::LENGTH]
    }
}

impl<T> IndexMut<usize> for List<T> {
    fn index_mut(&mut self, place: usize) -> &mut T {
        &mut self.pieces[place / Self::LENGTH][place % Self::LENGTH]
    }
}

#[cfg(test)]
mod tests {
    use super::*;

    #[test]
    fn elements_stay_in_their_places() {
        let count = 3 * PIECE as u64 / 8 + 5;
        let mut list: List<u64> = List::of(0..count).expect("memory");
        assert_eq!(list.len() as u64, count);
        assert!(list.iter().copied().eq(0..count));
        assert!((0..count).all(|n| list[n as usize] == n));
        list[5] = 7;
        let mut more: List<u64> = List::of(0..count).expect("memory");
        more.append(&mut list).expect("memory");
        assert_eq!((list.len(), more.len() as u64), (0, 2 * count));
        assert_eq!((more[count as usize + 4], more[count as usize + 5]), (4, 7));
    }

    /// At most a piece is there for more elements.
    #[test]
    fn it_takes_little_more_than_its_elements() {
        let mut list = List::new();
        for n in 0..PIECE as u64 {
            list.push(n).expect("memory");
            let most = list.len() * 8 + PIECE.min(list.len() * 8 + 64) + 24 * 10;
            assert!(list.bytes() <= most, "{n}: {}", list.bytes());
        }
    }
}
