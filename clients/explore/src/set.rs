//! The set of the states that were met.

use crate::hash::Key;
use crate::list::List;
use crate::memory::{filled, Refused};

/// How many parts a set has, whatever the number of threads. A key's part is given by what the users see.
pub const PARTS: usize = 64;

/// Which part of the set has the states with this view.
pub fn part_of(view: Key) -> usize {
    (view.1 >> 32) as usize % PARTS
}

/// A state by its part, and its place among those of the part.
#[derive(Clone, Copy, Debug, PartialEq, Eq)]
pub struct Number {
    pub part: usize,
    pub place: u32,
}

/// How a state was reached first: from which state, by which process, and with which process's news, if it was a wait for any.
#[derive(Clone, Copy, Debug, PartialEq, Eq)]
pub struct Link {
    pub from: Number,
    pub process: usize,
    /// None if the step is as the process asks for it.
    pub news: Option<u32>,
}

impl Link {
    /// Bits from the lowest: 32 of the place, 6 of the part, 8 of the process, 17 of the news.
    pub fn packed(self) -> u64 {
        let news = self.news.map_or(0, |pid| pid + 1);
        u64::from(self.from.place) | (self.from.part as u64) << 32 | (self.process as u64) << 38 | u64::from(news) << 46
    }

    pub fn unpacked(word: u64) -> Link {
        let news = (word >> 46) as u32;
        Link {
            from: Number {
                part: (word >> 32) as usize % PARTS,
                place: word as u32,
            },
            process: (word >> 38) as usize & 0xff,
            news: news.checked_sub(1),
        }
    }
}

/// Places of keys, by open addressing: a place + 1 in as few bits as an index of this size needs, and above them some of its
/// key's; 0 is free.
#[derive(Debug)]
struct Index {
    entries: Vec<u32>,
    /// The bits that a place needs.
    mask: u32,
}

impl Index {
    fn new(size: usize) -> Result<Index, Refused> {
        Ok(Index {
            entries: filled(0, size)?,
            mask: (size.next_power_of_two() - 1) as u32,
        })
    }

    /// The first slot of a key, in an index of any size.
    fn slot(&self, key: Key) -> usize {
        ((u64::from(key.1 as u32) * self.entries.len() as u64) >> 32) as usize
    }

    /// The slot after this one.
    fn after(&self, slot: usize) -> usize {
        if slot + 1 == self.entries.len() {
            0
        } else {
            slot + 1
        }
    }

    /// The bits of a key that are in the index.
    fn tag(&self, key: Key) -> u32 {
        key.0 as u32 & !self.mask
    }

    /// The first place that is wanted, of those whose keys have the same bits in the index.
    fn find(&self, key: Key, is_wanted: impl Fn(u32) -> bool) -> Option<u32> {
        let (mut slot, tag) = (self.slot(key), self.tag(key));
        while self.entries[slot] != 0 {
            let place = self.entries[slot] ^ tag;
            if place <= self.mask && is_wanted(place - 1) {
                return Some(place - 1);
            }
            slot = self.after(slot);
        }
        None
    }

    fn add(&mut self, key: Key, place: u32) {
        let mut slot = self.slot(key);
        while self.entries[slot] != 0 {
            slot = self.after(slot); // a quarter is free
        }
        self.entries[slot] = self.tag(key) | (place + 1);
    }
}

/// A part of the set: keys by their places, and an index of them.
#[derive(Debug)]
pub struct Part {
    keys: List<Key>,
    index: Index,
}

const SMALLEST: usize = 16;

impl Part {
    pub fn new() -> Result<Part, Refused> {
        Part::of_keys(List::new())
    }

    /// A part with these keys, all different.
    pub fn of_keys(keys: List<Key>) -> Result<Part, Refused> {
        let mut part = Part {
            keys,
            index: Index::new(0)?,
        };
        part.index_anew()?;
        Ok(part)
    }

    pub fn keys(&self) -> &List<Key> {
        &self.keys
    }

    /// Bytes of memory, also those that are kept for more keys.
    pub fn bytes(&self) -> usize {
        self.keys.bytes() + self.index.entries.capacity() * 4
    }

    /// A word that a look at this key needs: those of many keys are read first, since a processor waits for all of them as long
    /// as for one.
    pub fn near(&self, key: Key) -> u32 {
        self.index.entries[self.index.slot(key)]
    }

    /// The first place that may be that of a key.
    pub fn candidate(&self, key: Key) -> Option<u32> {
        self.index.find(key, |_| true)
    }

    /// The place of a key, if it is its candidate.
    pub fn is_at(&self, key: Key, place: u32) -> bool {
        self.keys[place as usize] == key
    }

    /// The place of a key that is there.
    pub fn find(&self, key: Key) -> Option<u32> {
        self.index.find(key, |place| self.is_at(key, place))
    }

    /// The place of a key, and whether it is new.
    pub fn insert(&mut self, key: Key) -> Result<(u32, bool), Refused> {
        if let Some(place) = self.index.find(key, |place| self.is_at(key, place)) {
            return Ok((place, false));
        }
        let place = u32::try_from(self.keys.len()).expect("a part has less than 2^32 states");
        self.keys.push(key)?;
        if self.keys.len() * 4 >= self.index.entries.len() * 3 {
            self.index_anew()?;
        } else {
            self.index.add(key, place);
        }
        Ok((place, true))
    }

    /// Makes the index anew, half free. It grows by a half: if it doubled, all parts would have too much at about one time.
    fn index_anew(&mut self) -> Result<(), Refused> {
        let size = (self.keys.len() * 2).max(SMALLEST);
        self.index.entries = Vec::new(); // before there is another
        self.index = Index::new(size)?;
        let index = &mut self.index;
        (0..)
            .zip(self.keys.iter())
            .for_each(|(place, key)| index.add(*key, place));
        Ok(())
    }
}

#[cfg(test)]
mod tests {
    use super::*;
    use crate::hash::mixed;

    #[test]
    fn a_key_is_new_once() {
        let mut part = Part::new().expect("memory");
        let key = |n: u64| Key(mixed(n), mixed(n % 1000)); // many with the same slot
        for n in 0..5000 {
            assert_eq!(part.insert(key(n)), Ok((n as u32, true)));
        }
        for n in 0..5000 {
            assert_eq!(part.insert(key(n)), Ok((n as u32, false)));
        }
        for n in 0..6000 {
            let place = part.candidate(key(n)).filter(|place| part.is_at(key(n), *place));
            assert_eq!(place, (n < 5000).then_some(n as u32));
        }
        let mut again = Part::of_keys(part.keys().clone()).expect("memory");
        assert_eq!(again.insert(key(4999)), Ok((4999, false)));
        assert_eq!(again.insert(key(5000)), Ok((5000, true)));
    }

    /// At each size, and so while it grows.
    #[test]
    fn the_index_takes_eight_bytes_a_key_at_most() {
        let mut part = Part::new().expect("memory");
        let key = |n: u64| Key(mixed(n), mixed(n ^ 0x5eed));
        for n in 0..100_000 {
            assert_eq!(part.insert(key(n)), Ok((n as u32, true)));
            let entries = part.index.entries.len();
            assert!(entries <= SMALLEST.max(2 * part.keys.len()), "{n}: {entries}");
            assert!(part.keys.len() * 4 < entries * 3, "{n}: a quarter is free");
        }
        for n in 0..200_000 {
            let place = part.index.find(key(n), |place| part.is_at(key(n), place));
            assert_eq!(place, (n < 100_000).then_some(n as u32));
        }
    }

    #[test]
    fn a_link_is_one_word() {
        let link = |part, place, process, news| Link {
            from: Number { part, place },
            process,
            news,
        };
        for link in [
            link(0, 0, 0, None),
            link(63, u32::MAX, 255, Some(99_999)),
            link(5, 7, 1, Some(0)),
        ] {
            assert_eq!(Link::unpacked(link.packed()), link);
        }
    }
}
