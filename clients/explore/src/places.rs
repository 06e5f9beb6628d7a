//! Sets of small numbers: of the places of processes, and of goals.

/// Some of at most 256 places.
#[derive(Clone, Copy, Debug, Default, PartialEq, Eq)]
pub struct Places(pub [u64; 4]);

impl Places {
    pub const MOST: usize = 256;

    pub fn add(&mut self, place: usize) {
        self.0[place / 64] |= 1 << (place % 64);
    }

    pub fn has(&self, place: usize) -> bool {
        self.0[place / 64] >> (place % 64) & 1 == 1
    }

    pub fn join(&mut self, other: Places) {
        self.0.iter_mut().zip(other.0).for_each(|(word, more)| *word |= more);
    }

    pub fn and(self, other: Places) -> Places {
        let mut both = self;
        both.0.iter_mut().zip(other.0).for_each(|(word, more)| *word &= more);
        both
    }

    pub fn iter(self) -> impl Iterator<Item = usize> {
        (0..Places::MOST).filter(move |place| self.has(*place))
    }

    /// The bytes of the first so many places.
    pub fn write(self, count: usize, bytes: &mut Vec<u8>) {
        let all = self.0.iter().flat_map(|word| word.to_le_bytes());
        bytes.extend(all.take(count.div_ceil(8)));
    }

    /// Adds those that were written.
    pub fn join_bytes(&mut self, bytes: &[u8]) {
        for (place, byte) in bytes.iter().enumerate() {
            self.0[place / 8] |= u64::from(*byte) << (8 * (place % 8));
        }
    }
}

#[cfg(test)]
mod tests {
    use super::*;

    #[test]
    fn places_come_out_as_they_went_in() {
        let (mut places, mut bytes) = (Places::default(), Vec::new());
        let some = [0, 7, 8, 63, 64, 129, 200];
        some.iter().for_each(|place| places.add(*place));
        assert!(places.iter().eq(some));
        places.write(201, &mut bytes);
        assert_eq!(bytes.len(), 26);
        let mut again = Places::default();
        again.join_bytes(&bytes);
        assert_eq!(again, places);
    }
}
