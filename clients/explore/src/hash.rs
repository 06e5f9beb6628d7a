//! Keys of 128 bits.

/// The key of a state, or of what users see.
#[derive(Clone, Copy, Debug, PartialEq, Eq, PartialOrd, Ord, Hash)]
pub struct Key(pub u64, pub u64);

const ODD: [u64; 4] = [
    0xa076_1d64_78bd_642f,
    0xe703_7ed1_a0b4_28db,
    0x8ebc_6af0_9c88_c6e3,
    0x5899_65cc_7537_4cc3,
];

/// Both halves of a product are folded into one word.
fn folded(a: u64, b: u64) -> u64 {
    let product = u128::from(a) * u128::from(b);
    product as u64 ^ (product >> 64) as u64
}

/// A word that differs in half its bits if one bit of the argument differs.
pub fn mixed(word: u64) -> u64 {
    folded(word ^ ODD[0], ODD[1])
}

/// Two words that go their own ways, each with a multiplication for each word that is added.
#[derive(Clone, Copy, Debug)]
pub struct Hasher(u64, u64);

impl Hasher {
    pub fn new() -> Hasher {
        Hasher(ODD[2], ODD[3])
    }

    pub fn word(&mut self, word: u64) {
        self.0 = folded(self.0 ^ word, ODD[0]).wrapping_add(ODD[2]);
        self.1 = folded(self.1.rotate_left(29) ^ word, ODD[1]).wrapping_add(ODD[3]);
    }

    pub fn words(&mut self, words: &[u64]) {
        words.iter().for_each(|word| self.word(*word));
    }

    /// Numbers with their count, so that two lists one after another are told from others.
    pub fn numbers(&mut self, numbers: &[u32]) {
        self.word(numbers.len() as u64);
        let pairs = numbers.chunks_exact(2);
        if let [last] = pairs.remainder() {
            self.word(u64::from(*last));
        }
        for pair in pairs {
            self.word(u64::from(pair[0]) << 32 | u64::from(pair[1]));
        }
    }

    pub fn key(self) -> Key {
        let first = folded(self.0 ^ ODD[1], self.1 ^ ODD[0]);
        Key(first, folded(self.1 ^ first, ODD[3]))
    }
}

impl Default for Hasher {
    fn default() -> Hasher {
        Hasher::new()
    }
}

/// For the derived `Hash` of small values.
impl std::hash::Hasher for Hasher {
    fn write(&mut self, bytes: &[u8]) {
        for chunk in bytes.chunks(8) {
            let mut word = [0; 8];
            word[..chunk.len()].copy_from_slice(chunk);
            self.0 = folded(self.0 ^ u64::from_le_bytes(word), ODD[0]);
        }
    }

    fn write_u8(&mut self, number: u8) {
        self.write_u64(number.into());
    }

    fn write_u32(&mut self, number: u32) {
        self.write_u64(number.into());
    }

    fn write_u64(&mut self, number: u64) {
        self.0 = folded(self.0 ^ number, ODD[0]).wrapping_add(ODD[2]);
    }

    fn write_isize(&mut self, number: isize) {
        self.write_u64(number as u64);
    }

    fn write_usize(&mut self, number: usize) {
        self.write_u64(number as u64);
    }

    fn finish(&self) -> u64 {
        folded(self.0, ODD[1])
    }
}

#[cfg(test)]
mod tests {
    use super::*;
    use std::collections::HashSet;

    fn key(numbers: &[u32]) -> Key {
        let mut hasher = Hasher::new();
        hasher.numbers(numbers);
        hasher.key()
    }

    /// Each half tells a million lists that differ in little apart, as a random function does with a probability of 0.99999.
    #[test]
    fn each_half_tells_neighbours_apart() {
        let lists = (0..1_000_000u32).map(|n| [1000, n & 3, 17, n >> 2 & 1023, 0, n >> 12, 0]);
        let (mut first, mut second) = (HashSet::new(), HashSet::new());
        for list in lists {
            let Key(a, b) = key(&list);
            first.insert(a);
            second.insert(b);
        }
        assert_eq!((first.len(), second.len()), (1_000_000, 1_000_000));
    }

    #[test]
    fn bits_are_even() {
        let mut ones = [0u32; 128];
        for n in 0..20_000 {
            let Key(a, b) = key(&[n]);
            let bits = u128::from(a) << 64 | u128::from(b);
            ones.iter_mut()
                .enumerate()
                .for_each(|(place, ones)| *ones += (bits >> place & 1) as u32);
        }
        assert!(ones.iter().all(|ones| (9_600..10_400).contains(ones)), "{ones:?}");
    }

    #[test]
    fn lists_one_after_another_are_not_one_list() {
        let parts = |lists: &[&[u32]]| {
            let mut hasher = Hasher::new();
            lists.iter().for_each(|list| hasher.numbers(list));
            hasher.key()
        };
        assert_ne!(parts(&[&[1, 2], &[3]]), parts(&[&[1], &[2, 3]]));
        assert_ne!(parts(&[&[1, 0]]), parts(&[&[1]]));
        assert_ne!(parts(&[&[]]), parts(&[&[], &[]]));
    }
}
