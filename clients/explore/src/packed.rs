//! The words of a state as few bytes: a process is at few different places, and most bytes of a word are 0.

use crate::hash::mixed;

/// How many words at the beginning are hashes, which stay as they are.
const WHOLE: usize = 2;

/// Adds the words to the bytes: of each but the first two, which of its bytes aren't 0, and those. They say nothing of other states.
pub fn pack(words: &[u64], bytes: &mut Vec<u8>) {
    let small = pack_whole(words, bytes);
    pack_small(small, bytes);
}

/// Takes as many words from the front of the bytes, and returns the rest.
pub fn unpack<'b>(bytes: &'b [u8], words: &mut [u64]) -> &'b [u8] {
    let (rest, small) = unpack_whole(bytes, words);
    unpack_small(rest, small)
}

fn pack_whole<'w>(words: &'w [u64], bytes: &mut Vec<u8>) -> &'w [u64] {
    let (whole, small) = words.split_at(WHOLE);
    whole
        .iter()
        .for_each(|word| bytes.extend_from_slice(&word.to_le_bytes()));
    small
}

fn unpack_whole<'b, 'w>(bytes: &'b [u8], words: &'w mut [u64]) -> (&'b [u8], &'w mut [u64]) {
    let (whole, small) = words.split_at_mut(WHOLE);
    let (head, rest) = bytes.split_at(WHOLE * 8);
    for (word, bytes) in whole.iter_mut().zip(head.chunks_exact(8)) {
        *word = u64::from_le_bytes(bytes.try_into().expect("eight bytes"));
    }
    (rest, small)
}

fn pack_small(words: &[u64], bytes: &mut Vec<u8>) {
    for word in words {
        let mask = bytes.len();
        bytes.push(0);
        let mut rest = *word;
        while rest != 0 {
            let place = rest.trailing_zeros() / 8;
            let byte = (rest >> (8 * place)) as u8;
            bytes[mask] |= 1 << place;
            bytes.push(byte);
            rest &= !(0xff << (8 * place));
        }
    }
}

fn unpack_small<'b>(bytes: &'b [u8], words: &mut [u64]) -> &'b [u8] {
    let mut rest = bytes;
    for word in words {
        let mut mask = rest[0];
        rest = &rest[1..];
        *word = 0;
        while mask != 0 {
            *word |= u64::from(rest[0]) << (8 * mask.trailing_zeros());
            rest = &rest[1..];
            mask &= mask - 1;
        }
    }
    rest
}

/// Two words, which are those of a process's place, or one and a 0.
type Pair = (u64, u64);

fn pair(words: &[u64]) -> Pair {
    (words[0], words.get(1).copied().unwrap_or(0))
}

/// The values that a pair had first, each of which is one byte.
#[derive(Debug)]
struct Column {
    values: Vec<Pair>,
    /// Their bytes by open addressing.
    codes: [u8; 512],
}

/// The byte before a later value, and of no value.
const LATER: u8 = u8::MAX;

impl Column {
    fn new() -> Column {
        Column {
            values: Vec::new(),
            codes: [LATER; 512],
        }
    }

    fn code(&mut self, value: Pair) -> u8 {
        let mut slot = mixed(value.0 ^ value.1.rotate_left(32)) as usize % self.codes.len();
        while let Some(known) = self.values.get(usize::from(self.codes[slot])) {
            if *known == value {
                return self.codes[slot];
            }
            slot = (slot + 1) % self.codes.len();
        }
        let code = self.values.len() as u8;
        if code < LATER {
            self.values.push(value);
            self.codes[slot] = code;
        }
        code
    }
}

/// The values that make states even fewer bytes: of one that packs and unpacks the same states.
#[derive(Debug, Default)]
pub struct Packing {
    columns: Vec<Column>,
}

impl Packing {
    /// Adds the words of a state to the bytes.
    pub fn pack(&mut self, words: &[u64], bytes: &mut Vec<u8>) {
        let small = pack_whole(words, bytes);
        self.columns.resize_with(small.len().div_ceil(2), Column::new);
        for (words, column) in small.rchunks(2).zip(&mut self.columns) {
            let code = column.code(pair(words));
            bytes.push(code);
            if code == LATER {
                pack_small(words, bytes);
            }
        }
    }

    /// Takes the words of a state from the front of the bytes, and returns the rest.
    pub fn unpack<'b>(&self, bytes: &'b [u8], words: &mut [u64]) -> &'b [u8] {
        let (mut rest, small) = unpack_whole(bytes, words);
        for (words, column) in small.rchunks_mut(2).zip(&self.columns) {
            let code = rest[0];
            rest = &rest[1..];
            match column.values.get(usize::from(code)) {
                Some(pair) => {
                    words[0] = pair.0;
                    if let Some(second) = words.get_mut(1) {
                        *second = pair.1;
                    }
                }
                None => rest = unpack_small(rest, words),
            }
        }
        rest
    }

    /// Takes as many states as there is room for from the front of the bytes, and returns their words.
    pub fn unpack_some<'w>(&self, bytes: &mut &[u8], words: &'w mut [u64], width: usize) -> &'w [u64] {
        let mut count = 0;
        while !bytes.is_empty() && count < words.len() {
            *bytes = self.unpack(bytes, &mut words[count..count + width]);
            count += width;
        }
        &words[..count]
    }
}

#[cfg(test)]
mod tests {
    use super::*;

    const WIDTH: usize = 9;

    /// Words of all lengths, and some that are few.
    fn state(seed: u64) -> [u64; WIDTH] {
        let word = |place: u64| mixed(seed << 8 | place) >> (8 * (mixed(seed ^ place) % 9)).min(63);
        let few = |place: u64| word(place) % 4;
        let many = [word(1), word(2), u64::MAX, 0xff << 56];
        [
            seed,
            u64::MAX,
            few(3),
            many[0],
            few(4),
            few(5),
            few(6),
            many[2],
            many[3],
        ]
    }

    fn states() -> Vec<[u64; WIDTH]> {
        (0..3000).map(state).collect()
    }

    #[test]
    fn words_come_out_as_they_went_in() {
        let mut bytes = Vec::new();
        states().iter().for_each(|words| pack(words, &mut bytes));
        let mut rest = &bytes[..];
        for words in states() {
            let mut found = [7; WIDTH];
            rest = unpack(rest, &mut found);
            assert_eq!(found, words);
        }
        assert!(rest.is_empty());
    }

    /// Also those that have no byte of their own.
    #[test]
    fn few_values_are_a_byte_each() {
        let (mut bytes, mut packing) = (Vec::new(), Packing::default());
        states().iter().for_each(|words| packing.pack(words, &mut bytes));
        let counts: Vec<usize> = packing.columns.iter().map(|column| column.values.len()).collect();
        assert_eq!(counts, [1, 16, 255, 4]);
        let mut rest = &bytes[..];
        for words in states() {
            let (mut found, mut plain) = ([7; WIDTH], Vec::new());
            let before = rest.len();
            rest = packing.unpack(rest, &mut found);
            assert_eq!(found, words);
            pack(&words, &mut plain);
            assert!(before - rest.len() <= plain.len(), "{words:?}");
        }
        assert!(rest.is_empty());
    }
}
