//! A state: where all processes are, and what the users see.

use crate::hash::{Hasher, Key};
use crate::process::{Memory, Place};

/// Where all processes are, and what the users see.
#[derive(Clone, Debug, PartialEq, Eq)]
pub struct State {
    pub view: Key,
    /// A memory for each user.
    pub memories: Vec<Memory>,
    pub places: Vec<Place>,
}

impl State {
    pub fn key(&self) -> Key {
        let mut words = vec![self.view.0, self.view.1];
        self.write_processes(&mut words);
        key_of(&words)
    }

    /// Becomes another state of the same processes, but for the view. It takes no memory.
    pub fn set(&mut self, other: &State) {
        self.memories.copy_from_slice(&other.memories);
        self.places.copy_from_slice(&other.places);
    }

    /// How many words a state has.
    pub fn width(&self) -> usize {
        2 + self.memories.len() + 2 * self.places.len()
    }

    /// Adds all words but those of the view, which come first.
    pub fn write_processes(&self, words: &mut Vec<u64>) {
        words.extend(self.memories.iter().map(|memory| u64::from_le_bytes(*memory)));
        words.extend(self.places.iter().flat_map(|place| place.words()));
    }

    pub fn read(&mut self, words: &[u64]) {
        self.view = Key(words[0], words[1]);
        let (memories, places) = words[2..].split_at(self.memories.len());
        for (memory, word) in self.memories.iter_mut().zip(memories) {
            *memory = word.to_le_bytes();
        }
        for (place, pair) in self.places.iter_mut().zip(places.chunks_exact(2)) {
            *place = Place::of_words([pair[0], pair[1]]);
        }
    }
}

/// The key of a state with these words.
pub fn key_of(words: &[u64]) -> Key {
    let mut hasher = Hasher::new();
    hasher.words(words);
    hasher.key()
}
