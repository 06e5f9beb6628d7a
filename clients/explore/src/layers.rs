//! The states of a level again, once the search is over: only their keys and links were kept.

use crate::list::List;
use crate::memory::{one_more, Refused};
use crate::packed::Packing;
use crate::set::{Link, Number, PARTS};
use crate::states::States;

/// For each part the places of the first states of a level, or how many states there are.
pub type Bounds = [u32; PARTS];

/// The bounds of each level, and of all states at last: a level's states are those that come from the level before.
pub fn bounds(links: &[&List<u64>], start: Number) -> Vec<Bounds> {
    let (mut first, mut end) = ([0; PARTS], [0; PARTS]);
    end[start.part] = 1;
    let mut bounds = vec![first];
    while end != first {
        bounds.push(end);
        let mut next = end;
        for (part, links) in links.iter().enumerate() {
            let is_next = |place: u32| {
                let from = Link::unpacked(links[place as usize]).from;
                (first[from.part]..end[from.part]).contains(&from.place)
            };
            while (next[part] as usize) < links.len() && is_next(next[part]) {
                next[part] += 1;
            }
        }
        (first, end) = (end, next);
    }
    bounds
}

/// The states of a level.
#[derive(Debug)]
pub struct Layer {
    pub level: usize,
    /// For each part the states, and where each is.
    parts: Vec<(States, Vec<usize>)>,
}

impl Layer {
    pub fn new(level: usize) -> Layer {
        let parts = (0..PARTS).map(|_| (States::default(), Vec::new()));
        Layer {
            level,
            parts: parts.collect(),
        }
    }

    pub fn add(&mut self, part: usize, packing: &mut Packing, words: &[u64]) -> Result<(), Refused> {
        let (states, places) = &mut self.parts[part];
        one_more(places)?;
        places.push(states.add(packing, words)?);
        Ok(())
    }

    /// The words of a state of a part, by its place in the level.
    pub fn read(&self, part: usize, index: usize, packing: &Packing, words: &mut [u64]) {
        let (states, places) = &self.parts[part];
        packing.unpack(states.at(places[index]), words);
    }
}
