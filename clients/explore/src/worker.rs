//! The states of a thread, and its sessions.

use crate::batch::{part, HEAD};
use crate::found::Unfinished;
use crate::hash::Key;
use crate::hosts::Hosts;
use crate::memory::Refused;
use crate::notes::Notes;
use crate::progress::Progress;
use crate::search::Search;
use crate::set::{Link, Number};
use crate::store::Store;
use std::hint::black_box;
use std::sync::atomic::Ordering::Relaxed;

/// A thread's states, and its sessions.
pub struct Worker<'a> {
    pub store: Store,
    pub hosts: Hosts<'a>,
    /// What was noted of the states of the front.
    pub notes: Vec<Notes>,
    bytes: usize,
}

impl<'a> Worker<'a> {
    pub fn new(store: Store, hosts: Hosts<'a>) -> Worker<'a> {
        Worker {
            store,
            hosts,
            notes: Vec::new(),
            bytes: 0,
        }
    }
}

impl Worker<'_> {
    /// Adds a state of this part, in the words of a batch. Returns whether it is of the level that is being made.
    pub fn insert(&mut self, part: usize, words: &[u64], progress: &Progress) -> Result<bool, Refused> {
        let (key, link) = (Key(words[0], words[1]), (words[2], words[3]));
        let (is_new, is_deeper) = self.store.insert(part, key, &words[HEAD..], link)?;
        if is_new && progress.states.fetch_add(1, Relaxed) >= progress.limit {
            progress.fill(Unfinished::Limit);
        }
        Ok(is_deeper)
    }

    /// Tells how much memory the states take. There has to be a byte more for each, which [`crate::passes`] needs.
    pub fn weigh(&mut self, progress: &Progress) {
        let bytes = self.store.bytes() + self.notes.iter().map(Notes::bytes).sum::<usize>();
        progress.bytes.fetch_add(bytes, Relaxed);
        let all = progress.bytes.fetch_sub(self.bytes, Relaxed) - self.bytes + progress.front_bytes.load(Relaxed);
        progress.most_bytes.fetch_max(all, Relaxed);
        if all + progress.states.load(Relaxed) as usize > progress.memory {
            progress.fill(Unfinished::Memory);
        }
        self.bytes = bytes;
    }
}

/// The parts of states, in the words of a batch, and the places that they may have there. What that needs is read for all of them
/// first: a processor waits for the memory of all as long as for that of one.
fn candidates(search: &Search, workers: &[Worker], words: &[u64]) -> Vec<(usize, Option<u32>)> {
    let states = || words.chunks_exact(HEAD + search.start.width());
    let (count, key) = (workers.len(), |words: &[u64]| Key(words[0], words[1]));
    let parts: Vec<usize> = states().map(|words| part(search, words)).collect();
    let set = |part: usize| workers[part % count].store.set(part);
    let near = states().zip(&parts).map(|(words, part)| set(*part).near(key(words)));
    black_box(near.fold(0, |all, word| all ^ word));
    let places = states()
        .zip(&parts)
        .map(|(words, part)| (*part, set(*part).candidate(key(words))));
    let places: Vec<(usize, Option<u32>)> = places.collect();
    let known = places
        .iter()
        .map(|(part, place)| place.map_or(0, |place| set(*part).keys()[place as usize].0));
    black_box(known.fold(0, |all, word| all ^ word));
    places
}

/// Adds states, in the words of a batch, to those of these workers, all or one.
pub fn insert_all(search: &Search, workers: &mut [Worker], words: &[u64], progress: &Progress) -> Result<(), Refused> {
    let states = words.chunks_exact(HEAD + search.start.width());
    let (count, key) = (workers.len(), |words: &[u64]| Key(words[0], words[1]));
    let places = candidates(search, workers, words);
    let deeper = progress.deeper.read().expect("no thread has panicked");
    for (words, (part, place)) in states.zip(places) {
        let worker = &mut workers[part % count];
        let is_deeper = match place {
            Some(place) if worker.store.set(part).is_at(key(words), place) => {
                worker.store.meet(part, place, &words[HEAD..], (words[2], words[3]))?
            }
            _ => worker.insert(part, words, progress)?,
        };
        if is_deeper {
            deeper.add(Link::unpacked(words[2]).from);
        }
    }
    Ok(())
}

/// The numbers of states, in the words of a batch, that are there.
pub fn numbers(search: &Search, workers: &[Worker], words: &[u64]) -> Vec<Number> {
    let states = words.chunks_exact(HEAD + search.start.width());
    let found = states
        .zip(candidates(search, workers, words))
        .map(|(words, (part, place))| {
            let (key, set) = (Key(words[0], words[1]), workers[part % workers.len()].store.set(part));
            let place = place.filter(|place| set.is_at(key, *place)).or_else(|| set.find(key));
            let place = place.expect("the search has been there");
            Number { part, place }
        });
    found.collect()
}
