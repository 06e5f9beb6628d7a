//! Searches in files.

use super::Levels;
use crate::checkpoint::{self, broken, Identity, PartToSave, Saved, SavedPart, ToSave};
use crate::coverage::{self, Coverage};
use crate::memory::Refused;
use crate::notes::Sums;
use crate::packed::unpack;
use crate::set::{Link, Number, Part, PARTS};
use crate::states::States;
use crate::store::Front;
use std::io;
use std::path::Path;
use std::sync::atomic::Ordering::Relaxed;
use tracehost::{Error, Session};

/// The most states of a front that are compared with what the present processes come to.
const COMPARED: usize = 100_000;

impl Levels<'_, '_> {
    /// Writes the search into a file, as it is before the states of the front are expanded.
    pub fn save(&self, path: &Path, identity: &Identity) -> io::Result<()> {
        let links = self
            .search
            .links
            .iter()
            .map(|links| links.read().expect("no thread has panicked"));
        let links: Vec<_> = links.collect();
        let width = self.search.start.width();
        let parts = (0..PARTS).map(|part| {
            let store = &self.workers[part % self.threads()].store;
            let front = self.fronts.iter().flatten().find(|front| front.part == part);
            let count = store.before(part);
            PartToSave {
                keys: store.set(part).keys(),
                links: &links[part],
                count,
                first: front.map_or(count, |front| front.first),
                states: front.map(|front| (&front.states, &store.packing, width)),
            }
        });
        let saved = ToSave {
            depth: self.depth as u64,
            transitions: self.transitions,
            notes: self.notes(),
            parts,
        };
        checkpoint::write(path, identity, saved)
    }

    /// What was noted, and which lines were made, in words.
    fn notes(&self) -> Vec<u64> {
        let covered = self.search.processes.iter().filter_map(|process| process.coverage());
        let covered = covered.flat_map(Coverage::words);
        self.sums.words().into_iter().chain(covered).collect()
    }

    fn restore_notes(&mut self, notes: &[u64]) -> io::Result<()> {
        let covered = self.search.processes.iter().filter_map(|process| process.coverage());
        let covered: Vec<&Coverage> = covered.collect();
        let count = self.sums.words().len();
        if notes.len() != count + covered.len() * coverage::WORDS {
            return Err(broken("it is damaged"));
        }
        let (sums, words) = notes.split_at(count);
        self.sums = Sums::of_words(sums).ok_or_else(|| broken("it is damaged"))?;
        for (coverage, words) in covered.iter().zip(words.chunks_exact(coverage::WORDS)) {
            coverage.join(words.try_into().expect("as many words"));
        }
        Ok(())
    }

    /// Frees what a last checkpoint doesn't need.
    pub fn free(&mut self) {
        for worker in &mut self.workers {
            worker.store.free_level();
            worker.hosts.free();
        }
    }

    /// Goes on from there.
    pub fn restore(&mut self, saved: Saved) -> io::Result<()> {
        let counts: Vec<usize> = saved.parts.iter().map(|part| part.keys.len()).collect();
        let processes = self.search.processes.len();
        let is_right = |link: Link| link.process < processes && (link.from.place as usize) < counts[link.from.part];
        let fits = |part: &SavedPart| {
            let count = part.keys.len();
            part.links.len() == count
                && part.first <= count
                && part.links.iter().all(|link| is_right(Link::unpacked(*link)))
        };
        if !saved.parts.iter().all(fits) {
            return Err(broken("it is damaged"));
        }
        self.restore_notes(&saved.notes)?;
        self.fronts = (0..self.threads()).map(|_| Vec::new()).collect();
        self.depth = saved.depth as usize;
        self.transitions = saved.transitions;
        self.progress.transitions.store(saved.transitions, Relaxed);
        for (part, saved) in saved.parts.into_iter().enumerate() {
            self.restore_part(part, saved)?;
        }
        Ok(())
    }

    fn restore_part(&mut self, part: usize, saved: SavedPart) -> Result<(), Refused> {
        let (threads, width) = (self.threads(), self.search.start.width());
        self.progress.states.fetch_add(saved.keys.len() as u64, Relaxed);
        *self.search.links[part].write().expect("no thread has panicked") = saved.links;
        let (level, packing) = self.workers[part % threads].store.level(part);
        level.first = saved.keys.len();
        level.set = Part::of_keys(saved.keys)?;
        let count = level.first - saved.first;
        let (mut states, mut words) = (States::default(), vec![0; width]);
        for piece in saved.states {
            let mut rest = &piece[..];
            while !rest.is_empty() {
                rest = unpack(rest, &mut words);
                states.add(packing, &words)?;
            }
        }
        if count > 0 {
            self.fronts[part % threads].push(Front {
                part,
                first: saved.first,
                count,
                states,
            });
        }
        Ok(())
    }

    /// Whether the present processes come to the states of the front, by the steps that have led there; of too many to some.
    pub fn come_to_front(&self, start: &Session) -> Result<bool, Error> {
        let (width, every) = (self.search.start.width(), self.front().div_ceil(COMPARED).max(1));
        let mut session = start.try_clone()?;
        let mut count = 0;
        for (worker, fronts) in self.workers.iter().zip(&self.fronts) {
            for front in fronts {
                let mut place = front.first as u32;
                let compared = front.states.each(&worker.store.packing, width, |words| {
                    let number = Number {
                        part: front.part,
                        place,
                    };
                    place += 1;
                    count += 1;
                    if count % every != 0 {
                        return Ok(());
                    }
                    start.copy_over(&mut session).map_err(Some)?;
                    match self.search.comes_to((number, self.depth), words, &mut session) {
                        Ok(true) => Ok(()),
                        Ok(false) => Err(None),
                        Err(error) => Err(Some(error)),
                    }
                });
                match compared {
                    Ok(()) if place as usize == front.first + front.count => (),
                    Ok(()) | Err(None) => return Ok(false),
                    Err(Some(error)) => return Err(error),
                }
            }
        }
        Ok(true)
    }
}
