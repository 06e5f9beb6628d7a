//! The states that one thread owns: what was met, and the front.

use crate::hash::Key;
use crate::list::List;
use crate::memory::{filled, Refused};
use crate::packed::Packing;
use crate::set::{Part, PARTS};
use crate::states::States;
use std::sync::RwLock;

/// The links of all states, but those of the level that is being made.
pub type Links = Vec<RwLock<List<u64>>>;

pub fn no_links() -> Links {
    (0..PARTS).map(|_| RwLock::new(List::new())).collect()
}

/// A part of the set, and those of its states whose next ones aren't known yet.
pub struct Level {
    pub set: Part,
    /// The links of the level that is being made, their orders, and its states.
    pub links: List<u64>,
    orders: List<u64>,
    states: States,
    /// Where each state's words are, if it may be exchanged for another.
    starts: List<usize>,
    /// The place of its first state.
    pub first: usize,
}

impl Level {
    /// Brings the states of the level into the order of its states.
    fn order_states(&mut self, packing: &mut Packing, width: usize) -> Result<(), Refused> {
        if self.starts.len() == 0 {
            return Ok(());
        }
        let mut words = filled(0, width)?;
        let mut kept = States::default();
        for start in self.starts.iter() {
            packing.unpack(self.states.at(*start), &mut words);
            kept.add(packing, &words)?;
        }
        self.starts.clear();
        self.states = kept;
        Ok(())
    }
}

/// The parts of a thread.
pub struct Store {
    thread: usize,
    threads: usize,
    /// Whether states with one key have different states. Then that of the lowest order is kept.
    symmetric: bool,
    pub levels: Vec<Level>,
    pub packing: Packing,
}

/// The states of a part that are to be expanded.
pub struct Front {
    pub part: usize,
    pub first: usize,
    pub count: usize,
    /// Where their processes are, as the store has packed it.
    pub states: States,
}

impl Store {
    pub fn new(thread: usize, threads: usize, symmetric: bool) -> Result<Store, Refused> {
        let level = |_| {
            Ok(Level {
                set: Part::new()?,
                links: List::new(),
                orders: List::new(),
                states: States::default(),
                starts: List::new(),
                first: 0,
            })
        };
        Ok(Store {
            thread,
            threads,
            symmetric,
            levels: (thread..PARTS).step_by(threads).map(level).collect::<Result<_, _>>()?,
            packing: Packing::default(),
        })
    }

    /// The level of a part that this thread owns, and how its states are packed.
    pub fn level(&mut self, part: usize) -> (&mut Level, &mut Packing) {
        debug_assert_eq!(part % self.threads, self.thread, "a part of this thread");
        (&mut self.levels[part / self.threads], &mut self.packing)
    }

    /// The set of such a part.
    pub fn set(&self, part: usize) -> &Part {
        &self.levels[part / self.threads].set
    }

    /// How many states of such a part were there before the level that is being made.
    pub fn before(&self, part: usize) -> usize {
        self.levels[part / self.threads].first
    }

    /// The part of each level.
    pub fn parts(&self) -> impl Iterator<Item = usize> {
        (self.thread..PARTS).step_by(self.threads)
    }

    /// Adds a state, and returns whether it is new, and of the level that is being made. Of two ways to such a state, that of the
    /// lower order is kept.
    pub fn insert(
        &mut self,
        part: usize,
        key: Key,
        state: &[u64],
        (link, order): (u64, u64),
    ) -> Result<(bool, bool), Refused> {
        let symmetric = self.symmetric;
        let (level, packing) = self.level(part);
        let (place, is_new) = level.set.insert(key)?;
        if is_new {
            level.links.push(link)?;
            level.orders.push(order)?;
            let start = level.states.add(packing, state)?;
            if symmetric {
                level.starts.push(start)?;
            }
            Ok((true, true))
        } else {
            Ok((false, self.meet(part, place, state, (link, order))?))
        }
    }

    /// Adds another way to a state, and returns whether it is of the level that is being made.
    pub fn meet(&mut self, part: usize, place: u32, state: &[u64], (link, order): (u64, u64)) -> Result<bool, Refused> {
        let symmetric = self.symmetric;
        let (level, packing) = self.level(part);
        let Some(place) = (place as usize).checked_sub(level.first) else {
            return Ok(false);
        };
        if order < level.orders[place] {
            level.orders[place] = order;
            level.links[place] = link;
            if symmetric {
                level.starts[place] = level.states.add(packing, state)?;
            }
        }
        Ok(true)
    }

    /// Ends the level: its links are told. If memory is refused, it is to be made again.
    pub fn end_level(&mut self, links: &Links, width: usize) -> Result<(), Refused> {
        let parts = self.parts();
        for (part, level) in parts.zip(&mut self.levels) {
            level.order_states(&mut self.packing, width)?;
            let mut known = links[part].write().expect("no thread has panicked");
            known.append(&mut level.links)?;
        }
        Ok(())
    }

    /// The states of a level that has ended, which are to be expanded.
    pub fn next_level(&mut self) -> Vec<Front> {
        let parts = self.parts();
        let mut fronts = Vec::new();
        for (part, level) in parts.zip(&mut self.levels) {
            let first = std::mem::replace(&mut level.first, level.set.keys().len());
            level.orders.clear();
            let (count, states) = (level.first - first, std::mem::take(&mut level.states));
            if count > 0 {
                fronts.push(Front {
                    part,
                    first,
                    count,
                    states,
                });
            }
        }
        fronts
    }

    /// Frees what belongs to the level that is being made, which isn't ended any more.
    pub fn free_level(&mut self) {
        for level in &mut self.levels {
            (level.links, level.orders, level.starts) = (List::new(), List::new(), List::new());
            level.states = States::default();
        }
    }

    /// The bytes of the set, with all links, and of the level that is being made.
    pub fn bytes(&self) -> usize {
        let of = |level: &Level| {
            let lists = [&level.links, &level.orders].map(List::bytes);
            let known = level.first * std::mem::size_of::<u64>();
            level.set.bytes() + known + lists[0] + lists[1] + level.starts.bytes() + level.states.bytes()
        };
        self.levels.iter().map(of).sum()
    }
}
