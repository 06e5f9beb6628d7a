//! What a search notes of a state while it expands it, for what has to stay reachable.
//!
//! A step leads deeper if it leads to a state of the next level. From each state steps that lead deeper come to a state from
//! which none does. So what can be reached from each of those can be reached from every state, and [`crate::passes`] needn't look.

use crate::places::Places;
use crate::set::{Number, PARTS};
use crate::store::Front;
use std::sync::atomic::{AtomicU64, Ordering::Relaxed};

/// What the expansion of a state has shown.
#[derive(Clone, Copy, Debug, Default)]
pub struct Noted {
    pub transitions: u64,
    /// Processes that wait.
    pub waits: Places,
    /// Processes that go on, and whose step changes nothing that a user sees, and no memory.
    pub idle: Places,
    /// Processes with a call that changes nothing.
    pub calls: Places,
    /// Goals that don't hold.
    pub missing: Places,
    /// Goals that have to be reachable from here.
    pub asked: Places,
    /// Whether none of a user's processes can go on.
    pub is_end: bool,
}

/// The same of many states.
#[derive(Clone, Copy, Debug, Default)]
pub struct Sums {
    /// Of states from which no step leads deeper.
    pub waits: Places,
    pub idle: Places,
    pub missing: Places,
    /// Of all states.
    pub calls: Places,
    pub asked: Places,
    pub has_end: bool,
}

impl Sums {
    pub fn add(&mut self, noted: &Noted) {
        self.calls.join(noted.calls);
        self.asked.join(noted.asked);
        self.has_end |= noted.is_end;
    }

    pub fn join(&mut self, other: Sums) {
        let Sums {
            waits,
            idle,
            missing,
            calls,
            asked,
            has_end,
        } = other;
        let all = [
            &mut self.waits,
            &mut self.idle,
            &mut self.missing,
            &mut self.calls,
            &mut self.asked,
        ];
        all.into_iter()
            .zip([waits, idle, missing, calls, asked])
            .for_each(|(all, more)| all.join(more));
        self.has_end |= has_end;
    }

    pub fn words(self) -> Vec<u64> {
        let all = [self.waits, self.idle, self.missing, self.calls, self.asked];
        all.into_iter()
            .flat_map(|places| places.0)
            .chain([self.has_end.into()])
            .collect()
    }

    /// Those with these words. Nothing is left of others.
    pub fn of_words(words: &[u64]) -> Option<Sums> {
        let [all @ .., has_end] = words else { return None };
        let all = all.chunks(4).map(|words| words.try_into().ok().map(Places));
        let [waits, idle, missing, calls, asked] = all.collect::<Option<Vec<_>>>()?.try_into().ok()?;
        Some(Sums {
            waits,
            idle,
            missing,
            calls,
            asked,
            has_end: *has_end != 0,
        })
    }
}

/// How many processes and goals there are.
#[derive(Clone, Copy, Debug)]
pub struct Shape {
    pub processes: usize,
    pub goals: usize,
}

/// What is noted of the states of a level, one after another, as bytes.
#[derive(Debug)]
pub struct Notes {
    part: usize,
    bytes: Vec<u8>,
}

impl Notes {
    pub fn new(part: usize) -> Notes {
        Notes {
            part,
            bytes: Vec::new(),
        }
    }

    pub fn add(&mut self, shape: Shape, noted: &Noted) {
        noted.waits.write(shape.processes, &mut self.bytes);
        noted.idle.write(shape.processes, &mut self.bytes);
        noted.missing.write(shape.goals, &mut self.bytes);
    }

    pub fn bytes(&self) -> usize {
        self.bytes.capacity()
    }

    /// Of those states from which no step leads deeper.
    pub fn sums(&self, shape: Shape, deeper: &Deeper) -> Sums {
        let (processes, goals) = (shape.processes.div_ceil(8), shape.goals.div_ceil(8));
        let mut sums = Sums::default();
        let states = self.bytes.chunks_exact((2 * processes + goals).max(1)).enumerate();
        for (_, bytes) in states.filter(|(index, _)| !deeper.has(self.part, *index)) {
            let (waits, rest) = bytes.split_at(processes);
            let (idle, missing) = rest.split_at(processes);
            sums.waits.join_bytes(waits);
            sums.idle.join_bytes(idle);
            sums.missing.join_bytes(missing);
        }
        sums
    }
}

/// The states of the front, and which of them have a step that leads deeper.
#[derive(Debug, Default)]
pub struct Deeper {
    /// For each part the place of its first state, and a bit for each.
    parts: Vec<(usize, Vec<AtomicU64>)>,
}

impl Deeper {
    pub fn new<'f>(fronts: impl Iterator<Item = &'f Front>) -> Deeper {
        let mut parts: Vec<_> = (0..PARTS).map(|_| (0, Vec::new())).collect();
        for front in fronts {
            let words = (0..front.count.div_ceil(64)).map(|_| AtomicU64::new(0));
            parts[front.part] = (front.first, words.collect());
        }
        Deeper { parts }
    }

    /// A step leads deeper from this state. The start comes from no front.
    pub fn add(&self, from: Number) {
        let Some((first, words)) = self.parts.get(from.part) else {
            return;
        };
        let index = from.place as usize - first;
        let Some(word) = words.get(index / 64) else { return };
        let bit = 1 << (index % 64);
        if word.load(Relaxed) & bit == 0 {
            word.fetch_or(bit, Relaxed);
        }
    }

    fn has(&self, part: usize, index: usize) -> bool {
        self.parts[part].1[index / 64].load(Relaxed) >> (index % 64) & 1 == 1
    }
}
