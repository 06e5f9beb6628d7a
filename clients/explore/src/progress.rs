//! What all threads see of a search.

use crate::found::Unfinished;
use crate::memory::{Limits, Refused};
use crate::notes::Deeper;
use std::sync::atomic::{AtomicU64, AtomicUsize};
use std::sync::{OnceLock, RwLock};

/// What all threads see of a search.
pub struct Progress {
    pub states: AtomicU64,
    pub transitions: AtomicU64,
    /// Levels that are done, and the states of the one at hand.
    pub depth: AtomicUsize,
    pub front: AtomicUsize,
    pub limit: u64,
    pub memory: usize,
    /// Bytes of the sets and the level that is being made, and of the one at hand.
    pub bytes: AtomicUsize,
    pub front_bytes: AtomicUsize,
    pub most_bytes: AtomicUsize,
    /// Whether the front is kept until its level is done, for a checkpoint.
    pub keeps_front: bool,
    pub limits: Limits,
    pub full: OnceLock<Unfinished>,
    /// From which states of the front a step leads deeper.
    pub deeper: RwLock<Deeper>,
    /// Told now and then by the first thread.
    pub tell: Box<dyn Fn(&Progress) + Sync + Send>,
}

impl Progress {
    /// Whether the search ends before all is done.
    pub fn is_full(&self) -> bool {
        self.full.get().is_some()
    }

    /// It ends. The first reason is kept.
    pub fn fill(&self, why: Unfinished) {
        let _ = self.full.set(why);
    }

    /// Whether there is memory for what comes next.
    pub fn look_for_memory(&self) -> Result<(), Refused> {
        if self.limits.leave_enough() {
            Ok(())
        } else {
            Err(Refused)
        }
    }
}
