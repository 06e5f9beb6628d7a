//! States on their way to the thread that owns them, as words.

use crate::answers::ViewId;
use crate::hash::Key;
use crate::hosts::Hosts;
use crate::progress::Progress;
use crate::search::{Reached, Search};
use crate::set::part_of;
use crate::state::key_of;
use std::sync::atomic::Ordering::Relaxed;
use tracehost::Session;

/// States on their way to the thread that owns them, and sessions that have come there.
#[derive(Default)]
pub struct Batch {
    /// Key, link, order and state of each.
    pub words: Vec<u64>,
    pub sessions: Vec<(Key, Session)>,
}

impl Batch {
    /// Whether there may be as many states as the limit with those in the batch.
    pub fn may_be_last(&self, width: usize, progress: &Progress) -> bool {
        let count = (self.words.len() / width) as u64;
        progress.states.load(Relaxed) + count >= progress.limit
    }
}

pub const HEAD: usize = 4;
pub const BATCH_WORDS: usize = 1 << 13;

/// Adds a state, with the number of its view, which `complete` replaces.
pub fn write(words: &mut Vec<u64>, reached: &Reached) {
    let Key(first, second) = reached.key.unwrap_or(Key(0, 0));
    words.extend([first, second, reached.link.packed(), reached.order]);
    words.extend([reached.view.0.into(), 0]);
    reached.state.write_processes(words);
}

/// Gives the states of a batch their views, and their keys.
pub fn complete(search: &Search, hosts: &Hosts, words: &mut [u64]) {
    let width = HEAD + search.start.width();
    for words in words.chunks_exact_mut(width) {
        let view = hosts.key(ViewId(words[HEAD] as u32));
        (words[HEAD], words[HEAD + 1]) = (view.0, view.1);
    }
    if search.symmetry.is_none() {
        for words in words.chunks_exact_mut(width) {
            let key = key_of(&words[HEAD..]);
            (words[0], words[1]) = (key.0, key.1);
        }
    }
}

/// The part of a state in the words of a batch.
pub fn part(search: &Search, words: &[u64]) -> usize {
    part_of(search.home(Key(words[0], words[1]), Key(words[HEAD], words[HEAD + 1])))
}
