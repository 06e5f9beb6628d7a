//! Sessions that are kept, so that steps go on from there.

use crate::hash::Key;
use crate::memory::{room, Refused};
use tracehost::{Error, Session};

/// Sessions by what the users see in them, in sets of four.
pub struct Sessions {
    sets: Vec<Ways>,
}

/// The one at `oldest` is replaced next.
#[derive(Default)]
struct Ways {
    ways: [Option<(Key, Session)>; 4],
    oldest: usize,
}

impl Sessions {
    pub fn new(count: usize) -> Result<Sessions, Refused> {
        let count = (count / 4).next_power_of_two();
        let mut sets = room(count)?;
        sets.resize_with(count, Ways::default);
        Ok(Sessions { sets })
    }

    /// Forgets all sessions.
    pub fn free(&mut self) {
        self.sets.iter_mut().for_each(|set| *set = Ways::default());
    }

    fn set(&self, view: Key) -> usize {
        view.0 as usize & (self.sets.len() - 1)
    }

    pub fn get(&self, view: Key) -> Option<&Session> {
        let set = &self.sets[self.set(view)];
        set.ways
            .iter()
            .flatten()
            .find(|(key, _)| *key == view)
            .map(|(_, session)| session)
    }

    /// Keeps a session, and returns the one that had its place.
    pub fn put(&mut self, view: Key, session: Session) -> Option<Session> {
        let set = self.set(view);
        let set = &mut self.sets[set];
        let place = set.oldest;
        set.oldest = (place + 1) % set.ways.len();
        set.ways[place].replace((view, session)).map(|(_, session)| session)
    }
}

/// A copy of a session. Over a spare one, in which all others are as in the session, only what these users have is copied.
pub fn copied(session: &Session, users: &[u32], spare: &mut Vec<Session>) -> Result<Session, Error> {
    let Some(mut copy) = spare.pop() else {
        return session.try_clone();
    };
    for user in users {
        session.copy_user(&mut copy, *user)?;
    }
    Ok(copy)
}
