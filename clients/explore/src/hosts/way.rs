//! How a session comes to a state.

use super::{checked, At, Hosts, ModelQuestion, LONG_WAY};
use crate::answers::ViewId;
use crate::hash::Key;
use crate::sessions::copied;
use tracehost::{Error, Session};

impl Hosts<'_> {
    /// Whether the scratch session is at this state.
    pub fn is_at(&self, view: ViewId) -> bool {
        self.scratch_view == Some(self.answers.key(view))
    }

    /// Whether a session at this state is to be kept, and isn't yet.
    pub(super) fn is_wanted(&self, view: Key) -> bool {
        !self.goes_ahead && (!(self.owns)(view) || self.sessions.get(view).is_none())
    }

    /// Keeps a session for the steps that come later, or for the thread that owns its state.
    pub(super) fn keep(&mut self, view: Key, session: Session) {
        let left = if (self.owns)(view) {
            self.sessions.put(view, session)
        } else {
            self.outgoing.replace((view, session)).map(|(_, session)| session)
        };
        self.spare.extend(left);
    }

    /// Takes the scratch session, and brings it to a state.
    pub(super) fn come_to(&mut self, at: &At) -> Result<Session, Error> {
        let is_there = self.is_at(at.view);
        self.scratch_view = None;
        match self.scratch.take() {
            Some(scratch) if is_there => Ok(scratch),
            unused => {
                self.spare.extend(unused);
                self.brought(at)
            }
        }
    }

    /// The session that is kept at a state.
    fn kept(&self, view: Key) -> Option<&Session> {
        let session = self.sessions.get(view);
        session.or_else(|| (view == self.start_view).then_some(&self.start))
    }

    /// A new session at a state: a copy of the last one on the way there that is kept, which makes the steps from there again.
    fn brought(&mut self, at: &At) -> Result<Session, Error> {
        let mut view = at.view;
        self.steps.clear();
        while self.kept(self.answers.key(view)).is_none() {
            let Some((from, ModelQuestion::Step(step))) = self.answers.way(view) else {
                return self.replayed(at);
            };
            self.steps.push(*step);
            view = from;
        }
        let mut session = self.copy_of(self.answers.key(view))?;
        for step in self.steps.iter().rev() {
            let _ = checked(step.make(&mut session))?; // any answer of the model
        }
        if self.steps.len() >= LONG_WAY {
            self.keep_copy(self.answers.key(at.view), &session)?;
        }
        Ok(session)
    }

    /// The same from the start, if the way was forgotten.
    fn replayed(&mut self, at: &At) -> Result<Session, Error> {
        self.calls.replays += 1;
        let mut session = self.copy_of(self.start_view)?;
        (at.replay)(&mut session)?;
        self.keep_copy(self.answers.key(at.view), &session)?;
        Ok(session)
    }

    fn keep_copy(&mut self, view: Key, session: &Session) -> Result<(), Error> {
        let copy = copied(session, self.users, &mut self.spare)?;
        self.calls.copies += 1;
        self.spare.extend(self.sessions.put(view, copy));
        Ok(())
    }

    /// A copy of a session that is kept, or of that at the start.
    fn copy_of(&mut self, view: Key) -> Result<Session, Error> {
        self.calls.copies += 1;
        copied(
            self.sessions.get(view).unwrap_or(&self.start),
            self.users,
            &mut self.spare,
        )
    }

    /// A session at a state, to look at.
    pub(super) fn session_at(&mut self, at: &At) -> Result<&Session, Error> {
        if !self.is_at(at.view) {
            let view = self.answers.key(at.view);
            if self.kept(view).is_some() {
                return Ok(self.kept(view).expect("it is there"));
            }
            self.scratch = Some(self.come_to(at)?);
            self.scratch_view = Some(view);
        }
        Ok(self.scratch.as_ref().expect("it has a view"))
    }
}
