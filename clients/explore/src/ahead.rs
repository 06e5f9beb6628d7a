//! Steps ahead of the search, which need no copy of a session.

use crate::answers::ViewId;
use crate::hosts::{checked, At, Hosts};
use crate::process::Next;
use crate::search::{Outcome, Search};
use crate::state::State;
use crate::step::{with_news, Step};
use tracehost::{Error, Reply, Session, Which};

impl Search<'_> {
    /// Goes on from a state that the scratch session has come to, by steps whose answers aren't known. The search asks for them
    /// later, and would need a copy of a session for each.
    pub fn go_ahead(&self, hosts: &mut Hosts, from: &At, state: &mut State, next: &mut State) -> Result<(), Error> {
        let (mut steps, mut view) = (Vec::new(), from.view);
        while steps.len() < hosts.ahead {
            let replay = |session: &mut Session| make_again(from, &steps, session);
            match self.take_unknown(hosts, &At { view, replay: &replay }, state, next)? {
                Some((step, after)) if hosts.is_at(after) => {
                    steps.push(step);
                    view = after;
                }
                _ => break,
            }
            std::mem::swap(state, next);
        }
        Ok(())
    }

    /// Makes the first step whose answer isn't known.
    fn take_unknown(
        &self,
        hosts: &mut Hosts,
        at: &At,
        state: &State,
        next: &mut State,
    ) -> Result<Option<(Step, ViewId)>, Error> {
        if self.ended_by_signal.is_some() {
            // that is asked for once the session is elsewhere
            for user in self.users {
                hosts.live(at, *user)?;
            }
        }
        for (place, process) in self.processes.iter().enumerate() {
            let Next::Step(step, when) = process.next(&state.places[place], &state.memories[self.user_of[place]])
            else {
                continue;
            };
            let Some(news) = self.unknown(hosts, at, state, (place, step))? else {
                continue;
            };
            let step = with_news(step, news);
            match self.take(hosts, at, (state, next), (place, news), (step, when))? {
                Outcome::On(view) => return Ok(Some((step, view))),
                Outcome::Fails(_) | Outcome::Mistakes(_) => return Ok(None),
                Outcome::Waits | Outcome::Gone => (),
            }
        }
        Ok(None)
    }

    /// Which news a step reports whose answer isn't known; none if it is known.
    fn unknown(
        &self,
        hosts: &mut Hosts,
        at: &At,
        state: &State,
        (place, step): (usize, Step),
    ) -> Result<Option<Option<u32>>, Error> {
        if let Step::Wait4(caller, Which::Any, options) = step {
            for pid in hosts.children(at, caller)?.iter() {
                let (wait, who) = (with_news(step, Some(*pid)), who(state, (place, Some(*pid))));
                if !hosts.is_known(at, wait, who)? && matches!(hosts.step(at, wait, who)?.0, Ok(Reply::Status { .. })) {
                    return Ok(Some(Some(*pid)));
                }
            }
            if !hosts.news(at, caller, options)?.is_empty() {
                return Ok(None);
            }
        }
        let is_known = hosts.is_known(at, step, who(state, (place, None)))?;
        Ok((!is_known).then_some(None))
    }
}

/// Brings a session to a state, and makes these steps.
pub fn make_again(from: &At, steps: &[Step], session: &mut Session) -> Result<(), Error> {
    (from.replay)(session)?;
    for step in steps {
        let _ = checked(step.make(session))?; // any answer of the model
    }
    Ok(())
}

/// A number of a process at its place, and of the news that it waits for.
pub fn who(state: &State, (process, news): (usize, Option<u32>)) -> usize {
    let place = usize::from(state.places[process].at);
    (process * 61 + place) * 7 + news.map_or(0, |pid| pid as usize)
}
