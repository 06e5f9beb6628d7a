//! From the start to a state.

use super::{Fault, Search};
use crate::ahead::who;
use crate::answers::ViewId;
use crate::exchange::UserState;
use crate::hash::Key;
use crate::hosts::{checked, view_in, At, Hosts};
use crate::process::{Answer, Next, Process};
use crate::rounds::Slots;
use crate::set::{Link, Number};
use crate::state::State;
use crate::step::{with_news, Step};
use tracehost::{Error, Session};

impl Search<'_> {
    /// Brings a session from the start to a state, and tells each step and its answer.
    pub fn replay(
        &self,
        to: Number,
        session: &mut Session,
        mut told: impl FnMut(&dyn Process, Step, &Answer),
    ) -> Result<State, Error> {
        let mut state = self.start.clone();
        for link in self.path(to) {
            let (step, answer) = self.go(&mut state, (link.process, link.news), session)?;
            told(self.processes[link.process], step, &answer);
        }
        Ok(state)
    }

    /// Makes the step of a process. The state's view isn't that of the session any more.
    pub fn go(
        &self,
        state: &mut State,
        (process, news): (usize, Option<u32>),
        session: &mut Session,
    ) -> Result<(Step, Answer), Error> {
        let (user, process) = (self.user_of[process], (process, self.processes[process]));
        let place = &mut state.places[process.0];
        let Next::Step(step, _) = process.1.next(place, &state.memories[user]) else {
            unreachable!("the process has gone on from here before")
        };
        let step = with_news(step, news);
        let answer = step.make(session);
        // a failure was told when the step was made first
        let _ = process.1.answered(place, &mut state.memories[user], &answer);
        Ok((step, answer))
    }

    /// Brings a session from the start to the state that a link leads to.
    pub fn replay_to(&self, link: Link, session: &mut Session) -> Result<(), Error> {
        let mut state = self.replay(link.from, session, |_, _, _| ())?;
        self.go(&mut state, (link.process, link.news), session).map(drop)
    }

    /// Goes on by a link, as the search did before. Stores the state in `next`, and returns its view.
    pub fn follow(
        &self,
        hosts: &mut Hosts,
        (link, view): (Link, ViewId),
        state: &State,
        next: &mut State,
    ) -> Result<Key, Error> {
        let replay = |session: &mut Session| self.replay(link.from, session, |_, _, _| ()).map(drop);
        let (process, user) = (self.processes[link.process], self.user_of[link.process]);
        let Next::Step(step, _) = process.next(&state.places[link.process], &state.memories[user]) else {
            unreachable!("the process has gone on from here before")
        };
        let (step, who) = (with_news(step, link.news), who(state, (link.process, link.news)));
        let (answer, after) = hosts.step(&At { view, replay: &replay }, step, who)?;
        next.set(state);
        let _ = process.answered(&mut next.places[link.process], &mut next.memories[user], answer);
        drop(hosts.take_outgoing());
        Ok(hosts.key(after))
    }

    /// Whose places processes have in the key of a state.
    pub fn slots(&self, hosts: &mut Hosts, at: &At, state: &State) -> Result<Slots, Error> {
        let Some(symmetry) = &self.symmetry else {
            return Ok(Slots(None));
        };
        let states = self.users.iter().map(|user| hosts.state(at, *user));
        let states = states.collect::<Result<Vec<UserState>, Error>>()?;
        Ok(Slots(Some(symmetry.slots(state, &states))))
    }

    /// Whether the processes come to a state, of these words, by the steps that have led there, as many as these.
    pub fn comes_to(&self, (to, depth): (Number, usize), words: &[u64], session: &mut Session) -> Result<bool, Error> {
        let Some(path) = self.short_path(to, depth).filter(|path| path.len() == depth) else {
            return Ok(false);
        };
        let mut state = self.start.clone();
        for link in path {
            let (user, process) = (self.user_of[link.process], self.processes[link.process]);
            let (place, memory) = (&mut state.places[link.process], &mut state.memories[user]);
            let Next::Step(step, _) = process.next(place, memory) else {
                return Ok(false);
            };
            let answer = checked(with_news(step, link.news).make(session))?;
            if process.answered(place, memory, &answer).is_err() {
                return Ok(false);
            }
        }
        state.view = view_in(session, self.users)?;
        let mut found = vec![state.view.0, state.view.1];
        state.write_processes(&mut found);
        Ok(found == words)
    }

    /// How a fault is reached.
    pub fn route(&self, fault: &Fault) -> Vec<(usize, Option<u32>)> {
        let path = self.path(fault.from).into_iter().map(|link| (link.process, link.news));
        path.chain(fault.by).collect()
    }

    /// The links from the start to a state.
    fn path(&self, to: Number) -> Vec<Link> {
        self.short_path(to, usize::MAX).expect("it ends at the start")
    }

    /// The same, if there are at most so many.
    fn short_path(&self, to: Number, most: usize) -> Option<Vec<Link>> {
        let mut path = Vec::new();
        let mut at = to;
        loop {
            let link = self.links[at.part].read().expect("no thread has panicked")[at.place as usize];
            let link = Link::unpacked(link);
            if link.from == at {
                path.reverse();
                return Some(path); // only the start comes from itself
            }
            if path.len() == most {
                return None;
            }
            path.push(link);
            at = link.from;
        }
    }
}
