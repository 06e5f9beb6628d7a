//! All steps from a state.

use super::{Failure, Fault, Outcome, Reached, Search};
use crate::ahead::make_again;
use crate::answers::ViewId;
use crate::hash::{mixed, Key};
use crate::hosts::{At, Hosts};
use crate::notes::Noted;
use crate::places::Places;
use crate::process::{Next, When};
use crate::set::{Link, Number};
use crate::state::State;
use crate::step::{with_news, Step};
use std::sync::Arc;
use tracehost::{Error, Session, Which};

/// A process that goes on, and the news that its wait reports.
type By = (usize, Option<u32>);

/// What is told of each state that is reached, and of each fault.
pub type Sink<'s> = dyn FnMut(&mut Hosts, Result<Reached, Fault>) + 's;

/// Which steps a process's step may be.
enum Choices {
    AsAsked,
    News(Arc<[u32]>),
}

impl Choices {
    /// None is the step as it was asked for.
    fn iter(&self) -> impl Iterator<Item = Option<u32>> + '_ {
        let (as_asked, news): (_, &[u32]) = match self {
            Choices::AsAsked => (Some(None), &[]),
            Choices::News(news) => (None, news),
        };
        as_asked.into_iter().chain(news.iter().map(|pid| Some(*pid)))
    }
}

/// A state whose steps are made.
struct Expansion<'e> {
    search: &'e Search<'e>,
    at: &'e At<'e>,
    state: &'e State,
    number: Number,
    key: Key,
    noted: Noted,
    /// The users with a process that goes on.
    goes_on: Places,
}

impl Search<'_> {
    /// Tells each state that is reached from this one, and each fault. Returns what there is to note of it.
    pub fn expand(
        &self,
        hosts: &mut Hosts,
        (number, key): (Number, Key),
        (state, view): (&State, ViewId),
        next: &mut [State; 2],
        sink: &mut Sink,
    ) -> Result<Noted, Error> {
        let replay = |session: &mut Session| self.replay(number, session, |_, _, _| ()).map(drop);
        let at = At { view, replay: &replay };
        let mut expansion = Expansion {
            search: self,
            at: &at,
            state,
            number,
            key,
            noted: Noted::default(),
            goes_on: Places::default(),
        };
        if let Some(why) = self.tells_apart(hosts, &at, state)? {
            sink(hosts, Err(Fault::mistake(why, number, expansion.order())));
            return Ok(expansion.noted);
        }
        for place in 0..self.processes.len() {
            expansion.go_on(hosts, place, next, sink)?;
        }
        for user in (0..self.users.len()).filter(|user| !expansion.goes_on.has(*user)) {
            expansion.noted.is_end = true;
            expansion.end(hosts, user, sink)?;
        }
        self.note_goals(hosts, &at, &mut expansion.noted)?;
        Ok(expansion.noted)
    }

    /// The steps that a process's step may be: a wait for any is one for each process with news.
    fn choices(&self, hosts: &mut Hosts, at: &At, step: Step) -> Result<Choices, Error> {
        let Step::Wait4(caller, Which::Any, options) = step else {
            return Ok(Choices::AsAsked);
        };
        let news = hosts.news(at, caller, options)?;
        Ok(if news.is_empty() {
            Choices::AsAsked
        } else {
            Choices::News(news)
        })
    }
}

impl Expansion<'_> {
    /// Makes each step that a process may make.
    fn go_on(&mut self, hosts: &mut Hosts, place: usize, next: &mut [State; 2], sink: &mut Sink) -> Result<(), Error> {
        let (search, state) = (self.search, self.state);
        let memory = &state.memories[search.user_of[place]];
        let (step, when) = match search.processes[place].next(&state.places[place], memory) {
            Next::Ended => return Ok(()),
            Next::Blocked => {
                self.noted.waits.add(place);
                return Ok(());
            }
            Next::Step(step, when) => (step, when),
        };
        let (mut changes, before) = (false, self.noted.transitions);
        for news in search.choices(hosts, self.at, step)?.iter() {
            changes |= self.make(hosts, (place, news), (with_news(step, news), when), next, sink)?;
        }
        if self.noted.transitions > before && !changes {
            self.noted.idle.add(place);
        }
        Ok(())
    }

    /// Makes a step, and returns whether it changes what a user sees, or memory.
    fn make(
        &mut self,
        hosts: &mut Hosts,
        by: By,
        (step, when): (Step, When),
        next: &mut [State; 2],
        sink: &mut Sink,
    ) -> Result<bool, Error> {
        let asked = hosts.calls.steps;
        let went = self
            .search
            .take(hosts, self.at, (self.state, &mut next[0]), by, (step, when))?;
        let mut changes = false;
        match went {
            Outcome::Waits => {
                self.noted.waits.add(by.0);
                return Ok(false);
            }
            Outcome::Gone => return Ok(false),
            Outcome::Mistakes(why) => sink(hosts, Err(Fault::mistake(why, self.number, self.order_by(by)))),
            Outcome::Fails(failure) => sink(hosts, Err(self.fault(failure, Some(by)))),
            Outcome::On(view) => {
                changes = view != self.at.view || next[0].memories != self.state.memories;
                if !changes && step.caller().is_some() {
                    self.noted.calls.add(by.0);
                }
                self.reach(hosts, by, (step, view, asked), next, sink)?;
            }
        }
        self.goes_on.add(self.search.user_of[by.0]);
        self.noted.transitions += 1;
        Ok(changes)
    }

    /// Tells the state that a step comes to, and goes on from there if its answer was asked for just now.
    fn reach(
        &self,
        hosts: &mut Hosts,
        by: By,
        (step, view, asked): (Step, ViewId, u64),
        [next, ahead]: &mut [State; 2],
        sink: &mut Sink,
    ) -> Result<(), Error> {
        let replay = |session: &mut Session| make_again(self.at, &[step], session);
        let after = At { view, replay: &replay };
        let reached = Reached {
            key: self.search.exchanged_key(hosts, &after, next)?,
            view,
            state: next,
            link: Link {
                from: self.number,
                process: by.0,
                news: by.1,
            },
            order: self.order_by(by),
        };
        sink(hosts, Ok(reached));
        if hosts.ahead > 0 && hosts.calls.steps > asked && hosts.is_at(view) {
            self.search.go_ahead(hosts, &after, next, ahead)?;
        }
        Ok(())
    }

    /// Tells what is wrong once none of a user's processes can go on.
    fn end(&self, hosts: &mut Hosts, user: usize, sink: &mut Sink) -> Result<(), Error> {
        let search = self.search;
        if search.asks_at_end {
            if let Some(why) = hosts.told_apart(self.at, search.users[user], true)? {
                sink(hosts, Err(Fault::mistake(why, self.number, self.order())));
            }
        }
        if let Some(failure) = search.end(hosts, self.at, self.state, user, &self.noted.waits)? {
            sink(hosts, Err(self.fault(failure, None)));
        }
        Ok(())
    }

    /// A fault of this state, or of a step from it.
    fn fault(&self, failure: Failure, by: Option<By>) -> Fault {
        let order = by.map_or_else(|| self.order(), |by| self.order_by(by));
        Fault::new(failure, self.number, by, order)
    }

    /// The same whatever the number of threads.
    fn order(&self) -> u64 {
        mixed(self.key.0)
    }

    /// The same of a step.
    fn order_by(&self, (place, news): By) -> u64 {
        mixed(self.key.0 ^ mixed((place as u64) << 32 | u64::from(news.unwrap_or(0))))
    }
}
