//! What the model answers, asked of the library once: a step from a state is answered as it was before, which is proved.

mod way;

use crate::alike::{told_apart, Alike};
use crate::answers::{Answers, Known, Question, ViewId};
use crate::calls::Calls;
use crate::hash::{Hasher, Key};
use crate::memory::Refused;
use crate::model::{killed, Kind, Property, Side};
use crate::process::Answer;
use crate::sessions::Sessions;
use crate::step::Step;
use crate::symmetry::Symmetry;
use std::sync::Arc;
use tracehost::{Caller, Errno, Error, Reply, Session, SignalSet, State, WaitOptions, Which};

/// A question about what the users see.
#[derive(Clone, Copy, Debug, PartialEq, Eq, Hash)]
enum ModelQuestion {
    Step(Step),
    /// Which processes a wait for any is for.
    Children(Caller),
    /// Which of them it may report.
    News(Caller, WaitOptions),
    /// Whether an LWP of the user has a pending signal that it doesn't block.
    Signal(u32, u32),
    /// All that the user sees.
    State(u32),
    /// The user's processes.
    There(u32),
    /// The user's processes that haven't ended.
    Live(u32),
    /// The first property that the user's rows break; at an end, or always.
    Broken(u32, bool),
    /// Whether a side of a property holds of the user's rows.
    Holds(u32, usize, Side),
    /// A property that an exchange of equal processes changes; at an end, or always.
    Apart(u32, bool),
}

impl ModelQuestion {
    /// The number of whom it is about.
    fn number(self) -> u32 {
        match self {
            ModelQuestion::Step(step) => step.user(),
            ModelQuestion::Children(caller) | ModelQuestion::News(caller, _) => caller.pid,
            ModelQuestion::Signal(_, lwp) => lwp,
            ModelQuestion::State(user)
            | ModelQuestion::There(user)
            | ModelQuestion::Live(user)
            | ModelQuestion::Broken(user, _) => user,
            ModelQuestion::Holds(user, property, side) => user + 2 * property as u32 + side as u32,
            ModelQuestion::Apart(user, _) => user,
        }
    }
}

/// A property by its place, and what is wrong.
pub type Broken = Option<(usize, String)>;

#[derive(Clone, Debug, PartialEq, Eq, Hash)]
enum ModelAnswer {
    Step(Answer),
    Numbers(Arc<[u32]>),
    Met(Met),
    Broken(Broken),
    Holds(bool),
    Apart(Option<String>),
}

/// Whether an LWP meets a signal once it is in user mode.
#[derive(Clone, Copy, Debug, PartialEq, Eq, Hash)]
pub enum Met {
    Yes,
    No,
    /// There is no such LWP.
    Gone,
}

/// Where a question is asked: what the users see there, and how a session at the start comes there.
pub struct At<'a> {
    pub view: ViewId,
    pub replay: &'a dyn Fn(&mut Session) -> Result<(), Error>,
}

/// What the hosts of a thread keep.
pub struct Room<'a> {
    pub answers: usize,
    pub sessions: usize,
    /// Which states the thread owns, by what the users see.
    pub owns: Box<dyn Fn(Key) -> bool + Send + 'a>,
    /// Whether steps are made ahead of the search. Else a session is kept at each state that a step comes to.
    pub goes_ahead: bool,
    /// Which processes are equal, if they are exchanged.
    pub symmetry: Option<&'a Symmetry>,
}

/// A session that has made so many steps again is kept.
const LONG_WAY: usize = 32;
/// How many questions are found by who asks, which is faster than by all of the question.
const RECENT: usize = 1 << 10;

/// The sessions and answers of one thread.
pub struct Hosts<'a> {
    users: &'a [u32],
    properties: &'a [Property],
    start: Session,
    start_view: Key,
    /// A session to try steps on, and what the users see in it, if that is known. None if all sessions are kept.
    scratch: Option<Session>,
    scratch_view: Option<Key>,
    spare: Vec<Session>,
    sessions: Sessions,
    answers: Answers<ModelQuestion, ModelAnswer>,
    /// Questions that were asked last, by who asks.
    recent: Vec<Option<(ModelQuestion, Question)>>,
    numbers: Vec<u32>,
    /// The steps from a session that is kept, the last one first.
    steps: Vec<Step>,
    /// Sessions whose states another thread owns are for that thread.
    owns: Box<dyn Fn(Key) -> bool + Send + 'a>,
    goes_ahead: bool,
    /// How many steps are made ahead now.
    pub ahead: usize,
    outgoing: Option<(Key, Session)>,
    symmetry: Option<&'a Symmetry>,
    pub alike: Alike,
    pub calls: Calls,
}

/// What these users see.
fn view_of(session: &Session, users: &[u32], numbers: &mut Vec<u32>) -> Result<Key, Error> {
    let mut hasher = Hasher::new();
    for user in users {
        session.state(*user, numbers)?;
        hasher.numbers(numbers);
    }
    Ok(hasher.key())
}

/// Memory that ran out isn't an answer of the model.
pub fn checked(answer: Answer) -> Result<Answer, Error> {
    match answer {
        Err(Error::Errno(Errno::ENOMEM)) => Err(Error::NoMemory),
        Err(error @ (Error::NoMemory | Error::NoText | Error::TooMany | Error::RecordingFailed)) => Err(error),
        answer => Ok(answer),
    }
}

impl<'a> Hosts<'a> {
    pub fn new(
        start: &Session,
        users: &'a [u32],
        properties: &'a [Property],
        room: Room<'a>,
    ) -> Result<Hosts<'a>, Error> {
        Ok(Hosts {
            users,
            properties,
            start: start.try_clone()?,
            start_view: view_in(start, users)?,
            scratch: None,
            scratch_view: None,
            spare: Vec::new(),
            sessions: Sessions::new(room.sessions)?,
            answers: Answers::new(room.answers)?,
            recent: vec![None; RECENT],
            numbers: Vec::with_capacity(256),
            steps: Vec::new(),
            owns: room.owns,
            goes_ahead: room.goes_ahead,
            ahead: 0,
            outgoing: None,
            symmetry: room.symmetry,
            alike: Alike::default(),
            calls: Calls::default(),
        })
    }

    /// The search has come so deep. What is further ahead may never be asked for, since a failure ends it.
    pub fn come_deep(&mut self, depth: usize) {
        if self.goes_ahead {
            self.ahead = depth / 4;
        }
    }

    /// What the users see in some states, before questions about them. What was seen before may be forgotten.
    pub fn seen(&mut self, views: impl Iterator<Item = Key> + Clone) -> Result<Vec<ViewId>, Refused> {
        if self.answers.is_full() {
            self.answers.forget()?;
            self.recent.fill(None);
        }
        self.answers.views(views)
    }

    /// Frees all that can be made again.
    pub fn free(&mut self) {
        (self.scratch, self.scratch_view, self.spare) = (None, None, Vec::new());
        self.alike = Alike::default();
        self.sessions.free();
        let _ = self.answers.forget(); // all but a little is free
    }

    pub fn key(&self, view: ViewId) -> Key {
        self.answers.key(view)
    }

    /// A session that another thread has brought to a state of this one.
    pub fn offer(&mut self, view: Key, session: Session) {
        let left = match self.sessions.get(view) {
            Some(_) => Some(session),
            None => self.sessions.put(view, session),
        };
        self.spare.extend(left);
    }

    /// The session that has come to a state of another thread by the last step.
    pub fn take_outgoing(&mut self) -> Option<(Key, Session)> {
        self.outgoing.take()
    }

    /// The answer to a step, and what the users see after it. Who asks is a number, which for one step is mostly the same.
    pub fn step(&mut self, at: &At, step: Step, who: usize) -> Result<(&Answer, ViewId), Error> {
        let known = self.known(at, ModelQuestion::Step(step), who)?;
        match self.answers.answer(known) {
            ModelAnswer::Step(answer) => Ok((answer, known.after)),
            told => unreachable!("{told:?}"),
        }
    }

    /// Whether the answer to a step is known.
    pub fn is_known(&mut self, at: &At, step: Step, who: usize) -> Result<bool, Refused> {
        let question = self.question(&ModelQuestion::Step(step), who)?;
        Ok(self.answers.get(at.view, question).is_some())
    }

    fn question(&mut self, ask: &ModelQuestion, who: usize) -> Result<Question, Refused> {
        let recent = &mut self.recent[who % RECENT];
        match recent {
            Some((known, question)) if known == ask => Ok(*question),
            _ => {
                let question = self.answers.question(ask)?;
                *recent = Some((*ask, question));
                Ok(question)
            }
        }
    }

    /// The processes that a wait for any is for.
    pub fn children(&mut self, at: &At, caller: Caller) -> Result<Arc<[u32]>, Error> {
        self.listed(at, ModelQuestion::Children(caller))
    }

    /// Those that it may report.
    pub fn news(&mut self, at: &At, caller: Caller, options: WaitOptions) -> Result<Arc<[u32]>, Error> {
        self.listed(at, ModelQuestion::News(caller, options))
    }

    /// The user's processes that haven't ended.
    pub fn live(&mut self, at: &At, user: u32) -> Result<Arc<[u32]>, Error> {
        self.listed(at, ModelQuestion::Live(user))
    }

    fn listed(&mut self, at: &At, ask: ModelQuestion) -> Result<Arc<[u32]>, Error> {
        match self.told(at, ask)? {
            ModelAnswer::Numbers(numbers) => Ok(Arc::clone(numbers)),
            told => unreachable!("{told:?}"),
        }
    }

    /// All that the user sees, by `tracehost_state`.
    pub fn state(&mut self, at: &At, user: u32) -> Result<Arc<[u32]>, Error> {
        self.listed(at, ModelQuestion::State(user))
    }

    /// The user's processes, zombies too.
    pub fn there(&mut self, at: &At, user: u32) -> Result<Arc<[u32]>, Error> {
        self.listed(at, ModelQuestion::There(user))
    }

    /// Whether an LWP meets a signal once it is in user mode.
    pub fn signal(&mut self, at: &At, user: u32, lwp: u32) -> Result<Met, Error> {
        match self.told(at, ModelQuestion::Signal(user, lwp))? {
            ModelAnswer::Met(met) => Ok(*met),
            told => unreachable!("{told:?}"),
        }
    }

    /// The first property that the user's rows break.
    pub fn broken(&mut self, at: &At, user: u32, at_end: bool) -> Result<&Broken, Error> {
        match self.told(at, ModelQuestion::Broken(user, at_end))? {
            ModelAnswer::Broken(broken) => Ok(broken),
            told => unreachable!("{told:?}"),
        }
    }

    /// Whether a side of a property holds of the user's rows.
    pub fn holds(&mut self, at: &At, user: u32, property: usize, side: Side) -> Result<bool, Error> {
        match self.told(at, ModelQuestion::Holds(user, property, side))? {
            ModelAnswer::Holds(holds) => Ok(*holds),
            told => unreachable!("{told:?}"),
        }
    }

    /// A property that an exchange of the user's equal processes changes, in words.
    pub fn told_apart(&mut self, at: &At, user: u32, at_end: bool) -> Result<Option<String>, Error> {
        if self.symmetry.is_none() {
            return Ok(None);
        }
        match self.told(at, ModelQuestion::Apart(user, at_end))? {
            ModelAnswer::Apart(why) => Ok(why.clone()),
            told => unreachable!("{told:?}"),
        }
    }

    fn told(&mut self, at: &At, ask: ModelQuestion) -> Result<&ModelAnswer, Error> {
        let known = self.known(at, ask, ask.number() as usize)?;
        Ok(self.answers.answer(known))
    }

    fn known(&mut self, at: &At, ask: ModelQuestion, who: usize) -> Result<Known, Error> {
        let question = self.question(&ask, who)?;
        if let Some(known) = self.answers.get(at.view, question) {
            return Ok(known);
        }
        let (told, after) = self.find_out(at, ask)?;
        Ok(self.answers.put(at.view, question, &told, after)?)
    }

    /// The answer, and what the users see after it.
    fn find_out(&mut self, at: &At, ask: ModelQuestion) -> Result<(ModelAnswer, Key), Error> {
        let told = match ask {
            ModelQuestion::Step(step) => {
                let (answer, after) = self.make(at, step)?;
                return Ok((ModelAnswer::Step(answer), after));
            }
            ModelQuestion::Children(caller) => {
                let rows = self.session_at(at)?.view(caller.user)?.processes;
                let own = rows
                    .iter()
                    .filter(|row| row.parent == caller.pid || row.tracer == Some(caller.pid));
                ModelAnswer::Numbers(own.map(|row| row.pid).collect())
            }
            ModelQuestion::News(caller, options) => ModelAnswer::Numbers(self.find_news(at, caller, options)?.into()),
            ModelQuestion::Signal(user, lwp) => ModelAnswer::Met(self.find_signal(at, user, lwp)?),
            ModelQuestion::Live(user) => {
                let rows = self.session_at(at)?.view(user)?.processes;
                let live = rows.iter().filter(|row| !matches!(row.state, State::Zombie(_)));
                ModelAnswer::Numbers(live.map(|row| row.pid).collect())
            }
            ModelQuestion::State(user) => {
                let mut state = Vec::new();
                self.session_at(at)?.state(user, &mut state)?;
                ModelAnswer::Numbers(state.into())
            }
            ModelQuestion::There(user) => {
                let rows = self.session_at(at)?.view(user)?.processes;
                ModelAnswer::Numbers(rows.iter().map(|row| row.pid).collect())
            }
            ModelQuestion::Broken(user, at_end) => ModelAnswer::Broken(self.find_broken(at, user, at_end)?),
            ModelQuestion::Holds(user, property, side) => {
                let property = &self.properties[property];
                ModelAnswer::Holds(property.holds(&self.session_at(at)?.view(user)?, side))
            }
            ModelQuestion::Apart(user, at_end) => ModelAnswer::Apart(self.find_told_apart(at, user, at_end)?),
        };
        Ok((told, self.answers.key(at.view)))
    }

    /// Makes a step on the scratch session.
    fn make(&mut self, at: &At, step: Step) -> Result<(Answer, Key), Error> {
        let mut scratch = self.come_to(at)?;
        self.calls.steps += 1;
        let answer = checked(step.make(&mut scratch))?;
        let before = self.answers.key(at.view);
        let after = match answer {
            Err(_) | Ok(Reply::Nothing) => before, // nothing has changed
            _ => view_of(&scratch, self.users, &mut self.numbers)?,
        };
        if after != before && self.is_wanted(after) {
            self.keep(after, scratch);
        } else {
            self.scratch = Some(scratch);
            self.scratch_view = Some(after);
        }
        Ok((answer, after))
    }

    fn find_news(&mut self, at: &At, caller: Caller, options: WaitOptions) -> Result<Vec<u32>, Error> {
        let mut news = Vec::new();
        for pid in self.children(at, caller)?.iter() {
            let wait = Step::Wait4(caller, Which::Process(*pid), options);
            if let (Ok(Reply::Status { .. }), _) = self.step(at, wait, *pid as usize)? {
                news.push(*pid);
            }
        }
        Ok(news)
    }

    fn find_signal(&mut self, at: &At, user: u32, lwp: u32) -> Result<Met, Error> {
        let view = self.session_at(at)?.view(user)?;
        let Some(row) = view.lwp(lwp) else {
            return Ok(Met::Gone);
        };
        let meets = |pending: SignalSet| pending.iter().any(|signal| !row.blocked.contains(signal));
        let shared = view
            .process(row.pid)
            .map_or(SignalSet::empty(), |process| process.pending);
        Ok(if meets(row.pending) || meets(shared) {
            Met::Yes
        } else {
            Met::No
        })
    }

    fn find_broken(&mut self, at: &At, user: u32, at_end: bool) -> Result<Broken, Error> {
        let properties = self.properties;
        let view = self.session_at(at)?.view(user)?;
        let broken = properties.iter().enumerate().find_map(|(place, property)| {
            let checked = match &property.kind {
                Kind::Always(check) if !at_end => check(&view),
                Kind::EndedBySignal if !at_end => killed(&view),
                Kind::AtEnd(check) if at_end => check(&view),
                _ => Ok(()),
            };
            checked.err().map(|wrong| (place, wrong))
        });
        Ok(broken)
    }

    fn find_told_apart(&mut self, at: &At, user: u32, at_end: bool) -> Result<Option<String>, Error> {
        let (properties, symmetry) = (self.properties, self.symmetry);
        let place = self.users.iter().position(|known| *known == user);
        let view = self.session_at(at)?.view(user)?;
        let known = symmetry.zip(place);
        Ok(known.and_then(|(symmetry, place)| told_apart(symmetry, place, (properties, at_end), &view)))
    }
}

/// What these users see in a session.
pub fn view_in(session: &Session, users: &[u32]) -> Result<Key, Error> {
    view_of(session, users, &mut Vec::new())
}
