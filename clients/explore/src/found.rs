//! What a search has found.

use crate::calls::Calls;
use crate::coverage::Vacuous;
use crate::hosts::checked;
use crate::model::Model;
use crate::process::{Memory, Next, Place};
use crate::search::Failure;
use crate::step::{answer_text, with_news, Step};
use std::collections::HashMap;
use std::fmt;
use std::fs;
use std::io;
use std::path::{Path, PathBuf};
use tracehost::{Error, Session};

/// Which process goes on at each step, and which news its wait for any reports.
pub type Route = Vec<(usize, Option<u32>)>;

/// A step of a trace.
#[derive(Clone, Debug, PartialEq, Eq)]
pub struct Taken {
    /// The process's name.
    pub process: String,
    /// Its step.
    pub step: Step,
    /// The answer, in words.
    pub answer: String,
}

impl fmt::Display for Taken {
    fn fmt(&self, f: &mut fmt::Formatter<'_>) -> fmt::Result {
        write!(f, "{}: {} -> {}", self.process, self.step, self.answer)
    }
}

/// Why a search ends before all states were seen.
#[derive(Clone, Copy, Debug, PartialEq, Eq)]
#[non_exhaustive]
pub enum Unfinished {
    /// There are more states than [`Options::limit`](crate::Options::limit).
    Limit,
    /// They take more memory than [`Options::memory`](crate::Options::memory).
    Memory,
    /// The system has refused memory.
    Refused,
}

impl fmt::Display for Unfinished {
    fn fmt(&self, f: &mut fmt::Formatter<'_>) -> fmt::Result {
        f.pad(match self {
            Unfinished::Limit => "the limit of states is reached",
            Unfinished::Memory => "the limit of memory is reached",
            Unfinished::Refused => "the system has refused memory",
        })
    }
}

/// What a search has found.
pub struct Found<'m> {
    model: &'m Model,
    /// What is wrong at the end of the trace.
    pub failure: Option<Failure>,
    /// A shortest way to the failure.
    pub trace: Vec<Taken>,
    route: Route,
    is_late: bool,
    /// Different states; of users that were searched by themselves the sum.
    pub states: u64,
    /// Steps from them.
    pub transitions: u64,
    /// The steps of the longest way among the shortest ones to each state.
    pub depth: usize,
    /// Whether all states were seen, or a failure.
    pub is_finished: bool,
    /// What says nothing of the pass, if all interleavings have passed.
    pub vacuous: Vec<Vacuous>,
    /// Why not, if not.
    pub unfinished: Option<Unfinished>,
    /// Calls of the library.
    pub calls: Calls,
    /// The most bytes of the set of states and the front, without sessions and answers.
    pub bytes: usize,
    /// How long it took.
    pub seconds: f64,
}

impl<'m> Found<'m> {
    pub(crate) fn new(model: &'m Model) -> Found<'m> {
        Found {
            model,
            failure: None,
            trace: Vec::new(),
            route: Vec::new(),
            is_late: false,
            states: 0,
            transitions: 0,
            depth: 0,
            is_finished: true,
            vacuous: Vec::new(),
            unfinished: None,
            calls: Calls::default(),
            bytes: 0,
            seconds: 0.0,
        }
    }

    pub(crate) fn add(&mut self, states: u64, transitions: u64, depth: usize, unfinished: Option<Unfinished>) {
        self.states += states;
        self.transitions += transitions;
        self.depth = self.depth.max(depth);
        self.is_finished &= unfinished.is_none();
        self.unfinished = self.unfinished.or(unfinished);
    }

    /// Of the failures of several users the one with the shortest way is told: of those that are found only once all states were
    /// seen if there are no others, as if the users were searched together.
    pub(crate) fn fail(&mut self, failure: Failure, route: Route, is_late: bool) {
        let rank = (is_late, route.len());
        if self.failure.is_none() || rank < (self.is_late, self.route.len()) {
            (self.failure, self.route, self.is_late) = (Some(failure), route, is_late);
        }
    }

    pub(crate) fn make_trace(&mut self) -> Result<(), Error> {
        self.trace = self.replay(&mut Session::with_settings(self.model.settings)?)?;
        Ok(())
    }

    /// Whether all interleavings have passed: all states were seen, and there was no failure.
    pub fn passed(&self) -> bool {
        self.is_finished && self.failure.is_none()
    }

    /// A bound of the probability that a state was taken for another: that two of the keys, of 128 bits, are the same. A state
    /// has two: of what the users see, and of that with the places of the processes.
    pub fn collision(&self) -> f64 {
        let states = self.states as f64;
        states * states * 2f64.powi(-128)
    }

    /// Sets the world up in a new session, and goes the route.
    fn replay(&self, session: &mut Session) -> Result<Vec<Taken>, Error> {
        let processes = (self.model.world)(session)?;
        let mut places: Vec<Place> = processes.iter().map(|process| process.begin()).collect();
        let mut memories: HashMap<u32, Memory> = HashMap::new();
        let mut trace = Vec::new();
        for (process, news) in &self.route {
            let (place, process) = (&mut places[*process], &processes[*process]);
            let memory = memories.entry(process.user()).or_default();
            let Next::Step(step, _) = process.next(place, memory) else {
                unreachable!("{} has gone on from here before", process.name())
            };
            let step = with_news(step, *news);
            let answer = checked(step.make(session))?;
            trace.push(Taken {
                process: process.name().to_owned(),
                step,
                answer: answer_text(&answer),
            });
            let _ = process.answered(place, memory, &answer); // the last one is the failure
        }
        Ok(trace)
    }

    /// Writes the trace, with the steps that set the world up, as a scenario, and the lines of its answers beside it, with the
    /// ending `.out`: `tracehost race.json --expect race.out` replays it. Returns the second path. Each file is
    /// replaced as a whole, or not at all.
    ///
    /// # Errors
    ///
    /// Those of the files; `InvalidInput` if there is no failure, or if the scenario's name ends in `.out`.
    pub fn save(&self, scenario: impl AsRef<Path>) -> io::Result<PathBuf> {
        if self.failure.is_none() {
            return Err(io::Error::new(
                io::ErrorKind::InvalidInput,
                "there is no failure, and no trace to save",
            ));
        }
        let scenario = scenario.as_ref();
        let lines = scenario.with_extension("out");
        if lines == scenario {
            return Err(io::Error::new(
                io::ErrorKind::InvalidInput,
                "the lines would have the scenario's name",
            ));
        }
        let (new_scenario, new_lines) = (unfinished(scenario), unfinished(&lines));
        let saved = self.record(&new_scenario, &new_lines).and_then(|()| {
            fs::rename(&new_lines, &lines)?;
            fs::rename(&new_scenario, scenario)
        });
        if saved.is_err() {
            let _ = (fs::remove_file(new_scenario), fs::remove_file(new_lines));
        }
        saved.map(|()| lines)
    }

    fn record(&self, scenario: &Path, lines: &Path) -> io::Result<()> {
        let mut session = Session::with_settings(self.model.settings).map_err(io::Error::other)?;
        session.record(scenario, Some(lines))?;
        match self.replay(&mut session) {
            Ok(trace) if trace == self.trace => Ok(()),
            Ok(_) => Err(io::Error::other("the world was set up otherwise than before")),
            Err(error) => Err(match session.record_error() {
                Some(error) => io::Error::new(error.kind(), error.to_string()),
                None => io::Error::other(error),
            }),
        }
    }
}

/// A file beside this one, until it is whole.
pub(crate) fn unfinished(path: &Path) -> PathBuf {
    let mut name = path.file_name().unwrap_or_default().to_owned();
    name.push(format!(".{}", std::process::id()));
    path.with_file_name(name)
}

impl fmt::Display for Found<'_> {
    fn fmt(&self, f: &mut fmt::Formatter<'_>) -> fmt::Result {
        if let Some(failure) = &self.failure {
            write!(
                f,
                "{}: {}, after {} steps",
                failure.property,
                failure.why,
                self.trace.len()
            )?;
            return self
                .trace
                .iter()
                .enumerate()
                .try_for_each(|(place, taken)| write!(f, "\n{:4} {taken}", place + 1));
        }
        let (states, transitions) = (self.states, self.transitions);
        match self.unfinished {
            None => write!(
                f,
                "all interleavings passed: {states} states, {transitions} transitions"
            )
            .and_then(|()| self.vacuous.iter().try_for_each(|vacuous| write!(f, "\n{vacuous}"))),
            Some(why) => write!(
                f,
                "not all states were seen: {states} states, {transitions} transitions, and no failure among them: {why}"
            ),
        }
    }
}
