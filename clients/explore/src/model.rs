//! What is searched: a world, its processes, and what has to hold.

use crate::process::Process;
use std::ffi::OsString;
use tracehost::{Error, Session, Settings, State, View, WaitStatus};

type World = dyn Fn(&mut Session) -> Result<Vec<Box<dyn Process>>, Error> + Send + Sync;
type Check = dyn Fn(&View) -> Result<(), String> + Send + Sync;
type Holds = Box<dyn Fn(&View) -> bool + Send + Sync>;

/// What has to hold.
pub struct Property {
    pub(crate) name: String,
    pub(crate) kind: Kind,
}

pub(crate) enum Kind {
    Deadlock,
    Stuck,
    NoProgress,
    EndedBySignal,
    /// In each state.
    Always(Box<Check>),
    /// In each state in which none of a user's processes can go on.
    AtEnd(Box<Check>),
    /// From each state another.
    CanReach(Holds),
    /// From each state of the first kind one of the second.
    LeadsTo(Holds, Holds),
}

/// What has to be reachable, and from where.
#[derive(Clone, Copy, Debug, PartialEq, Eq, Hash)]
pub(crate) enum Side {
    Left,
    Right,
}

impl Property {
    /// What a user's rows have to be in each state. The function returns the same for the same rows; `Err` says what is wrong.
    pub fn always(
        name: impl Into<String>,
        check: impl Fn(&View) -> Result<(), String> + Send + Sync + 'static,
    ) -> Property {
        Property {
            name: name.into(),
            kind: Kind::Always(Box::new(check)),
        }
    }

    /// What a user's rows have to be once none of the user's processes can go on.
    pub fn at_end(
        name: impl Into<String>,
        check: impl Fn(&View) -> Result<(), String> + Send + Sync + 'static,
    ) -> Property {
        Property {
            name: name.into(),
            kind: Kind::AtEnd(Box::new(check)),
        }
    }

    /// From each state one can be reached in which this holds of a user's rows: some way leads there, though not each (AG EF).
    pub fn can_reach(name: impl Into<String>, holds: impl Fn(&View) -> bool + Send + Sync + 'static) -> Property {
        Property {
            name: name.into(),
            kind: Kind::CanReach(Box::new(holds)),
        }
    }

    /// From each state in which the first holds of a user's rows, one can be reached in which the second does (AG (p -> EF q)).
    pub fn leads_to(
        name: impl Into<String>,
        first: impl Fn(&View) -> bool + Send + Sync + 'static,
        second: impl Fn(&View) -> bool + Send + Sync + 'static,
    ) -> Property {
        Property {
            name: name.into(),
            kind: Kind::LeadsTo(Box::new(first), Box::new(second)),
        }
    }

    /// Whether a side of it holds. What always has to be reachable has to be from anywhere.
    pub(crate) fn holds(&self, view: &View, side: Side) -> bool {
        match (&self.kind, side) {
            (Kind::CanReach(holds), Side::Right) | (Kind::LeadsTo(_, holds), Side::Right) => holds(view),
            (Kind::LeadsTo(holds, _), Side::Left) => holds(view),
            _ => true,
        }
    }
}

/// A user's processes end, or one of them can go on. One whose process or LWP is gone has ended too.
pub fn deadlock() -> Property {
    Property {
        name: "deadlock".to_owned(),
        kind: Kind::Deadlock,
    }
}

/// From each state each process that waits can still come to a state in which it goes on, or has ended. This is told apart from a
/// [`deadlock`]: others go on meanwhile. Some way has to lead there, not each (AG EF): nobody is promised a turn.
pub fn stuck() -> Property {
    Property {
        name: "stuck".to_owned(),
        kind: Kind::Stuck,
    }
}

/// No process goes round for ever with calls that change nothing. It fails in a state from which a process never ends, none of
/// its steps ever changes what a user sees or the memory, and calls of it never cease. Others may go on. One that only computes
/// is no failure; nor is a loop in which something changes.
pub fn no_progress() -> Property {
    Property {
        name: "no_progress".to_owned(),
        kind: Kind::NoProgress,
    }
}

/// A trace stop is reported by a wait, before none of the user's processes can go on.
pub fn unreported_stop() -> Property {
    Property::at_end("unreported_stop", |view| {
        view.processes.iter().try_for_each(|row| match row.state {
            State::TraceStop {
                signal, told: false, ..
            } => Err(format!(
                "no wait has reported the stop of {} by {signal}, and none will",
                row.pid
            )),
            _ => Ok(()),
        })
    })
}

/// No process is ended by a signal.
pub fn ended_by_signal() -> Property {
    Property {
        name: "ended_by_signal".to_owned(),
        kind: Kind::EndedBySignal,
    }
}

/// The process of the rows that a signal has ended, in words.
pub(crate) fn killed(view: &View) -> Result<(), String> {
    view.processes.iter().try_for_each(|row| match row.state {
        State::Zombie(WaitStatus::Signaled(signal)) => Err(format!("{} was ended by {signal}", row.pid)),
        _ => Ok(()),
    })
}

/// What is searched.
pub struct Model {
    pub(crate) name: String,
    pub(crate) settings: Settings,
    pub(crate) world: Box<World>,
    pub(crate) properties: Vec<Property>,
    pub(crate) parameters: Vec<String>,
    pub(crate) arguments: Option<Vec<OsString>>,
}

impl Model {
    /// A model of this name. The function sets the world up by steps of a new session, and returns the processes that go on
    /// from there. It is called again for each trace, and does the same each time. What has to hold is that there is no
    /// [`deadlock`], that nothing is [`stuck`], and [`no_progress`].
    pub fn new(
        name: impl Into<String>,
        world: impl Fn(&mut Session) -> Result<Vec<Box<dyn Process>>, Error> + Send + Sync + 'static,
    ) -> Model {
        Model {
            name: name.into(),
            settings: Settings::default(),
            world: Box::new(world),
            properties: vec![deadlock(), stuck(), no_progress()],
            parameters: Vec::new(),
            arguments: None,
        }
    }

    /// A session with the world, and its processes.
    ///
    /// # Errors
    ///
    /// Those of the world's function, and `NoMemory`.
    pub fn set_up(&self) -> Result<(Session, Vec<Box<dyn Process>>), Error> {
        let mut session = Session::with_settings(self.settings)?;
        let processes = (self.world)(&mut session)?;
        Ok((session, processes))
    }

    /// With these settings of the session.
    #[must_use]
    pub fn settings(mut self, settings: Settings) -> Model {
        self.settings = settings;
        self
    }

    /// What else the model depends on, such as the environment or a file: a search goes on only from a checkpoint that has the
    /// same ([`Options::resume`](crate::Options::resume)).
    #[must_use]
    pub fn parameters(mut self, text: impl Into<String>) -> Model {
        self.parameters.push(text.into());
        self
    }

    /// Which arguments of the program the model depends on, for checkpoints. Without this call all of them count.
    #[must_use]
    pub fn arguments(mut self, words: impl IntoIterator<Item = impl Into<OsString>>) -> Model {
        self.arguments = Some(words.into_iter().map(Into::into).collect());
        self
    }

    /// With one more property.
    #[must_use]
    pub fn property(mut self, property: Property) -> Model {
        self.properties.push(property);
        self
    }

    /// With these properties only.
    #[must_use]
    pub fn properties(mut self, properties: impl IntoIterator<Item = Property>) -> Model {
        self.properties = properties.into_iter().collect();
        self
    }
}
