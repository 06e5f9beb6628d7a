//! A step of the model as a value.

use std::fmt;
use tracehost::{Act, Caller, Disposition, Error, Reply, Request, Rule, Session, Signal, WaitOptions, Which};

/// A step of the model: a call of a process, or a turn of an LWP.
#[derive(Clone, Copy, Debug, PartialEq, Eq, Hash)]
pub enum Step {
    /// A turn of an LWP: the user, the LWP, and what it does.
    Turn(u32, u32, Act),
    /// ptrace(2), with the target.
    Ptrace(Caller, Request, u32),
    /// wait4(2). With [`Which::Any`] a search goes on with each process that has news: FreeBSD promises no order.
    Wait4(Caller, Which, WaitOptions),
    /// kill(2).
    Kill(Caller, Which, Option<Signal>),
    /// sigaction(2).
    Sigaction(Caller, Signal, Disposition),
    /// Waits for any child, and gives a trace stop to the caller's handlers.
    Handle(Caller),
    /// Adds a stop handler.
    Install(Caller, &'static [Rule]),
    /// Lists the user's processes.
    List(Caller),
    /// Makes a process of the user.
    Spawn(u32),
}

impl Step {
    /// Makes the step.
    ///
    /// # Errors
    ///
    /// Those of the session's call.
    pub fn make(self, session: &mut Session) -> Result<Reply, Error> {
        match self {
            Step::Turn(user, lwp, act) => session.turn(user, lwp, act),
            Step::Ptrace(caller, request, target) => session.ptrace(caller, request, target),
            Step::Wait4(caller, which, options) => session.wait4(caller, which, options),
            Step::Kill(caller, which, signal) => session.kill(caller, which, signal).map(|()| Reply::Done),
            Step::Sigaction(caller, signal, disposition) => {
                session.sigaction(caller, signal, disposition).map(|()| Reply::Done)
            }
            Step::Handle(caller) => session.handle(caller),
            Step::Install(caller, rules) => session.install(caller, rules).map(|()| Reply::Done),
            Step::List(caller) => session.list(caller).map(Reply::Pids),
            Step::Spawn(user) => session.spawn(user).map(Reply::New),
        }
    }

    /// Whose step it is.
    pub fn user(self) -> u32 {
        match (self, self.caller()) {
            (_, Some(caller)) => caller.user,
            (Step::Turn(user, ..) | Step::Spawn(user), _) => user,
            (step, None) => unreachable!("{step} is a call"),
        }
    }

    /// The process that makes the call; none for turns and [`Step::Spawn`].
    pub fn caller(self) -> Option<Caller> {
        match self {
            Step::Turn(..) | Step::Spawn(_) => None,
            Step::Ptrace(caller, ..)
            | Step::Wait4(caller, ..)
            | Step::Kill(caller, ..)
            | Step::Sigaction(caller, ..)
            | Step::Handle(caller)
            | Step::Install(caller, ..)
            | Step::List(caller) => Some(caller),
        }
    }
}

fn which(which: Which) -> String {
    match which {
        Which::Any => "-1".to_owned(),
        Which::Process(pid) => pid.to_string(),
    }
}

impl fmt::Display for Step {
    fn fmt(&self, f: &mut fmt::Formatter<'_>) -> fmt::Result {
        match self {
            Step::Turn(_, lwp, act) => write!(f, "{lwp} {act:?}"),
            Step::Ptrace(caller, request, target) => write!(f, "{} ptrace({request:?}, {target})", caller.pid),
            Step::Wait4(caller, of, options) => match options.is_empty() {
                true => write!(f, "{} wait4({})", caller.pid, which(*of)),
                false => write!(f, "{} wait4({}, {options})", caller.pid, which(*of)),
            },
            Step::Kill(caller, of, signal) => {
                let signal = signal.map_or("0", Signal::name);
                write!(f, "{} kill({}, {signal})", caller.pid, which(*of))
            }
            Step::Sigaction(caller, signal, action) => write!(f, "{} sigaction({signal}, {action:?})", caller.pid),
            Step::Handle(caller) => write!(f, "{} handle()", caller.pid),
            Step::Install(caller, rules) => write!(f, "{} install({} rules)", caller.pid, rules.len()),
            Step::List(caller) => write!(f, "{} list()", caller.pid),
            Step::Spawn(user) => write!(f, "{user} spawn()"),
        }
    }
}

/// A wait for any child is one for the process whose news it reports.
pub(crate) fn with_news(step: Step, news: Option<u32>) -> Step {
    match (step, news) {
        (Step::Wait4(caller, Which::Any, options), Some(pid)) => Step::Wait4(caller, Which::Process(pid), options),
        (step, _) => step,
    }
}

/// What a step was answered, as a trace shows it.
pub(crate) fn answer_text(answer: &Result<Reply, Error>) -> String {
    match answer {
        Ok(Reply::Status { pid, status }) => format!("{pid} {status}"),
        Ok(Reply::Stopped { signal, flags, .. }) if flags.is_empty() => format!("stopped {signal}"),
        Ok(Reply::Stopped { signal, flags, .. }) => format!("stopped {signal} {flags}"),
        Ok(Reply::Caught(signal)) => format!("caught {signal}"),
        Ok(Reply::Ended(status)) => format!("ended: {status}"),
        Ok(reply) => reply.to_string(),
        Err(Error::Errno(errno)) => errno.name().to_owned(),
        Err(Error::Held) => "held".to_owned(),
        Err(error) => error.to_string(),
    }
}
