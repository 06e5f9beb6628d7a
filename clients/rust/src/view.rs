//! A user's rows: what the user's processes and LWPs are at this moment.

use crate::{sys, Call, EventMask, Signal, SignalSet, StopFlags, WaitStatus};

/// What a user sees: only their own rows.
#[derive(Clone, Debug, PartialEq, Eq)]
pub struct View {
    /// The processes by rising number, zombies too.
    pub processes: Vec<Process>,
    /// The LWPs in order of birth.
    pub lwps: Vec<Lwp>,
}

impl View {
    /// The process with this number.
    pub fn process(&self, pid: u32) -> Option<&Process> {
        self.processes.iter().find(|process| process.pid == pid)
    }

    /// The LWP with this number.
    pub fn lwp(&self, lwp: u32) -> Option<&Lwp> {
        self.lwps.iter().find(|row| row.lwp == lwp)
    }
}

/// Whether a process runs.
#[derive(Clone, Copy, Debug, PartialEq, Eq)]
pub enum State {
    /// It runs.
    Running,
    /// It is stopped for its tracer.
    TraceStop {
        /// The LWP that reports the stop.
        lwp: u32,
        /// The signal of the stop.
        signal: Signal,
        /// Whether a wait has reported it.
        told: bool,
    },
    /// Job control has stopped it.
    JobStop {
        /// The stop signal.
        signal: Signal,
        /// Whether a wait has reported it.
        told: bool,
    },
    /// It has ended with this status, and is still to be collected.
    Zombie(WaitStatus),
}

/// A process.
#[derive(Clone, Copy, Debug, PartialEq, Eq)]
pub struct Process {
    /// Its number.
    pub pid: u32,
    /// Its parent.
    pub parent: u32,
    /// The process that traces it.
    pub tracer: Option<u32>,
    /// Whether it runs.
    pub state: State,
    /// Whether a continuation is to be reported.
    pub continued: bool,
    /// The events that it stops for.
    pub events: EventMask,
    /// The signals that are pending for the whole process.
    pub pending: SignalSet,
}

/// What an LWP is in.
#[derive(Clone, Copy, Debug, PartialEq, Eq)]
pub enum Mode {
    /// It runs in user mode.
    User,
    /// It is in a system call.
    InCall(Call),
    /// It waits until the child of its vfork ends or does an exec.
    Vfork {
        /// The child.
        child: u32,
    },
}

/// A stop at the next turn of an LWP.
#[derive(Clone, Copy, Debug, PartialEq, Eq)]
pub enum Due {
    /// The first stop of a new LWP under PTRACE_LWP.
    Born,
    /// The first stop of a new LWP if the mask has only PTRACE_SCX.
    Begun,
    /// The wait for a vfork's child is over.
    VforkDone,
}

/// An LWP.
#[derive(Clone, Copy, Debug, PartialEq, Eq)]
pub struct Lwp {
    /// Its number.
    pub lwp: u32,
    /// Its process.
    pub pid: u32,
    /// What it is in.
    pub mode: Mode,
    /// Whether PT_SUSPEND holds it.
    pub suspended: bool,
    /// Whether it stops after its next act.
    pub stepping: bool,
    /// The signals that it blocks.
    pub blocked: SignalSet,
    /// The signals that are pending only for it.
    pub pending: SignalSet,
    /// The stop that is due.
    pub due: Option<Due>,
    /// What its last stop was about.
    pub flags: StopFlags,
    /// The new process of its last stop, or 0.
    pub child: u32,
    /// The system call of its last stop, or 0.
    pub code: u32,
}

fn signal(number: u32) -> Signal {
    Signal::from_number(number).expect("a signal from 1 to 31")
}

fn state(raw: &sys::Process) -> State {
    match raw.state {
        0 => State::Running,
        1 => State::TraceStop {
            lwp: raw.lwp,
            signal: signal(raw.signal),
            told: raw.told == 1,
        },
        2 => State::JobStop {
            signal: signal(raw.signal),
            told: raw.told == 1,
        },
        3 => State::Zombie(WaitStatus::from_word(raw.status).expect("a word of wait(2)")),
        state => unreachable!("the library has no state {state}"),
    }
}

impl From<&sys::Process> for Process {
    fn from(raw: &sys::Process) -> Process {
        Process {
            pid: raw.pid,
            parent: raw.parent,
            tracer: (raw.tracer != 0).then_some(raw.tracer),
            state: state(raw),
            continued: raw.continued == 1,
            events: EventMask(raw.events),
            pending: SignalSet(raw.pending),
        }
    }
}

fn mode(raw: &sys::Lwp) -> Mode {
    match raw.mode {
        0 => Mode::User,
        1 => Mode::InCall(Call::from_numbers(raw.call, raw.argument).expect("a call")),
        2 => Mode::Vfork { child: raw.vfork_child },
        mode => unreachable!("the library has no mode {mode}"),
    }
}

fn due(raw: &sys::Lwp) -> Option<Due> {
    match raw.due {
        0 => None,
        1 => Some(Due::Born),
        2 => Some(Due::Begun),
        3 => Some(Due::VforkDone),
        due => unreachable!("the library has no stop {due}"),
    }
}

impl From<&sys::Lwp> for Lwp {
    fn from(raw: &sys::Lwp) -> Lwp {
        Lwp {
            lwp: raw.lwp,
            pid: raw.pid,
            mode: mode(raw),
            suspended: raw.suspended == 1,
            stepping: raw.stepping == 1,
            blocked: SignalSet(raw.blocked),
            pending: SignalSet(raw.pending),
            due: due(raw),
            flags: StopFlags(raw.flags),
            child: raw.child,
            code: raw.code,
        }
    }
}
