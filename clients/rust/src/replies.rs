//! What is answered.

use crate::{sys, Decision, Errno, Error, EventMask, Signal, SignalSet, StopFlags};
use std::fmt;

/// What a wait status reports of a process, as in wait(2).
///
/// ```
/// use tracehost::{Signal, WaitStatus};
///
/// assert_eq!(WaitStatus::from_word(3 << 8), Some(WaitStatus::Exited(3)));
/// assert_eq!(WaitStatus::from_word(17 << 8 | 0o177), Some(WaitStatus::Stopped(Signal::SIGSTOP)));
/// assert_eq!(WaitStatus::Signaled(Signal::SIGKILL).word(), 9);
/// assert_eq!(WaitStatus::Stopped(Signal::SIGSTOP).to_string(), "stopped SIGSTOP");
/// ```
#[derive(Clone, Copy, Debug, PartialEq, Eq, Hash)]
pub enum WaitStatus {
    /// It has exited with this code.
    Exited(u8),
    /// This signal has ended it.
    Signaled(Signal),
    /// This signal has stopped it.
    Stopped(Signal),
    /// SIGCONT has continued it.
    Continued,
}

impl WaitStatus {
    const STOPPED: u32 = 0o177;
    const CONTINUED: u32 = 0x13;

    /// The word that FreeBSD's wait(2) stores.
    pub const fn word(self) -> u32 {
        match self {
            WaitStatus::Exited(code) => (code as u32) << 8,
            WaitStatus::Signaled(signal) => signal.number(),
            WaitStatus::Stopped(signal) => signal.number() << 8 | WaitStatus::STOPPED,
            WaitStatus::Continued => WaitStatus::CONTINUED,
        }
    }

    /// The status of a word of FreeBSD's wait(2); `None` if it is none.
    pub const fn from_word(word: u32) -> Option<WaitStatus> {
        let high = word >> 8;
        match word & 0xff {
            0 if high <= u8::MAX as u32 => Some(WaitStatus::Exited(high as u8)),
            WaitStatus::STOPPED => match Signal::from_number(high) {
                Some(signal) => Some(WaitStatus::Stopped(signal)),
                None => None,
            },
            WaitStatus::CONTINUED if high == 0 => Some(WaitStatus::Continued),
            low if high == 0 => match Signal::from_number(low) {
                Some(signal) => Some(WaitStatus::Signaled(signal)),
                None => None,
            },
            _ => None,
        }
    }
}

impl fmt::Display for WaitStatus {
    fn fmt(&self, f: &mut fmt::Formatter<'_>) -> fmt::Result {
        match self {
            WaitStatus::Exited(code) => write!(f, "exited {code}"),
            WaitStatus::Signaled(signal) => write!(f, "signaled {signal}"),
            WaitStatus::Stopped(signal) => write!(f, "stopped {signal}"),
            WaitStatus::Continued => f.write_str("continued"),
        }
    }
}

// tools/format replies
/// A process was made, or an LWP of one.
#[derive(Clone, Copy, Debug, PartialEq, Eq, Hash)]
pub struct New {
    /// The process.
    pub pid: u32,
    /// The LWP.
    pub lwp: u32,
}

impl fmt::Display for New {
    #[rustfmt::skip]
    fn fmt(&self, f: &mut fmt::Formatter<'_>) -> fmt::Result {
        write!(f, "new {} {}", self.pid, self.lwp)
    }
}

/// The fields of FreeBSD's `struct ptrace_lwpinfo` that the model has.
#[derive(Clone, Copy, Debug, PartialEq, Eq, Hash)]
pub struct LwpInfo {
    /// `pl_lwpid`: the LWP.
    pub lwp: u32,
    /// `pl_event`: whether this LWP reports the stop: PL_EVENT_SIGNAL; else `pl_event` is PL_EVENT_NONE.
    pub reports: bool,
    /// `pl_flags`: what the stop is about.
    pub flags: StopFlags,
    /// `pl_sigmask`: the signals that it blocks.
    pub blocked: SignalSet,
    /// `pl_siglist`: the signals that are pending for it.
    pub pending: SignalSet,
    /// `pl_child_pid`: the new process of a fork, or 0.
    pub child: u32,
    /// `pl_syscall_code`: the number of the system call, or 0.
    pub code: u32,
}

impl fmt::Display for LwpInfo {
    #[rustfmt::skip]
    fn fmt(&self, f: &mut fmt::Formatter<'_>) -> fmt::Result {
        write!(
            f, "info {} {} flags={} mask={} pending={} child={} code={}",
            self.lwp, if self.reports { "SIGNAL" } else { "NONE" }, self.flags, self.blocked,
            self.pending, self.child, self.code
        )
    }
}

/// A trace stop that the caller's handlers were asked about, and what was done.
#[derive(Clone, Copy, Debug, PartialEq, Eq, Hash)]
pub struct Handled {
    /// The process.
    pub pid: u32,
    /// What a wait reports of it.
    pub status: WaitStatus,
    /// The LWP.
    pub lwp: u32,
    /// The signal of the stop.
    pub signal: Signal,
    /// What the stop is about.
    pub flags: StopFlags,
    /// The new process of a fork, or 0.
    pub child: u32,
    /// The number of the system call, or 0.
    pub code: u32,
    /// Which of the caller's handlers decided, from 0; `None` if all declined.
    pub handler: Option<u32>,
    /// What was done.
    pub decision: Decision,
}

impl fmt::Display for Handled {
    #[rustfmt::skip]
    fn fmt(&self, f: &mut fmt::Formatter<'_>) -> fmt::Result {
        write!(
            f, "handled {} {} at {} signal={} flags={} child={} code={} by {} {}",
            self.pid, self.status.word(), self.lwp, self.signal.number(), self.flags, self.child,
            self.code, self.handler.map_or("none".to_owned(), |index| index.to_string()),
            self.decision
        )
    }
}

/// The reply to a call. It is printed in the words of a line: docs/FORMAT.md, "The output".
#[derive(Clone, Debug, PartialEq, Eq, Hash)]
pub enum Reply {
    /// The step is done.
    Done,
    /// A process was made, or an LWP of one.
    New(New),
    /// How many LWPs a process has.
    Number(u32),
    /// The status of a process.
    Status {
        /// The process.
        pid: u32,
        /// What a wait reports of it.
        status: WaitStatus,
    },
    /// There is nothing to collect.
    Nothing,
    /// The fields of FreeBSD's `struct ptrace_lwpinfo` that the model has.
    Info(LwpInfo),
    /// LWPs in order of birth.
    Lwps(Vec<u32>),
    /// Processes by rising number.
    Pids(Vec<u32>),
    /// The events that a process stops for.
    Mask(EventMask),
    /// A trace stop that the caller's handlers were asked about, and what was done.
    Handled(Handled),
    /// The LWP has stopped, in place of its act or at its act's end.
    Stopped {
        /// The LWP.
        lwp: u32,
        /// The signal of the stop.
        signal: Signal,
        /// What the stop is about.
        flags: StopFlags,
    },
    /// A handler of the process's own took this signal, in place of the act.
    Caught(Signal),
    /// The process has ended, with this status of wait(2).
    Ended(WaitStatus),
}
// end

/// Prints a word and numbers.
fn listed(f: &mut fmt::Formatter<'_>, word: &str, numbers: &[u32]) -> fmt::Result {
    f.write_str(word)?;
    numbers.iter().try_for_each(|number| write!(f, " {number}"))
}

// tools/format display
impl fmt::Display for Reply {
    #[rustfmt::skip]
    fn fmt(&self, f: &mut fmt::Formatter<'_>) -> fmt::Result {
        match self {
            Reply::Done => f.write_str("ok"),
            Reply::New(new) => new.fmt(f),
            Reply::Number(number) => write!(f, "number {number}"),
            Reply::Status { pid, status } => write!(f, "status {pid} {}", status.word()),
            Reply::Nothing => f.write_str("nothing"),
            Reply::Info(info) => info.fmt(f),
            Reply::Lwps(lwps) => listed(f, "lwps", lwps),
            Reply::Pids(pids) => listed(f, "pids", pids),
            Reply::Mask(events) => write!(f, "mask {events}"),
            Reply::Handled(handled) => handled.fmt(f),
            Reply::Stopped { lwp, signal, flags } => write!(f, "stopped {lwp} {} flags={flags}", signal.number()),
            Reply::Caught(signal) => write!(f, "caught {}", signal.number()),
            Reply::Ended(status) => write!(f, "ended {}", status.word()),
        }
    }
}
// end

// The kinds of the library's replies that are errors.
// tools/format kinds of errors
const HELD: u32 = 13;
const ERROR: u32 = 14;
// end

/// Separates errors from replies.
pub(crate) fn checked(code: u32, raw: sys::Reply) -> Result<sys::Reply, Error> {
    match (code, raw.kind) {
        (sys::ANSWERED, HELD) => Err(Error::Held),
        (sys::ANSWERED, ERROR) => Err(Error::Errno(
            Errno::from_number(raw.error).expect("an errno of the model"),
        )),
        (sys::ANSWERED, _) => Ok(raw),
        _ => Err(Error::of_code(code)),
    }
}

fn signal(raw: &sys::Reply) -> Signal {
    Signal::from_number(raw.signal).expect("a signal from 1 to 31")
}

fn status(raw: &sys::Reply) -> WaitStatus {
    WaitStatus::from_word(raw.status).expect("a word of wait(2)")
}

// tools/format readers
#[rustfmt::skip]
pub(crate) fn new(raw: &sys::Reply) -> New {
    New {
        pid: raw.pid,
        lwp: raw.lwp,
    }
}

#[rustfmt::skip]
pub(crate) fn info(raw: &sys::Reply) -> LwpInfo {
    LwpInfo {
        lwp: raw.lwp,
        reports: raw.event == 1,
        flags: StopFlags(raw.flags),
        blocked: SignalSet(raw.mask),
        pending: SignalSet(raw.pending),
        child: raw.child,
        code: raw.code,
    }
}

#[rustfmt::skip]
pub(crate) fn handled(raw: &sys::Reply) -> Handled {
    Handled {
        pid: raw.pid,
        status: status(raw),
        lwp: raw.lwp,
        signal: signal(raw),
        flags: StopFlags(raw.flags),
        child: raw.child,
        code: raw.code,
        handler: (raw.has_handler == 1).then_some(raw.handler),
        decision: Decision::from_numbers(raw.decision, raw.pass).expect("a decision"),
    }
}

/// The reply that has these fields, and for a list these numbers.
#[rustfmt::skip]
pub(crate) fn reply(raw: &sys::Reply, numbers: impl FnOnce() -> Vec<u32>) -> Reply {
    match raw.kind {
        0 => Reply::Done,
        1 => Reply::New(new(raw)),
        2 => Reply::Number(raw.number),
        3 => Reply::Status { pid: raw.pid, status: status(raw) },
        4 => Reply::Nothing,
        5 => Reply::Info(info(raw)),
        6 => Reply::Lwps(numbers()),
        7 => Reply::Pids(numbers()),
        8 => Reply::Mask(EventMask(raw.mask)),
        9 => Reply::Handled(handled(raw)),
        10 => Reply::Stopped { lwp: raw.lwp, signal: signal(raw), flags: StopFlags(raw.flags) },
        11 => Reply::Caught(signal(raw)),
        12 => Reply::Ended(status(raw)),
        kind => unreachable!("the library has no reply {kind}"),
    }
}
// end
