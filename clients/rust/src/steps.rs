//! What a step takes: requests, acts, calls, rules.

use crate::sys;
use crate::{EventMask, Signal, SignalSet, StopFlags};
use std::fmt;

/// Who makes a call: a process of a user.
#[derive(Clone, Copy, Debug, PartialEq, Eq, Hash)]
pub struct Caller {
    /// 1001 to 1064.
    pub user: u32,
    /// The process.
    pub pid: u32,
}

/// Which processes a wait or a signal is for.
#[derive(Clone, Copy, Debug, PartialEq, Eq, Hash)]
pub enum Which {
    /// wait4(2): any child, and any process that the caller traces. kill(2): all processes of the user but the caller.
    Any,
    /// This process.
    Process(u32),
}

impl Which {
    /// The number that wait4(2) and kill(2) take.
    pub(crate) fn number(self) -> i64 {
        match self {
            Which::Any => -1,
            Which::Process(pid) => pid.into(),
        }
    }
}

/// What a process does with a signal, as set by sigaction(2).
#[derive(Clone, Copy, Debug, PartialEq, Eq, Hash)]
pub enum Disposition {
    /// SIG_DFL.
    Default,
    /// SIG_IGN.
    Ignore,
    /// A handler of the process.
    Catch,
}

impl Disposition {
    pub(crate) fn number(self) -> u32 {
        match self {
            Disposition::Default => 0,
            Disposition::Ignore => 1,
            Disposition::Catch => 2,
        }
    }
}

/// The number of a signal to pass on, 0 for none.
fn passed(signal: Option<Signal>) -> u32 {
    signal.map_or(0, Signal::number)
}

// tools/format requests
/// A request of ptrace(2), with its data.
#[derive(Clone, Copy, Debug, PartialEq, Eq, Hash)]
pub enum Request {
    /// PT_TRACE_ME: the parent traces the caller.
    TraceMe,
    /// PT_ATTACH: the caller traces the target. Its first LWP stops with SIGSTOP.
    Attach,
    /// PT_CONTINUE: resumes the target. It may be passed a signal.
    Continue(Option<Signal>),
    /// PT_STEP: resumes the target; an LWP stops after its next compute. It may be passed a signal.
    Step(Option<Signal>),
    /// PT_TO_SCE: resumes the target, which stops at entries of system calls from now on. It may be passed a signal.
    ToSce(Option<Signal>),
    /// PT_TO_SCX: resumes the target, which stops at exits of system calls from now on. It may be passed a signal.
    ToScx(Option<Signal>),
    /// PT_SYSCALL: resumes the target, which stops at entries and exits of system calls from now on. It may be passed a
    /// signal.
    Syscall(Option<Signal>),
    /// PT_DETACH: resumes the target, which is traced no more. It may be passed a signal.
    Detach(Option<Signal>),
    /// PT_KILL: SIGKILL ends the target.
    Kill,
    /// PT_SUSPEND: an LWP gets no turns until PT_RESUME.
    Suspend,
    /// PT_RESUME: an LWP gets turns again.
    Resume,
    /// PT_SET_EVENT_MASK: the events that the target stops for.
    SetEventMask(EventMask),
    /// PT_GET_EVENT_MASK: reads the events that the target stops for. Answered by [`Reply::Mask`](crate::Reply::Mask).
    GetEventMask,
    /// PT_FOLLOW_FORK: sets PTRACE_FORK, or clears it.
    FollowFork(bool),
    /// PT_LWP_EVENTS: sets PTRACE_LWP, or clears it.
    LwpEvents(bool),
    /// PT_LWPINFO: describes an LWP: its stop, blocked and pending signals, child and system call. Answered by
    /// [`Reply::Info`](crate::Reply::Info).
    LwpInfo,
    /// PT_GETNUMLWPS: counts the LWPs of the process. Answered by [`Reply::Number`](crate::Reply::Number).
    GetNumLwps,
    /// PT_GETLWPLIST: lists at most so many LWPs of the process, in order of birth. Answered by
    /// [`Reply::Lwps`](crate::Reply::Lwps).
    GetLwpList(u32),
}

impl Request {
    /// The number in FreeBSD's `<sys/ptrace.h>`, and the data.
    pub(crate) fn numbers(self) -> (u32, u32) {
        match self {
            Request::TraceMe => (0, 0),
            Request::Continue(signal) => (7, passed(signal)),
            Request::Kill => (8, 0),
            Request::Step(signal) => (9, passed(signal)),
            Request::Attach => (10, 0),
            Request::Detach(signal) => (11, passed(signal)),
            Request::LwpInfo => (13, 0),
            Request::GetNumLwps => (14, 0),
            Request::GetLwpList(most) => (15, most),
            Request::Suspend => (18, 0),
            Request::Resume => (19, 0),
            Request::ToSce(signal) => (20, passed(signal)),
            Request::ToScx(signal) => (21, passed(signal)),
            Request::Syscall(signal) => (22, passed(signal)),
            Request::FollowFork(set) => (23, set.into()),
            Request::LwpEvents(set) => (24, set.into()),
            Request::GetEventMask => (25, 0),
            Request::SetEventMask(mask) => (26, mask.bits()),
        }
    }
}
// end

/// A system call that an LWP enters.
#[derive(Clone, Copy, Debug, PartialEq, Eq, Hash)]
#[allow(missing_docs)]
pub enum Call {
    /// With the exit code.
    Exit(u8),
    Fork,
    Vfork,
    Exec,
    ThrNew,
    ThrExit,
    /// A call without effect, by its number.
    Other(u32),
}

impl Call {
    /// The library's number, and the argument.
    fn numbers(self) -> (u32, u32) {
        match self {
            Call::Fork => (0, 0),
            Call::Vfork => (1, 0),
            Call::Exec => (2, 0),
            Call::ThrNew => (3, 0),
            Call::ThrExit => (4, 0),
            Call::Exit(code) => (5, code.into()),
            Call::Other(number) => (6, number),
        }
    }

    pub(crate) fn from_numbers(call: u32, argument: u32) -> Option<Call> {
        Some(match call {
            0 => Call::Fork,
            1 => Call::Vfork,
            2 => Call::Exec,
            3 => Call::ThrNew,
            4 => Call::ThrExit,
            5 => Call::Exit(argument.try_into().ok()?),
            6 => Call::Other(argument),
            _ => return None,
        })
    }
}

/// What an LWP does at its turn. A stop that is due and a pending signal come first, in place of the act.
#[derive(Clone, Copy, Debug, PartialEq, Eq, Hash)]
pub enum Act {
    /// Runs in user mode.
    Compute,
    /// Posts a signal to itself.
    Raise(Signal),
    /// Blocks these signals, and no others.
    Block(SignalSet),
    /// Enters a system call.
    Enter(Call),
    /// Does the work of the call that it is in, and leaves it.
    Leave,
}

impl Act {
    /// The library's number of the act, of its call, and the argument.
    pub(crate) fn numbers(self) -> (u32, u32, u32) {
        match self {
            Act::Compute => (0, 0, 0),
            Act::Raise(signal) => (1, 0, signal.number()),
            Act::Block(set) => (2, 0, set.0),
            Act::Enter(call) => {
                let (call, argument) = call.numbers();
                (3, call, argument)
            }
            Act::Leave => (4, 0, 0),
        }
    }
}

/// What a stop handler does with a stop.
#[derive(Clone, Copy, Debug, PartialEq, Eq, Hash)]
pub enum Decision {
    /// Leaves the stop to the next handler.
    Decline,
    /// Does nothing: the process stays stopped.
    Leave,
    /// As PT_CONTINUE, with a signal to pass on.
    Continue(Option<Signal>),
    /// As PT_DETACH, with a signal to pass on.
    Detach(Option<Signal>),
    /// As PT_KILL.
    Kill,
}

impl Decision {
    /// The library's number, and the signal that is passed on.
    fn numbers(self) -> (u32, u32) {
        match self {
            Decision::Decline => (0, 0),
            Decision::Leave => (1, 0),
            Decision::Continue(signal) => (2, passed(signal)),
            Decision::Detach(signal) => (3, passed(signal)),
            Decision::Kill => (4, 0),
        }
    }

    pub(crate) fn from_numbers(decision: u32, pass: u32) -> Option<Decision> {
        let signal = Signal::from_number(pass);
        Some(match decision {
            0 => Decision::Decline,
            1 => Decision::Leave,
            2 => Decision::Continue(signal),
            3 => Decision::Detach(signal),
            4 => Decision::Kill,
            _ => return None,
        })
    }
}

impl fmt::Display for Decision {
    fn fmt(&self, f: &mut fmt::Formatter<'_>) -> fmt::Result {
        match self {
            Decision::Decline => f.write_str("decline"),
            Decision::Leave => f.write_str("leave"),
            Decision::Continue(signal) => write!(f, "continue {}", passed(*signal)),
            Decision::Detach(signal) => write!(f, "detach {}", passed(*signal)),
            Decision::Kill => f.write_str("kill"),
        }
    }
}

/// A rule of a stop handler. The first of its rules that fits a stop decides it.
#[derive(Clone, Copy, Debug, PartialEq, Eq, Hash)]
pub struct Rule {
    /// Fits a stop with this signal; `None` with any.
    pub signal: Option<Signal>,
    /// Fits a stop that has all these flags.
    pub flags: StopFlags,
    /// What is then done.
    pub decision: Decision,
}

impl Rule {
    pub(crate) fn raw(self) -> sys::Rule {
        let (decision, pass) = self.decision.numbers();
        sys::Rule {
            flags: self.flags.0,
            signal: passed(self.signal),
            decision,
            pass,
        }
    }
}
