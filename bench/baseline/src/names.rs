//! Names and numbers: signals, events, flags, calls, requests.

use crate::scanning::Scanner;

pub const TRAP: u8 = 5;
pub const KILL: u8 = 9;
pub const STOP: u8 = 17;
pub const CONT: u8 = 19;
pub const CHLD: u8 = 20;
pub const LAST_SIGNAL: u32 = 31;

/// A set of signals: a bit for each number.
pub type Signals = u32;

pub const fn bit(signal: u8) -> Signals {
    1 << signal
}

pub const STOPPING: Signals = bit(17) | bit(18) | bit(21) | bit(22);
pub const DISCARDED: Signals = bit(16) | bit(19) | bit(20) | bit(23) | bit(28) | bit(29);
pub const UNBLOCKABLE: Signals = bit(KILL) | bit(STOP);

pub const ON_EXEC: u8 = 1;
pub const ON_ENTRY: u8 = 2;
pub const ON_EXIT: u8 = 4;
pub const ON_FORK: u8 = 8;
pub const ON_LWP: u8 = 16;
pub const ON_VFORK: u8 = 32;
pub const ALL_EVENTS: u32 = 63;

pub const SCE: u16 = 1;
pub const SCX: u16 = 2;
pub const EXEC: u16 = 4;
pub const FORKED: u16 = 8;
pub const CHILD: u16 = 16;
pub const BORN: u16 = 32;
pub const EXITED: u16 = 64;
pub const VFORKED: u16 = 128;
pub const VFORK_DONE: u16 = 256;

pub const WUNTRACED: u8 = 1;
pub const WCONTINUED: u8 = 2;

/// A value that texts name.
pub trait Named: Sized {
    /// The value of a whole name.
    fn of(name: &[u8]) -> Option<Self>;

    /// The value whose name and closing quote come next.
    fn next(text: &mut Scanner<'_>) -> Option<Self>;
}

/// Names of a type's values behind what they have in common; those that are used most come first.
macro_rules! named {
    ($kind:ty, $common:literal: $($name:literal => $value:expr,)*) => {
        impl Named for $kind {
            fn of(name: &[u8]) -> Option<Self> {
                match name {
                    $(_ if name == concat!($common, $name).as_bytes() => Some($value),)*
                    _ => None,
                }
            }

            #[inline(always)]
            fn next(text: &mut Scanner<'_>) -> Option<Self> {
                text.take($common)?;
                $(if text.skips(concat!($name, "\"")) {
                    return Some($value);
                })*
                None
            }
        }
    };
}

#[derive(Clone, Copy, PartialEq, Eq)]
#[repr(u8)]
pub enum Call {
    Fork,
    Vfork,
    Exec,
    ThrNew,
    ThrExit,
    Exit(u8),
    Other(u32),
}

// one with a code has the code 0 here
named!(Call, "":
    "fork" => Call::Fork,
    "exit" => Call::Exit(0),
    "other" => Call::Other(0),
    "thr_new" => Call::ThrNew,
    "thr_exit" => Call::ThrExit,
    "vfork" => Call::Vfork,
    "exec" => Call::Exec,
);

pub const THR_NEW: u32 = 455;

impl Call {
    /// The code that a stop of the call reports.
    pub fn code(self) -> u32 {
        match self {
            Call::Exit(_) => 1,
            Call::Fork => 2,
            Call::Exec => 59,
            Call::Vfork => 66,
            Call::ThrExit => 431,
            Call::ThrNew => THR_NEW,
            Call::Other(code) => code,
        }
    }

    /// The call of this number in include/tracehost.h.
    pub fn of_number(number: u32, argument: u32) -> Option<Call> {
        let call = [
            Call::Fork,
            Call::Vfork,
            Call::Exec,
            Call::ThrNew,
            Call::ThrExit,
            Call::Exit(0),
            Call::Other(0),
        ]
        .get(number as usize)?;
        if matches!(call, Call::Exit(_) | Call::Other(_)) {
            call.with_code(argument)
        } else {
            Some(*call)
        }
    }

    /// The call of the same name, with this code.
    pub fn with_code(self, code: u32) -> Option<Call> {
        match self {
            Call::Exit(_) => Some(Call::Exit(u8::try_from(code).ok()?)),
            Call::Other(_) => Some(Call::Other(code)),
            _ => None,
        }
    }
}

#[derive(Clone, Copy, PartialEq, Eq)]
pub enum Request {
    TraceMe,
    Attach,
    Continue,
    Step,
    ToSce,
    ToScx,
    Syscall,
    Detach,
    Kill,
    Suspend,
    Resume,
    SetEventMask,
    GetEventMask,
    FollowFork,
    LwpEvents,
    LwpInfo,
    GetNumLwps,
    GetLwpList,
}

named!(Request, "PT_":
    "ATTACH" => Request::Attach,
    "CONTINUE" => Request::Continue,
    "DETACH" => Request::Detach,
    "LWPINFO" => Request::LwpInfo,
    "STEP" => Request::Step,
    "SYSCALL" => Request::Syscall,
    "TO_SCE" => Request::ToSce,
    "TO_SCX" => Request::ToScx,
    "KILL" => Request::Kill,
    "SUSPEND" => Request::Suspend,
    "RESUME" => Request::Resume,
    "GETNUMLWPS" => Request::GetNumLwps,
    "GETLWPLIST" => Request::GetLwpList,
    "TRACE_ME" => Request::TraceMe,
    "SET_EVENT_MASK" => Request::SetEventMask,
    "GET_EVENT_MASK" => Request::GetEventMask,
    "FOLLOW_FORK" => Request::FollowFork,
    "LWP_EVENTS" => Request::LwpEvents,
);

/// Requests by their numbers in ptrace(2).
static REQUESTS: [Option<Request>; 27] = [
    Some(Request::TraceMe),
    None,
    None,
    None,
    None,
    None,
    None,
    Some(Request::Continue),
    Some(Request::Kill),
    Some(Request::Step),
    Some(Request::Attach),
    Some(Request::Detach),
    None,
    Some(Request::LwpInfo),
    Some(Request::GetNumLwps),
    Some(Request::GetLwpList),
    None,
    None,
    Some(Request::Suspend),
    Some(Request::Resume),
    Some(Request::ToSce),
    Some(Request::ToScx),
    Some(Request::Syscall),
    Some(Request::FollowFork),
    Some(Request::LwpEvents),
    Some(Request::GetEventMask),
    Some(Request::SetEventMask),
];

impl Request {
    #[inline(always)]
    pub fn of_number(number: u32) -> Option<Request> {
        *REQUESTS.get(number as usize)?
    }
}

#[derive(Clone, Copy, PartialEq, Eq)]
#[repr(u8)]
pub enum Decision {
    Decline,
    Leave,
    Continue,
    Detach,
    Kill,
}

named!(Decision, "":
    "continue" => Decision::Continue,
    "decline" => Decision::Decline,
    "leave" => Decision::Leave,
    "detach" => Decision::Detach,
    "kill" => Decision::Kill,
);

impl Decision {
    pub fn of_number(number: u32) -> Option<Decision> {
        use Decision::{Continue, Decline, Detach, Kill, Leave};
        [Decline, Leave, Continue, Detach, Kill].get(number as usize).copied()
    }
}

#[derive(Clone, Copy, PartialEq, Eq)]
pub enum Action {
    Default,
    Ignore,
    Catch,
}

impl Action {
    pub fn of_number(number: u32) -> Option<Action> {
        [Action::Default, Action::Ignore, Action::Catch]
            .get(number as usize)
            .copied()
    }
}

named!(Action, "":
    "ignore" => Action::Ignore,
    "catch" => Action::Catch,
    "default" => Action::Default,
);

/// Flags of a stop, as bits.
#[derive(Clone, Copy)]
pub struct Flags(pub u16);

named!(Flags, "PL_FLAG_":
    "SCX" => Flags(SCX),
    "SCE" => Flags(SCE),
    "FORKED" => Flags(FORKED),
    "CHILD" => Flags(CHILD),
    "EXEC" => Flags(EXEC),
    "BORN" => Flags(BORN),
    "EXITED" => Flags(EXITED),
    "VFORKED" => Flags(VFORKED),
    "VFORK_DONE" => Flags(VFORK_DONE),
);

/// Events that stop a tracee, as bits.
#[derive(Clone, Copy)]
pub struct Events(pub u8);

named!(Events, "PTRACE_":
    "FORK" => Events(ON_FORK),
    "SCX" => Events(ON_EXIT),
    "SCE" => Events(ON_ENTRY),
    "SYSCALL" => Events(ON_ENTRY | ON_EXIT),
    "EXEC" => Events(ON_EXEC),
    "LWP" => Events(ON_LWP),
    "VFORK" => Events(ON_VFORK),
);

/// Options of wait4(2), as bits.
#[derive(Clone, Copy)]
pub struct Options(pub u8);

named!(Options, "W":
    "NOHANG" => Options(0),
    "UNTRACED" => Options(WUNTRACED),
    "CONTINUED" => Options(WCONTINUED),
);

#[derive(Clone, Copy, PartialEq, Eq)]
pub enum Error {
    Perm,
    Srch,
    Child,
    Busy,
    Inval,
    Again,
}

impl Error {
    /// Its number in errno(2).
    pub fn number(self) -> u32 {
        match self {
            Error::Perm => 1,
            Error::Srch => 3,
            Error::Child => 10,
            Error::Busy => 16,
            Error::Inval => 22,
            Error::Again => 35,
        }
    }
}

/// A set that an array of names spells.
pub trait Bits: Named {
    fn bits(self) -> u32;
}

impl Bits for Flags {
    fn bits(self) -> u32 {
        u32::from(self.0)
    }
}

impl Bits for Events {
    fn bits(self) -> u32 {
        u32::from(self.0)
    }
}

impl Bits for Options {
    fn bits(self) -> u32 {
        u32::from(self.0)
    }
}
