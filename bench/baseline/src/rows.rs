//! Rows of processes and LWPs in slots, and what else a user's table has.

use std::mem::MaybeUninit;
use std::ops::{Index, IndexMut};

use crate::names::{bit, Call, Decision, Signals, BORN, SCX, THR_NEW, TRAP, VFORK_DONE};

/// A space, and a number of at most six digits.
pub type Text = [u8; 8];

/// The slot of a process.
#[derive(Clone, Copy, PartialEq, Eq)]
pub struct ProcessSlot(pub u8);

impl ProcessSlot {
    pub fn slot(self) -> usize {
        self.0.into()
    }
}

/// No process, or the one with number 1. Links may be written to its row, which nothing depends on.
pub const NOBODY: ProcessSlot = ProcessSlot(0);

/// The slot of an LWP.
#[derive(Clone, Copy, PartialEq, Eq)]
pub struct LwpSlot(pub u16);

pub const NO_LWP: LwpSlot = LwpSlot(0);

#[derive(Clone, Copy, PartialEq, Eq)]
#[repr(u8)]
pub enum State {
    Run,
    Trace { lwp: LwpSlot, signal: u8, seen: bool },
    Job { signal: u8, seen: bool },
    Zombie { word: u16 },
}

#[derive(Clone, Copy)]
pub struct Process {
    /// The number's place in the user's block, and what is printed of it.
    pub place: u16,
    pub text: Text,
    pub state: State,
    pub parent: ProcessSlot,
    pub tracer: ProcessSlot,
    pub ignored: Signals,
    pub caught: Signals,
    pub pending: Signals,
    /// At least the signals that are pending for its LWPs.
    pub lwp_pending: Signals,
    pub mask: u8,
    pub continued: bool,
    /// Whether an LWP may be suspended, or have a stop due.
    pub odd: bool,
    pub handlers: u8,
    /// The LWP that steps.
    pub stepping: LwpSlot,
    /// The LWP that waits for this child of its vfork.
    pub waiter: LwpSlot,
    pub lwps: u16,
    pub first: LwpSlot,
    pub last: LwpSlot,
    /// The first of the children, which `child_links` join.
    pub children: ProcessSlot,
    pub child_links: Links,
    /// The first of the tracees, which `tracee_links` join.
    pub tracees: ProcessSlot,
    pub tracee_links: Links,
}

#[derive(Clone, Copy)]
pub struct Links {
    pub before: ProcessSlot,
    pub after: ProcessSlot,
}

pub const UNLINKED: Links = Links {
    before: NOBODY,
    after: NOBODY,
};

pub const NEW_PROCESS: Process = Process {
    place: 0,
    text: [0; 8],
    state: State::Run,
    parent: NOBODY,
    tracer: NOBODY,
    ignored: 0,
    caught: 0,
    pending: 0,
    lwp_pending: 0,
    mask: 0,
    continued: false,
    odd: false,
    handlers: 0,
    stepping: NO_LWP,
    waiter: NO_LWP,
    lwps: 0,
    first: NO_LWP,
    last: NO_LWP,
    children: NOBODY,
    child_links: UNLINKED,
    tracees: NOBODY,
    tracee_links: UNLINKED,
};

#[derive(Clone, Copy, PartialEq, Eq)]
#[repr(u8)]
pub enum Mode {
    User,
    InCall,
    VforkWait,
}

/// What a trace stop reports.
#[derive(Clone, Copy)]
pub struct Stop {
    pub signal: u8,
    pub flags: u16,
    pub child: u32,
    pub code: u32,
}

impl Stop {
    /// The word of its status.
    pub fn word(&self) -> u16 {
        stop_word(self.signal)
    }
}

/// The word of the status of a stop by a signal.
pub fn stop_word(signal: u8) -> u16 {
    u16::from(signal) * 256 + 127
}

/// The stop that the next turn of an LWP makes.
#[derive(Clone, Copy, PartialEq, Eq)]
#[repr(u8)]
pub enum Due {
    Nothing,
    Birth,
    FirstExit,
    VforkDone,
}

impl Due {
    pub fn stop(self) -> Stop {
        let (flags, code) = match self {
            Due::Nothing => (0, 0),
            Due::Birth => (SCX | BORN, THR_NEW),
            Due::FirstExit => (SCX, THR_NEW),
            Due::VforkDone => (VFORK_DONE, 0),
        };
        Stop {
            signal: TRAP,
            flags,
            child: 0,
            code,
        }
    }
}

#[derive(Clone, Copy)]
pub struct Lwp {
    pub place: u16,
    pub text: Text,
    pub process: ProcessSlot,
    pub mode: Mode,
    /// The child of its vfork that the LWP waits for, if it does.
    pub awaited: ProcessSlot,
    /// The last call that it entered.
    pub call: Call,
    pub suspended: bool,
    pub due: Due,
    pub blocked: Signals,
    pub pending: Signals,
    pub flags: u16,
    pub child: u32,
    pub code: u32,
    pub next: LwpSlot,
    pub prev: LwpSlot,
}

pub const NEW_LWP: Lwp = Lwp {
    place: 0,
    text: [0; 8],
    process: NOBODY,
    mode: Mode::User,
    awaited: NOBODY,
    call: Call::Fork,
    suspended: false,
    due: Due::Nothing,
    blocked: 0,
    pending: 0,
    flags: 0,
    child: 0,
    code: 0,
    next: NO_LWP,
    prev: NO_LWP,
};

#[derive(Clone, Copy)]
pub struct Rule {
    pub signal: u8,
    pub flags: u16,
    pub decision: Decision,
    pub pass: u8,
}

impl Rule {
    pub const NONE: Rule = Rule {
        signal: 0,
        flags: 0,
        decision: Decision::Decline,
        pass: 0,
    };
}

impl Rule {
    /// The signals whose stops it may fit.
    pub fn signals(&self) -> Signals {
        if self.signal == 0 {
            !0
        } else {
            bit(self.signal)
        }
    }

    #[inline(always)]
    pub fn fits(&self, stop: &Stop) -> bool {
        (self.signal == 0 || self.signal == stop.signal) && self.flags & !stop.flags == 0
    }
}

/// An installed policy: a part of the scenario's rules.
#[derive(Clone, Copy)]
pub struct Handler {
    pub debugger: ProcessSlot,
    pub first: u32,
    pub end: u32,
    /// The signals of its rules, and the flags that are in all of them: no other stop fits one.
    pub signals: Signals,
    pub flags: u16,
}

impl Handler {
    #[inline(always)]
    pub fn may_fit(&self, stop: &Stop) -> bool {
        self.signals & bit(stop.signal) != 0 && self.flags & !stop.flags == 0
    }
}

/// Rows in slots. Only slots that have been used, and the slot 0, have a row.
pub struct Rows<Row, const COUNT: usize>(MaybeUninit<[Row; COUNT]>);

pub type Processes = Rows<Process, 256>;
pub type Lwps = Rows<Lwp, 1024>;

impl<Row: Copy, const COUNT: usize> Rows<Row, COUNT> {
    #[inline(always)]
    fn row(&self, slot: usize) -> &Row {
        debug_assert!(slot < COUNT);
        // SAFETY: a slot is one of a row that has been written
        unsafe { &*self.0.as_ptr().cast::<Row>().add(slot) }
    }

    #[inline(always)]
    fn row_mut(&mut self, slot: usize) -> &mut Row {
        debug_assert!(slot < COUNT);
        // SAFETY: as above; or the row is written now, and a row's bytes may be any
        unsafe { &mut *self.0.as_mut_ptr().cast::<Row>().add(slot) }
    }
}

impl Index<ProcessSlot> for Processes {
    type Output = Process;

    #[inline(always)]
    fn index(&self, p: ProcessSlot) -> &Process {
        self.row(p.slot())
    }
}

impl IndexMut<ProcessSlot> for Processes {
    #[inline(always)]
    fn index_mut(&mut self, p: ProcessSlot) -> &mut Process {
        self.row_mut(p.slot())
    }
}

impl Index<LwpSlot> for Lwps {
    type Output = Lwp;

    #[inline(always)]
    fn index(&self, l: LwpSlot) -> &Lwp {
        self.row(l.0.into())
    }
}

impl IndexMut<LwpSlot> for Lwps {
    #[inline(always)]
    fn index_mut(&mut self, l: LwpSlot) -> &mut Lwp {
        self.row_mut(l.0.into())
    }
}
