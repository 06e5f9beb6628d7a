//! Replies as a struct of C: `tracehost_reply` of include/tracehost.h.

use crate::names::{Decision, Error};
use crate::replies::Replies;
use crate::rows::{LwpSlot, ProcessSlot, Stop};
use crate::tables::Table;

/// Kinds of replies, in the order of their numbers.
#[derive(Clone, Copy)]
#[repr(u32)]
enum Kind {
    Ok,
    New,
    Number,
    Status,
    Nothing,
    Info,
    Lwps,
    Pids,
    Mask,
    Handled,
    Stopped,
    Caught,
    Ended,
    Held,
    Error,
}

#[repr(C)]
pub struct Reply {
    kind: Kind,
    pid: u32,
    lwp: u32,
    number: u32,
    status: u32,
    signal: u32,
    event: u32,
    flags: u32,
    mask: u32,
    pending: u32,
    child: u32,
    code: u32,
    has_handler: u32,
    handler: u32,
    decision: u32,
    pass: u32,
    error: u32,
    count: u32,
    stop_pid: u32,
}

const NOTHING: Reply = Reply {
    kind: Kind::Nothing,
    pid: 0,
    lwp: 0,
    number: 0,
    status: 0,
    signal: 0,
    event: 0,
    flags: 0,
    mask: 0,
    pending: 0,
    child: 0,
    code: 0,
    has_handler: 0,
    handler: 0,
    decision: 0,
    pass: 0,
    error: 0,
    count: 0,
    stop_pid: 0,
};

/// Where a reply goes, and the numbers of a list.
pub struct Typed<'a> {
    pub reply: &'a mut Reply,
    pub numbers: &'a mut Vec<u32>,
}

impl Typed<'_> {
    #[inline(always)]
    fn kind(&mut self, kind: Kind) {
        *self.reply = Reply { kind, ..NOTHING };
    }

    fn list(&mut self, kind: Kind) {
        *self.reply = Reply {
            kind,
            count: self.numbers.len() as u32,
            ..NOTHING
        };
    }
}

impl Replies for Typed<'_> {
    #[inline(always)]
    fn ok(&mut self) {
        self.kind(Kind::Ok);
    }

    #[inline(always)]
    fn held(&mut self) {
        self.kind(Kind::Held);
    }

    #[inline(always)]
    fn nothing(&mut self) {
        self.kind(Kind::Nothing);
    }

    fn error(&mut self, error: Error) {
        *self.reply = Reply {
            kind: Kind::Error,
            error: error.number(),
            ..NOTHING
        };
    }

    fn made(&mut self, table: &Table, l: LwpSlot) {
        *self.reply = Reply {
            kind: Kind::New,
            pid: table.pid(table.lwps[l].process),
            lwp: table.tid(l),
            ..NOTHING
        };
    }

    fn count(&mut self, lwps: u16) {
        *self.reply = Reply {
            kind: Kind::Number,
            number: lwps.into(),
            ..NOTHING
        };
    }

    #[inline(always)]
    fn status(&mut self, table: &Table, p: ProcessSlot, word: u16) {
        *self.reply = Reply {
            kind: Kind::Status,
            pid: table.pid(p),
            status: word.into(),
            ..NOTHING
        };
    }

    fn caught(&mut self, signal: u8) {
        *self.reply = Reply {
            kind: Kind::Caught,
            signal: signal.into(),
            ..NOTHING
        };
    }

    fn ended(&mut self, word: u16) {
        *self.reply = Reply {
            kind: Kind::Ended,
            status: word.into(),
            ..NOTHING
        };
    }

    fn stopped(&mut self, table: &Table, l: LwpSlot, signal: u8, flags: u16) {
        *self.reply = Reply {
            kind: Kind::Stopped,
            lwp: table.tid(l),
            signal: signal.into(),
            flags: flags.into(),
            ..NOTHING
        };
    }

    fn mask(&mut self, mask: u8) {
        *self.reply = Reply {
            kind: Kind::Mask,
            mask: mask.into(),
            ..NOTHING
        };
    }

    fn info(&mut self, table: &Table, l: LwpSlot) {
        let lwp = &table.lwps[l];
        *self.reply = Reply {
            kind: Kind::Info,
            lwp: table.tid(l),
            event: table.reports(l).into(),
            flags: lwp.flags.into(),
            mask: lwp.blocked >> 1,
            pending: lwp.pending >> 1,
            child: lwp.child,
            code: lwp.code,
            ..NOTHING
        };
    }

    fn lwps(&mut self, table: &Table, p: ProcessSlot, most: u32) {
        self.numbers.clear();
        table.each_lwp(p, most, |l| self.numbers.push(table.tid(l)));
        self.list(Kind::Lwps);
    }

    fn pids(&mut self, table: &Table) {
        self.numbers.clear();
        table.each_process(|p| self.numbers.push(table.pid(p)));
        self.list(Kind::Pids);
    }

    fn handled(&mut self, table: &Table, p: ProcessSlot, l: LwpSlot, stop: &Stop) {
        let pid = table.pid(p);
        *self.reply = Reply {
            kind: Kind::Handled,
            pid,
            lwp: table.tid(l),
            status: stop.word().into(),
            signal: stop.signal.into(),
            flags: stop.flags.into(),
            child: stop.child,
            code: stop.code,
            stop_pid: pid,
            ..NOTHING
        };
    }

    fn decided(&mut self, index: Option<usize>, decision: Decision, pass: u8) {
        self.reply.has_handler = index.is_some().into();
        self.reply.handler = index.unwrap_or(0) as u32;
        self.reply.decision = decision as u32;
        self.reply.pass = pass.into();
    }
}
