//! The lines of replies, in words.

use crate::bytes::{Bytes, Head, Name, EVENTS, FLAGS};
use crate::names::{Decision, Error};
use crate::replies::Replies;
use crate::rows::{LwpSlot, ProcessSlot, Stop};
use crate::tables::Table;

#[derive(Default)]
pub struct Lines(pub Bytes);

impl Lines {
    /// Begins the line of a user's next step.
    #[inline(always)]
    pub fn begin(&mut self, head: &mut Head) {
        head.count();
        self.0.put(head.text, head.length as usize);
    }

    /// The names of the bits that are set, or `none`.
    #[inline]
    fn names(&mut self, names: &[Name], bits: u32) {
        if bits == 0 {
            return self.0.word(b"none");
        }
        let mut left = bits;
        loop {
            let (name, length) = &names[left.trailing_zeros() as usize];
            self.0.put(*name, *length);
            left &= left - 1;
            if left == 0 {
                return;
            }
            self.0.word(b"+");
        }
    }

    fn set(&mut self, set: u32) {
        if set == 0 {
            return self.0.word(b"none");
        }
        let mut left = set;
        while left != 0 {
            self.0.number(left.trailing_zeros());
            left &= left - 1;
            if left != 0 {
                self.0.word(b",");
            }
        }
    }

    /// A line of a word and a number.
    #[inline(always)]
    fn one<const COUNT: usize>(&mut self, word: &[u8; COUNT], number: u32) {
        self.0.word(word);
        self.0.number(number);
        self.0.word(b"\n");
    }
}

impl Replies for Lines {
    #[inline]
    fn ok(&mut self) {
        self.0.word(b" ok\n");
    }

    fn held(&mut self) {
        self.0.word(b" held\n");
    }

    fn nothing(&mut self) {
        self.0.word(b" nothing\n");
    }

    fn error(&mut self, error: Error) {
        match error {
            Error::Perm => self.0.word(b" error EPERM 1\n"),
            Error::Srch => self.0.word(b" error ESRCH 3\n"),
            Error::Child => self.0.word(b" error ECHILD 10\n"),
            Error::Busy => self.0.word(b" error EBUSY 16\n"),
            Error::Inval => self.0.word(b" error EINVAL 22\n"),
            Error::Again => self.0.word(b" error EAGAIN 35\n"),
        }
    }

    #[inline(always)]
    fn made(&mut self, table: &Table, l: LwpSlot) {
        let lwp = &table.lwps[l];
        self.0.word(b" new");
        self.0.process(&table.front.texts, table.processes[lwp.process].text);
        self.0.lwp(lwp.text);
        self.0.word(b"\n");
    }

    fn count(&mut self, lwps: u16) {
        self.one(b" number ", lwps.into());
    }

    #[inline(always)]
    fn status(&mut self, table: &Table, p: ProcessSlot, word: u16) {
        self.0.word(b" status");
        self.0.process(&table.front.texts, table.processes[p].text);
        self.one(b" ", word.into());
    }

    fn caught(&mut self, signal: u8) {
        self.one(b" caught ", signal.into());
    }

    fn ended(&mut self, word: u16) {
        self.one(b" ended ", word.into());
    }

    fn stopped(&mut self, table: &Table, l: LwpSlot, signal: u8, flags: u16) {
        self.0.word(b" stopped");
        self.0.lwp(table.lwps[l].text);
        self.0.word(b" ");
        self.0.number(signal.into());
        self.0.word(b" flags=");
        self.names(&FLAGS, flags.into());
        self.0.word(b"\n");
    }

    fn mask(&mut self, mask: u8) {
        self.0.word(b" mask ");
        self.names(&EVENTS, mask.into());
        self.0.word(b"\n");
    }

    fn info(&mut self, table: &Table, l: LwpSlot) {
        let lwp = &table.lwps[l];
        self.0.word(b" info");
        self.0.lwp(lwp.text);
        if table.reports(l) {
            self.0.word(b" SIGNAL flags=");
        } else {
            self.0.word(b" NONE flags=");
        }
        self.names(&FLAGS, lwp.flags.into());
        self.0.word(b" mask=");
        self.set(lwp.blocked);
        self.0.word(b" pending=");
        self.set(lwp.pending);
        self.0.word(b" child=");
        self.0.number(lwp.child);
        self.one(b" code=", lwp.code);
    }

    fn lwps(&mut self, table: &Table, p: ProcessSlot, most: u32) {
        self.0.word(b" lwps");
        table.each_lwp(p, most, |l| self.0.lwp(table.lwps[l].text));
        self.0.word(b"\n");
    }

    fn pids(&mut self, table: &Table) {
        self.0.word(b" pids");
        table.each_process(|p| self.0.process(&table.front.texts, table.processes[p].text));
        self.0.word(b"\n");
    }

    #[inline(always)]
    fn handled(&mut self, table: &Table, p: ProcessSlot, l: LwpSlot, stop: &Stop) {
        self.0.word(b" handled");
        self.0.process(&table.front.texts, table.processes[p].text);
        self.0.word(b" ");
        self.0.number(stop.word().into());
        self.0.word(b" at");
        self.0.lwp(table.lwps[l].text);
        self.0.word(b" signal=");
        self.0.number(stop.signal.into());
        self.0.word(b" flags=");
        self.names(&FLAGS, stop.flags.into());
        self.0.word(b" child=");
        self.0.number(stop.child);
        self.0.word(b" code=");
        self.0.number(stop.code);
    }

    #[inline(always)]
    fn decided(&mut self, index: Option<usize>, decision: Decision, pass: u8) {
        self.0.word(b" by ");
        match index {
            Some(index) => self.0.number(index as u32),
            None => self.0.word(b"none"),
        }
        match decision {
            Decision::Decline => self.0.word(b" decline"),
            Decision::Leave => self.0.word(b" leave"),
            Decision::Kill => self.0.word(b" kill"),
            Decision::Continue => {
                self.0.word(b" continue ");
                self.0.number(pass.into());
            }
            Decision::Detach => {
                self.0.word(b" detach ");
                self.0.number(pass.into());
            }
        }
        self.0.word(b"\n");
    }
}
