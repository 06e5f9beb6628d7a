//! The lines of replies, as JSON objects.

use crate::bytes::{name, Bytes, Head, Name, EVENTS, FLAGS};
use crate::names::{Decision, Error};
use crate::replies::Replies;
use crate::rows::{LwpSlot, ProcessSlot, Stop};
use crate::steps::CONTINUED_WORD;
use crate::tables::Table;

static SIGNALS: [Name; 32] = [
    name(""),
    name("SIGHUP"),
    name("SIGINT"),
    name("SIGQUIT"),
    name("SIGILL"),
    name("SIGTRAP"),
    name("SIGABRT"),
    name("SIGEMT"),
    name("SIGFPE"),
    name("SIGKILL"),
    name("SIGBUS"),
    name("SIGSEGV"),
    name("SIGSYS"),
    name("SIGPIPE"),
    name("SIGALRM"),
    name("SIGTERM"),
    name("SIGURG"),
    name("SIGSTOP"),
    name("SIGTSTP"),
    name("SIGCONT"),
    name("SIGCHLD"),
    name("SIGTTIN"),
    name("SIGTTOU"),
    name("SIGIO"),
    name("SIGXCPU"),
    name("SIGXFSZ"),
    name("SIGVTALRM"),
    name("SIGPROF"),
    name("SIGWINCH"),
    name("SIGINFO"),
    name("SIGUSR1"),
    name("SIGUSR2"),
];

#[derive(Default)]
pub struct Objects(pub Bytes);

impl Objects {
    /// Begins the line of a user's next step.
    #[inline(always)]
    pub fn begin(&mut self, head: &mut Head) {
        head.count();
        let [user @ .., _, _, _, _, _, _, _, _, _, _, _, _] = head.text;
        let [_, _, _, _, _, step @ ..] = head.text;
        self.0.word(b"{\"user\":");
        self.0.word::<4>(&user);
        self.0.word(b",\"step\":");
        self.0.put(step, (head.length - 5).into());
        self.0.word(b",\"reply\":\"");
    }

    #[inline(always)]
    fn end(&mut self) {
        self.0.word(b"}\n");
    }

    /// A member whose value is a number.
    #[inline(always)]
    fn member<const COUNT: usize>(&mut self, name: &[u8; COUNT], number: u32) {
        self.0.word(name);
        self.0.number(number);
    }

    #[inline(always)]
    fn name(&mut self, (name, length): &Name) {
        self.0.word(b"\"");
        self.0.put(*name, *length);
        self.0.word(b"\"");
    }

    /// An array of the names of the bits that are set.
    fn names(&mut self, names: &[Name], bits: u32) {
        self.0.word(b"[");
        let mut left = bits;
        while left != 0 {
            self.name(&names[left.trailing_zeros() as usize]);
            left &= left - 1;
            if left != 0 {
                self.0.word(b",");
            }
        }
        self.0.word(b"]");
    }

    /// A signal: its name as the member that is begun, and its number.
    #[inline(always)]
    fn signal(&mut self, signal: u8) {
        self.name(&SIGNALS[signal as usize % 32]);
        self.member(b",\"number\":", signal.into());
    }

    /// A word of wait4(2), and what it means.
    #[inline(always)]
    fn word(&mut self, word: u16) {
        self.member(b",\"word\":", word.into());
        let (high, low) = ((word / 256) as u8, word % 256);
        match low {
            0 => self.member(b",\"exited\":", high.into()),
            127 => {
                self.0.word(b",\"stopped\":");
                self.signal(high);
            }
            CONTINUED_WORD if high == 0 => self.0.word(b",\"continued\":true"),
            signal => {
                self.0.word(b",\"signaled\":");
                self.signal(signal as u8);
            }
        }
    }

    fn list(&mut self, write: impl FnOnce(&mut dyn FnMut(u32))) {
        self.0.word(b"[");
        let mut is_first = true;
        write(&mut |number| {
            if !is_first {
                self.0.word(b",");
            }
            is_first = false;
            self.0.number(number);
        });
        self.0.word(b"]}\n");
    }

    fn pass(&mut self, pass: u8) {
        self.0.word(b",\"pass\":");
        if pass == 0 {
            return self.0.word(b"null");
        }
        self.0.word(b"{\"signal\":");
        self.signal(pass);
        self.0.word(b"}");
    }
}

impl Replies for Objects {
    #[inline]
    fn ok(&mut self) {
        self.0.word(b"ok\"}\n");
    }

    fn held(&mut self) {
        self.0.word(b"held\"}\n");
    }

    fn nothing(&mut self) {
        self.0.word(b"nothing\"}\n");
    }

    fn error(&mut self, error: Error) {
        self.0.word(b"error\",\"errno\":\"");
        match error {
            Error::Perm => self.0.word(b"EPERM\",\"number\":1}\n"),
            Error::Srch => self.0.word(b"ESRCH\",\"number\":3}\n"),
            Error::Child => self.0.word(b"ECHILD\",\"number\":10}\n"),
            Error::Busy => self.0.word(b"EBUSY\",\"number\":16}\n"),
            Error::Inval => self.0.word(b"EINVAL\",\"number\":22}\n"),
            Error::Again => self.0.word(b"EAGAIN\",\"number\":35}\n"),
        }
    }

    fn made(&mut self, table: &Table, l: LwpSlot) {
        self.member(b"new\",\"pid\":", table.pid(table.lwps[l].process));
        self.member(b",\"lwp\":", table.tid(l));
        self.end();
    }

    fn count(&mut self, lwps: u16) {
        self.member(b"number\",\"number\":", lwps.into());
        self.end();
    }

    #[inline(always)]
    fn status(&mut self, table: &Table, p: ProcessSlot, word: u16) {
        self.member(b"status\",\"pid\":", table.pid(p));
        self.word(word);
        self.end();
    }

    fn caught(&mut self, signal: u8) {
        self.0.word(b"caught\",\"signal\":");
        self.signal(signal);
        self.end();
    }

    fn ended(&mut self, word: u16) {
        self.0.word(b"ended\"");
        self.word(word);
        self.end();
    }

    fn stopped(&mut self, table: &Table, l: LwpSlot, signal: u8, flags: u16) {
        self.member(b"stopped\",\"lwp\":", table.tid(l));
        self.0.word(b",\"signal\":");
        self.signal(signal);
        self.0.word(b",\"flags\":");
        self.names(&FLAGS, flags.into());
        self.end();
    }

    fn mask(&mut self, mask: u8) {
        self.0.word(b"mask\",\"events\":");
        self.names(&EVENTS, mask.into());
        self.end();
    }

    fn info(&mut self, table: &Table, l: LwpSlot) {
        let lwp = &table.lwps[l];
        self.member(b"info\",\"lwp\":", table.tid(l));
        if table.reports(l) {
            self.0.word(b",\"event\":\"SIGNAL\",\"flags\":");
        } else {
            self.0.word(b",\"event\":\"NONE\",\"flags\":");
        }
        self.names(&FLAGS, lwp.flags.into());
        self.0.word(b",\"mask\":");
        self.names(&SIGNALS, lwp.blocked);
        self.0.word(b",\"pending\":");
        self.names(&SIGNALS, lwp.pending);
        self.member(b",\"child\":", lwp.child);
        self.member(b",\"code\":", lwp.code);
        self.end();
    }

    fn lwps(&mut self, table: &Table, p: ProcessSlot, most: u32) {
        self.0.word(b"lwps\",\"lwps\":");
        self.list(|write| table.each_lwp(p, most, |l| write(table.tid(l))));
    }

    fn pids(&mut self, table: &Table) {
        self.0.word(b"pids\",\"pids\":");
        self.list(|write| table.each_process(|p| write(table.pid(p))));
    }

    fn handled(&mut self, table: &Table, p: ProcessSlot, l: LwpSlot, stop: &Stop) {
        self.member(b"handled\",\"pid\":", table.pid(p));
        self.word(stop.word());
        self.member(b",\"at\":{\"lwp\":", table.tid(l));
        self.0.word(b",\"signal\":");
        self.signal(stop.signal);
        self.0.word(b",\"flags\":");
        self.names(&FLAGS, stop.flags.into());
        self.member(b",\"child\":", stop.child);
        self.member(b",\"code\":", stop.code);
        self.0.word(b"}");
    }

    fn decided(&mut self, index: Option<usize>, decision: Decision, pass: u8) {
        match index {
            Some(index) => self.member(b",\"by\":", index as u32),
            None => self.0.word(b",\"by\":null"),
        }
        self.0.word(b",\"decision\":\"");
        match decision {
            Decision::Decline => self.0.word(b"decline\""),
            Decision::Leave => self.0.word(b"leave\""),
            Decision::Kill => self.0.word(b"kill\""),
            Decision::Continue => {
                self.0.word(b"continue\"");
                self.pass(pass);
            }
            Decision::Detach => {
                self.0.word(b"detach\"");
                self.pass(pass);
            }
        }
        self.end();
    }
}
