//! The end of a process, and of all whose debuggers end with it.

use crate::names::{bit, KILL, ON_VFORK, TRAP};
use crate::rows::{Due, Mode, ProcessSlot, State, NOBODY, NO_LWP};
use crate::tables::Table;

/// Processes that end at once: in a list, and as a set of slots.
struct Doomed {
    list: [ProcessSlot; 256],
    count: usize,
    set: [u64; 4],
}

impl Doomed {
    fn of(first: ProcessSlot) -> Doomed {
        let mut doomed = Doomed {
            list: [NOBODY; 256],
            count: 0,
            set: [0; 4],
        };
        doomed.add(first);
        doomed
    }

    fn add(&mut self, p: ProcessSlot) {
        self.list[self.count % 256] = p;
        self.count += 1;
        self.set[p.slot() / 64] |= 1 << (p.slot() % 64);
    }

    fn has(&self, p: ProcessSlot) -> bool {
        self.set[p.slot() / 64] >> (p.slot() % 64) & 1 != 0
    }

    fn list(&self) -> &[ProcessSlot] {
        &self.list[..self.count]
    }
}

impl Table {
    /// Ends a process with this word of its status.
    pub fn end(&mut self, p: ProcessSlot, word: u16) {
        if !self.front.kills_tracees {
            self.set_free(p);
        }
        let row = &self.processes[p];
        if row.tracees == NOBODY && row.children == NOBODY {
            self.leave_rows(p);
            self.leave_status(p, word);
        } else {
            self.end_all(p, word);
        }
    }

    /// Detaches all live tracees of a debugger that ends.
    fn set_free(&mut self, debugger: ProcessSlot) {
        let mut p = self.processes[debugger].tracees;
        while p != NOBODY {
            let next = self.next_tracee(p);
            let state = self.processes[p].state;
            if let State::Trace { .. } = state {
                self.drop_pending(p, bit(TRAP));
            }
            if !matches!(state, State::Zombie { .. }) {
                self.detach(p, 0);
            }
            p = next;
        }
    }

    /// The process and every live one from which a chain of tracers leads to it.
    fn doomed_with(&self, first: ProcessSlot) -> Doomed {
        let mut doomed = Doomed::of(first);
        let mut index = 0;
        while index < doomed.count {
            let mut p = self.processes[doomed.list[index]].tracees;
            while p != NOBODY {
                if !matches!(self.processes[p].state, State::Zombie { .. }) {
                    doomed.add(p);
                }
                p = self.next_tracee(p);
            }
            index += 1;
        }
        doomed
    }

    /// Ends a process that others name, and those that end with it.
    fn end_all(&mut self, first: ProcessSlot, word: u16) {
        let doomed = self.doomed_with(first);
        for &p in doomed.list() {
            self.leave_rows(p);
            while self.processes[p].children != NOBODY {
                self.part(self.processes[p].children, &doomed);
            }
            while self.processes[p].tracees != NOBODY {
                self.part(self.processes[p].tracees, &doomed);
            }
        }
        for &p in doomed.list() {
            self.leave_status(p, if p == first { word } else { KILL.into() });
        }
    }

    /// A process loses its parent and its tracer if they end. One that had ended before may be reported anew, or is gone.
    fn part(&mut self, p: ProcessSlot, doomed: &Doomed) {
        let row = &self.processes[p];
        let was_zombie = matches!(row.state, State::Zombie { .. });
        let (loses_tracer, loses_parent) = (doomed.has(row.tracer), doomed.has(row.parent));
        if loses_tracer {
            self.set_tracer(p, NOBODY);
        }
        if loses_parent {
            self.set_parent(p, NOBODY);
        }
        let row = &self.processes[p];
        let (tracer, parent) = (row.tracer, row.parent);
        if !was_zombie {
            return;
        }
        if tracer == NOBODY && parent == NOBODY {
            self.remove_process(p);
        } else if loses_tracer {
            self.post_child(parent);
        }
    }

    /// Makes a process a zombie, which its tracer or its parent is told of. Without either it is gone.
    #[inline]
    fn leave_status(&mut self, p: ProcessSlot, word: u16) {
        let row = &mut self.processes[p];
        let told = if row.tracer != NOBODY { row.tracer } else { row.parent };
        if told == NOBODY {
            return self.remove_process(p);
        }
        row.state = State::Zombie { word };
        row.mask = 0;
        row.continued = false;
        row.ignored = 0;
        row.caught = 0;
        row.pending = 0;
        self.set_news(p, true);
        self.post_child(told);
    }

    /// Takes the LWPs and the handlers of a process away, and lets the LWP go on that waits for it.
    fn leave_rows(&mut self, p: ProcessSlot) {
        self.release(p);
        while self.processes[p].first != NO_LWP {
            self.remove_lwp(self.processes[p].first);
        }
        let row = &mut self.processes[p];
        row.lwp_pending = 0;
        row.odd = false;
        if row.handlers > 0 {
            self.remove_handlers(p);
        }
    }

    /// Lets the LWP go on that waits for this child of its vfork.
    pub fn release(&mut self, p: ProcessSlot) {
        let waiter = std::mem::replace(&mut self.processes[p].waiter, NO_LWP);
        let lwp = &mut self.lwps[waiter];
        if waiter == NO_LWP || lwp.mode != Mode::VforkWait || lwp.awaited != p {
            return;
        }
        lwp.mode = Mode::User;
        let maker = &mut self.processes[lwp.process];
        if maker.mask & ON_VFORK != 0 {
            maker.odd = true;
            lwp.due = Due::VforkDone;
        }
    }
}
