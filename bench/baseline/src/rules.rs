//! What signals, stops and resuming do to a user's rows.

use crate::names::{bit, Signals, CHLD, CONT, DISCARDED, EXITED, KILL, ON_EXEC, STOPPING};
use crate::rows::{Due, LwpSlot, Process, ProcessSlot, State, Stop, NOBODY, NO_LWP};
use crate::tables::Table;

/// What a signal does to a process.
pub enum Effect {
    Nothing,
    Catch,
    Stop,
    End,
}

pub fn effect(row: &Process, signal: u8) -> Effect {
    let set = bit(signal);
    if row.caught & set != 0 {
        Effect::Catch
    } else if (row.ignored | DISCARDED) & set != 0 {
        Effect::Nothing
    } else if STOPPING & set != 0 {
        Effect::Stop
    } else {
        Effect::End
    }
}

impl Table {
    /// Removes pending signals of a process and of its LWPs.
    #[inline]
    pub fn drop_pending(&mut self, p: ProcessSlot, gone: Signals) {
        let row = &mut self.processes[p];
        row.pending &= !gone;
        if row.lwp_pending & gone != 0 {
            self.drop_lwp_pending(p, gone);
        }
    }

    fn drop_lwp_pending(&mut self, p: ProcessSlot, gone: Signals) {
        let mut left = 0;
        let mut l = self.processes[p].first;
        while l != NO_LWP {
            let lwp = &mut self.lwps[l];
            lwp.pending &= !gone;
            left |= lwp.pending;
            l = lwp.next;
        }
        self.processes[p].lwp_pending = left;
    }

    /// Pending sets of a process that isn't traced lose the signals that do nothing.
    #[inline]
    pub fn settle(&mut self, p: ProcessSlot) {
        let row = &self.processes[p];
        if row.tracer == NOBODY && (row.pending | row.lwp_pending) != 0 {
            let nothing = !row.caught & (row.ignored | DISCARDED);
            self.drop_pending(p, nothing);
        }
    }

    /// Posts a signal to a process, or to the LWP of it that raised the signal.
    #[inline(always)]
    pub fn post(&mut self, p: ProcessSlot, signal: u8, lwp: Option<LwpSlot>) {
        let set = bit(signal);
        if signal == KILL {
            return self.end(p, KILL.into());
        }
        if STOPPING & set != 0 {
            self.drop_pending(p, bit(CONT));
        }
        if signal == CONT {
            self.drop_pending(p, STOPPING);
            self.end_job_stop(p);
        }
        let row = &mut self.processes[p];
        match lwp {
            None => row.pending |= set,
            Some(l) => {
                row.lwp_pending |= set;
                self.lwps[l].pending |= set;
            }
        }
        self.settle(p);
    }

    fn end_job_stop(&mut self, p: ProcessSlot) {
        let row = &mut self.processes[p];
        if let State::Job { .. } = row.state {
            row.state = State::Run;
            row.continued = true;
            let parent = row.parent;
            self.set_news(p, true);
            self.post_child(parent);
        }
    }

    /// Posts SIGCHLD to a process.
    #[inline]
    pub fn post_child(&mut self, receiver: ProcessSlot) {
        let row = &mut self.processes[receiver];
        // it does nothing unless it is caught, or a tracer is to see it
        if row.tracer != NOBODY || row.caught & bit(CHLD) != 0 {
            row.pending |= bit(CHLD);
        }
    }

    pub fn job_stop(&mut self, p: ProcessSlot, signal: u8) {
        let row = &mut self.processes[p];
        row.state = State::Job { signal, seen: false };
        row.continued = false;
        let parent = row.parent;
        self.set_news(p, true);
        self.post_child(parent);
    }

    /// The process is traced from now on, with the mask that tracing begins with.
    #[inline]
    pub fn trace(&mut self, p: ProcessSlot, tracer: ProcessSlot) {
        self.set_tracer(p, tracer);
        let row = &mut self.processes[p];
        row.mask = ON_EXEC;
        row.continued = false;
        self.note(p);
    }

    /// Puts the process of an LWP into this stop, which no wait has collected yet.
    #[inline]
    pub fn trace_stop(&mut self, l: LwpSlot, stop: Stop) {
        let lwp = &mut self.lwps[l];
        lwp.flags = stop.flags;
        lwp.child = stop.child;
        lwp.code = stop.code;
        let p = lwp.process;
        let row = &mut self.processes[p];
        row.state = State::Trace {
            lwp: l,
            signal: stop.signal,
            seen: false,
        };
        let tracer = row.tracer;
        self.set_news(p, true);
        self.post_child(tracer);
    }

    /// The process runs. The reporting LWP has nothing more to report, and is gone if it reported its exit.
    #[inline]
    fn run_again(&mut self, p: ProcessSlot) {
        if let State::Trace { lwp, .. } = self.processes[p].state {
            let row = &mut self.lwps[lwp];
            if row.flags & EXITED != 0 {
                self.remove_lwp(lwp);
            } else {
                row.flags = 0;
                row.child = 0;
                row.code = 0;
            }
        }
        self.processes[p].state = State::Run;
        self.note(p);
    }

    /// Resumes a process with a signal, or with 0, and tells whether it runs then.
    #[inline]
    fn resume(&mut self, p: ProcessSlot, signal: u8) -> bool {
        self.run_again(p);
        if signal != 0 && matches!(effect(&self.processes[p], signal), Effect::End) {
            self.end(p, signal.into());
            return false;
        }
        true
    }

    /// Resumes a process, in which at most this LWP then steps.
    #[inline]
    pub fn carry_on(&mut self, p: ProcessSlot, signal: u8, stepping: Option<LwpSlot>) {
        self.processes[p].stepping = stepping.unwrap_or(NO_LWP);
        self.resume(p, signal);
    }

    /// Resumes a process, which is then traced no longer unless the signal has ended it.
    #[inline]
    pub fn detach(&mut self, p: ProcessSlot, signal: u8) {
        if !self.resume(p, signal) {
            return;
        }
        self.set_tracer(p, NOBODY);
        let row = &mut self.processes[p];
        row.mask = 0;
        row.stepping = NO_LWP;
        if row.odd {
            self.release_lwps(p);
        }
        self.settle(p);
    }

    /// No LWP is suspended, and none has a stop due.
    fn release_lwps(&mut self, p: ProcessSlot) {
        let row = &mut self.processes[p];
        row.odd = false;
        let mut l = row.first;
        while l != NO_LWP {
            let lwp = &mut self.lwps[l];
            lwp.suspended = false;
            lwp.due = Due::Nothing;
            l = lwp.next;
        }
    }
}
