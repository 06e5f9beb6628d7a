//! Turns of LWPs: stops that are due, signals that are met, acts, and the work of system calls.

use crate::names::{
    bit, Call, Error, Signals, CHILD, EXEC, EXITED, FORKED, KILL, LAST_SIGNAL, ON_ENTRY, ON_EXEC, ON_EXIT, ON_FORK,
    ON_LWP, SCE, SCX, STOP, TRAP, UNBLOCKABLE, VFORKED,
};
use crate::replies::Replies;
use crate::rows::{Due, LwpSlot, Mode, ProcessSlot, State, Stop, NOBODY, NO_LWP};
use crate::rules::{effect, Effect};
use crate::steps::Act;
use crate::tables::Table;

type Done = Result<(), Error>;

/// What a call has made: an LWP, of a new process or of its own.
type Made = Option<LwpSlot>;

impl Table {
    #[inline(always)]
    pub fn turn(&mut self, number: u32, act: Act, lines: &mut impl Replies) -> Done {
        let l = self.find_lwp(number).ok_or(Error::Srch)?;
        let lwp = &self.lwps[l];
        let p = lwp.process;
        let process = &self.processes[p];
        if process.state != State::Run || lwp.suspended || lwp.mode == Mode::VforkWait {
            lines.held();
            return Ok(());
        }
        if lwp.due != Due::Nothing {
            self.stop_that_is_due(l, lines);
            return Ok(());
        }
        if lwp.mode == Mode::InCall {
            return match act {
                Act::Leave => self.leave(p, l, lwp.call, lines),
                _ => Err(Error::Inval),
            };
        }
        let met = (lwp.pending | process.pending) & !lwp.blocked;
        if met != 0 {
            self.meet(p, l, met.trailing_zeros() as u8, lines);
            return Ok(());
        }
        match act {
            Act::Enter(call) => self.enter(p, l, call, lines),
            Act::Leave => return Err(Error::Inval),
            Act::Compute => self.compute(p, l, lines),
            Act::Raise(signal) => return self.raise(p, l, signal, lines),
            Act::Block(set) => self.block(l, set, lines),
        }
        Ok(())
    }

    fn stops(&mut self, l: LwpSlot, stop: Stop, lines: &mut impl Replies) {
        self.trace_stop(l, stop);
        lines.stopped(self, l, stop.signal, stop.flags);
    }

    fn stop_that_is_due(&mut self, l: LwpSlot, lines: &mut impl Replies) {
        let due = std::mem::replace(&mut self.lwps[l].due, Due::Nothing);
        self.stops(l, due.stop(), lines);
    }

    /// The LWP meets a pending signal, its own before one of its process.
    fn meet(&mut self, p: ProcessSlot, l: LwpSlot, signal: u8, lines: &mut impl Replies) {
        let lwp = &mut self.lwps[l];
        let process = &mut self.processes[p];
        if lwp.pending & bit(signal) != 0 {
            lwp.pending &= !bit(signal);
        } else {
            process.pending &= !bit(signal);
        }
        if process.tracer != NOBODY {
            return self.stops(l, plain(signal, 0, 0), lines);
        }
        match effect(process, signal) {
            Effect::Catch => lines.caught(signal),
            Effect::Stop => {
                self.job_stop(p, signal);
                lines.stopped(self, l, signal, 0);
            }
            Effect::Nothing | Effect::End => {
                self.end(p, signal.into());
                lines.ended(signal.into());
            }
        }
    }

    #[inline]
    fn enter(&mut self, p: ProcessSlot, l: LwpSlot, call: Call, lines: &mut impl Replies) {
        let lwp = &mut self.lwps[l];
        lwp.mode = Mode::InCall;
        lwp.call = call;
        if self.processes[p].mask & ON_ENTRY == 0 {
            lines.ok();
        } else {
            self.stops(l, plain(TRAP, SCE, call.code()), lines);
        }
    }

    fn compute(&mut self, p: ProcessSlot, l: LwpSlot, lines: &mut impl Replies) {
        let process = &mut self.processes[p];
        if process.stepping != l {
            return lines.ok();
        }
        process.stepping = NO_LWP;
        self.stops(l, plain(TRAP, 0, 0), lines);
    }

    fn raise(&mut self, p: ProcessSlot, l: LwpSlot, signal: u32, lines: &mut impl Replies) -> Done {
        if signal == 0 || signal > LAST_SIGNAL {
            return Err(Error::Inval);
        }
        self.post(p, signal as u8, Some(l));
        if signal as u8 == KILL {
            lines.ended(KILL.into());
        } else {
            lines.ok();
        }
        Ok(())
    }

    fn block(&mut self, l: LwpSlot, set: Signals, lines: &mut impl Replies) {
        self.lwps[l].blocked = set & !UNBLOCKABLE;
        lines.ok();
    }

    /// Does the work of a call, and then stops at its exit if the tracer wants that.
    #[inline(always)]
    fn leave(&mut self, p: ProcessSlot, l: LwpSlot, call: Call, lines: &mut impl Replies) -> Done {
        match call {
            Call::Fork | Call::Vfork => return self.leave_fork(p, l, call, lines),
            Call::ThrNew => return self.leave_thr_new(p, l, lines),
            Call::ThrExit => self.leave_thr_exit(p, l, lines),
            Call::Exit(status) => {
                let word = u16::from(status) * 256;
                self.end(p, word);
                lines.ended(word);
            }
            Call::Exec => {
                self.execute(p, l);
                self.exit_of_call(p, l, call, (ON_EXEC, EXEC), None, lines);
            }
            Call::Other(_) => {
                self.lwps[l].mode = Mode::User;
                self.exit_of_call(p, l, call, (0, 0), None, lines);
            }
        }
        Ok(())
    }

    /// The stop of a call's exit, under its event with its flags, or under PTRACE_SCX; without one the call's answer.
    #[inline]
    fn exit_of_call(
        &mut self,
        p: ProcessSlot,
        l: LwpSlot,
        call: Call,
        event: (u8, u16),
        made: Made,
        lines: &mut impl Replies,
    ) {
        let mask = self.processes[p].mask;
        let (event, flags) = event;
        let (flags, child) = if event & mask != 0 {
            (flags | SCX, made.map_or(0, |new| self.pid(self.lwps[new].process)))
        } else if mask & ON_EXIT != 0 {
            (SCX, 0)
        } else {
            return match made {
                Some(new) => lines.made(self, new),
                None => lines.ok(),
            };
        };
        let stop = Stop {
            child,
            ..plain(TRAP, flags, call.code())
        };
        self.stops(l, stop, lines);
    }

    fn leave_thr_exit(&mut self, p: ProcessSlot, l: LwpSlot, lines: &mut impl Replies) {
        let process = &self.processes[p];
        if process.lwps == 1 {
            self.end(p, 0);
            lines.ended(0);
        } else if process.mask & ON_LWP != 0 {
            self.stops(l, plain(TRAP, EXITED, 0), lines);
        } else {
            self.remove_lwp(l);
            lines.ok();
        }
    }

    fn leave_thr_new(&mut self, p: ProcessSlot, l: LwpSlot, lines: &mut impl Replies) -> Done {
        if !self.has_room(false) {
            return Err(Error::Again);
        }
        let mask = self.processes[p].mask;
        let due = if mask & ON_LWP != 0 {
            Due::Birth
        } else if mask & ON_EXIT != 0 {
            Due::FirstExit
        } else {
            Due::Nothing
        };
        self.lwps[l].mode = Mode::User;
        let new = self.add_lwp(p, self.lwps[l].blocked, due);
        self.exit_of_call(p, l, Call::ThrNew, (0, 0), Some(new), lines);
        Ok(())
    }

    /// Makes a child, which the tracer follows under PTRACE_FORK.
    fn leave_fork(&mut self, p: ProcessSlot, l: LwpSlot, call: Call, lines: &mut impl Replies) -> Done {
        if !self.has_room(true) {
            return Err(Error::Again);
        }
        let child = self.add_process(p);
        let first = self.add_lwp(child, self.lwps[l].blocked, Due::Nothing);
        let (ignored, caught) = (self.processes[p].ignored, self.processes[p].caught);
        let row = &mut self.processes[child];
        row.ignored = ignored;
        row.caught = caught;
        let parent = &self.processes[p];
        if parent.tracer != NOBODY && parent.mask & ON_FORK != 0 {
            self.trace(child, parent.tracer);
            self.trace_stop(first, plain(STOP, SCX | CHILD, call.code()));
        }
        let lwp = &mut self.lwps[l];
        let mut flags = FORKED;
        lwp.mode = Mode::User;
        if call == Call::Vfork {
            flags |= VFORKED;
            lwp.mode = Mode::VforkWait;
            lwp.awaited = child;
            self.processes[child].waiter = l;
        }
        self.exit_of_call(p, l, call, (ON_FORK, flags), Some(first), lines);
        Ok(())
    }

    /// The LWP's process does an exec: a vfork of its maker is over.
    fn execute(&mut self, p: ProcessSlot, l: LwpSlot) {
        let mut at = self.processes[p].first;
        while at != NO_LWP {
            let next = self.lwps[at].next;
            if at != l {
                self.remove_lwp(at);
            }
            at = next;
        }
        self.release(p);
        let lwp = &mut self.lwps[l];
        lwp.mode = Mode::User;
        let row = &mut self.processes[p];
        row.caught = 0;
        row.lwp_pending = lwp.pending;
        self.settle(p);
    }
}

fn plain(signal: u8, flags: u16, code: u32) -> Stop {
    Stop {
        signal,
        flags,
        child: 0,
        code,
    }
}
