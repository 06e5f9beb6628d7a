//! Requests of ptrace(2).

use crate::names::{Error, Request, ALL_EVENTS, KILL, LAST_SIGNAL, ON_ENTRY, ON_EXIT, ON_FORK, ON_LWP, STOP};
use crate::replies::Replies;
use crate::rows::{LwpSlot, ProcessSlot, State, Stop, NOBODY};
use crate::tables::Table;

const LAST_PROCESS: u32 = 99_999;

impl Table {
    #[inline(always)]
    pub fn ptrace(
        &mut self,
        caller: ProcessSlot,
        request: Request,
        target: u32,
        data: u32,
        lines: &mut impl Replies,
    ) -> Result<(), Error> {
        match request {
            Request::TraceMe => self.trace_me(caller)?,
            Request::Attach => {
                let (target, _) = self.find_target(target).ok_or(Error::Srch)?;
                self.attach(caller, target)?;
            }
            _ => {
                let (target, named) = self.find_target(target).ok_or(Error::Srch)?;
                let reporting = self.reporting(target, caller)?;
                return self.request(target, named.unwrap_or(reporting), request, data, lines);
            }
        }
        lines.ok();
        Ok(())
    }

    /// The LWP that reports a tracee's stop, which a wait has collected.
    #[inline(always)]
    fn reporting(&self, p: ProcessSlot, debugger: ProcessSlot) -> Result<LwpSlot, Error> {
        let row = &self.processes[p];
        match row.state {
            State::Trace { lwp, seen: true, .. } if row.tracer == debugger => Ok(lwp),
            _ if row.tracer == NOBODY => Err(Error::Perm),
            _ => Err(Error::Busy),
        }
    }

    /// The live process that a number means, and its LWP if the number names one.
    #[inline(always)]
    fn find_target(&self, number: u32) -> Option<(ProcessSlot, Option<LwpSlot>)> {
        let (p, lwp) = if number > LAST_PROCESS {
            let l = self.find_lwp(number)?;
            (self.lwps[l].process, Some(l))
        } else {
            (self.find(number)?, None)
        };
        (!matches!(self.processes[p].state, State::Zombie { .. })).then_some((p, lwp))
    }

    /// Whether a process traces another, directly or through others.
    #[inline(always)]
    fn traces(&self, debugger: ProcessSlot, p: ProcessSlot) -> bool {
        if self.processes[debugger].tracees == NOBODY {
            return false;
        }
        let mut at = p;
        while at != NOBODY {
            at = self.processes[at].tracer;
            if at == debugger {
                return true;
            }
        }
        false
    }

    fn trace_me(&mut self, caller: ProcessSlot) -> Result<(), Error> {
        let row = &self.processes[caller];
        let parent = row.parent;
        if row.tracer != NOBODY {
            return Err(Error::Busy);
        }
        if parent == NOBODY {
            return Err(Error::Perm);
        }
        if self.traces(caller, parent) {
            return Err(Error::Inval);
        }
        self.trace(caller, parent);
        Ok(())
    }

    #[inline(always)]
    fn attach(&mut self, caller: ProcessSlot, target: ProcessSlot) -> Result<(), Error> {
        if caller == target {
            return Err(Error::Inval);
        }
        if self.processes[target].tracer != NOBODY {
            return Err(Error::Busy);
        }
        if self.traces(target, caller) {
            return Err(Error::Inval);
        }
        self.trace(target, caller);
        let stop = Stop {
            signal: STOP,
            flags: 0,
            child: 0,
            code: 0,
        };
        self.trace_stop(self.processes[target].first, stop);
        Ok(())
    }

    /// A request about a tracee in a stop that was reported.
    #[inline(always)]
    fn request(
        &mut self,
        p: ProcessSlot,
        l: LwpSlot,
        request: Request,
        data: u32,
        lines: &mut impl Replies,
    ) -> Result<(), Error> {
        match request {
            Request::Continue
            | Request::Step
            | Request::ToSce
            | Request::ToScx
            | Request::Syscall
            | Request::Detach => {
                if data > LAST_SIGNAL {
                    return Err(Error::Inval);
                }
                self.pass_on(p, l, request, data as u8);
            }
            Request::LwpInfo | Request::GetEventMask | Request::GetNumLwps | Request::GetLwpList => {
                return self.tell(p, l, request, data, lines);
            }
            Request::Kill => self.end(p, KILL.into()),
            Request::Suspend => {
                self.lwps[l].suspended = true;
                self.processes[p].odd = true;
            }
            Request::Resume => self.lwps[l].suspended = false,
            Request::SetEventMask if data > ALL_EVENTS => return Err(Error::Inval),
            Request::SetEventMask => self.processes[p].mask = data as u8,
            Request::FollowFork => self.switch(p, ON_FORK, data),
            Request::LwpEvents => self.switch(p, ON_LWP, data),
            Request::TraceMe | Request::Attach => {}
        }
        lines.ok();
        Ok(())
    }

    /// What a tracee is asked about.
    fn tell(
        &self,
        p: ProcessSlot,
        l: LwpSlot,
        request: Request,
        most: u32,
        lines: &mut impl Replies,
    ) -> Result<(), Error> {
        match request {
            Request::GetLwpList if most == 0 => return Err(Error::Inval),
            Request::GetLwpList => lines.lwps(self, p, most),
            Request::GetEventMask => lines.mask(self.processes[p].mask),
            Request::GetNumLwps => lines.count(self.processes[p].lwps),
            _ => lines.info(self, l),
        }
        Ok(())
    }

    fn switch(&mut self, p: ProcessSlot, event: u8, data: u32) {
        let mask = &mut self.processes[p].mask;
        *mask = if data != 0 { *mask | event } else { *mask & !event };
    }

    #[inline(always)]
    fn pass_on(&mut self, p: ProcessSlot, l: LwpSlot, request: Request, signal: u8) {
        let events = match request {
            Request::Detach => return self.detach(p, signal),
            Request::ToSce => ON_ENTRY,
            Request::ToScx => ON_EXIT,
            Request::Syscall => ON_ENTRY | ON_EXIT,
            _ => 0,
        };
        self.processes[p].mask |= events;
        self.carry_on(p, signal, (request == Request::Step).then_some(l));
    }
}
