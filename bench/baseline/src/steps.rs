//! A step of a user: its line is written as soon as its reply is known.

use crate::names::{
    bit, Action, Call, Decision, Error, Request, Signals, KILL, LAST_SIGNAL, UNBLOCKABLE, WCONTINUED, WUNTRACED,
};
use crate::replies::Replies;
use crate::rows::{stop_word, Due, LwpSlot, ProcessSlot, Rule, State, Stop, NOBODY};
use crate::tables::Table;

pub const MOST_RULES: usize = 16;
pub const CONTINUED_WORD: u16 = 19;

/// A process, -1 for any or all, or a number that isn't allowed.
pub type Which = i32;

#[derive(Clone, Copy)]
pub enum Act {
    Compute,
    Raise(u32),
    Block(Signals),
    Enter(Call),
    Leave,
}

#[derive(Clone, Copy)]
pub enum Step {
    Spawn,
    Ptrace {
        caller: u32,
        request: Request,
        target: u32,
        data: u32,
    },
    Wait {
        caller: u32,
        which: Which,
        options: u8,
    },
    Kill {
        caller: u32,
        which: Which,
        signal: u32,
    },
    Sigaction {
        caller: u32,
        signal: u32,
        action: Action,
    },
    List {
        caller: u32,
    },
    /// A policy: the rules from `first` to before `end`.
    Install {
        caller: u32,
        first: u32,
        end: u32,
    },
    Handle {
        caller: u32,
    },
    Turn {
        lwp: u32,
        act: Act,
    },
}

/// What a wait has collected: the process, which may be removed now, and the LWP if it reports a trace stop.
struct Collected {
    process: ProcessSlot,
    word: u16,
    stopped: Option<LwpSlot>,
}

impl Table {
    /// Makes the step, and writes its reply.
    #[inline(always)]
    pub fn step(&mut self, step: &Step, rules: &[Rule], lines: &mut impl Replies) {
        let done = match *step {
            Step::Turn { lwp, act } => self.turn(lwp, act, lines),
            Step::Spawn => self.spawn(lines),
            Step::Ptrace { caller, .. }
            | Step::Wait { caller, .. }
            | Step::Kill { caller, .. }
            | Step::Sigaction { caller, .. }
            | Step::List { caller }
            | Step::Install { caller, .. }
            | Step::Handle { caller } => self.call(caller, step, rules, lines),
        };
        if let Err(error) = done {
            lines.error(error);
        }
    }

    fn spawn(&mut self, lines: &mut impl Replies) -> Result<(), Error> {
        if !self.has_room(true) {
            return Err(Error::Again);
        }
        let p = self.add_process(NOBODY);
        let l = self.add_lwp(p, 0, Due::Nothing);
        lines.made(self, l);
        Ok(())
    }

    #[inline(always)]
    fn call(&mut self, number: u32, step: &Step, rules: &[Rule], lines: &mut impl Replies) -> Result<(), Error> {
        let caller = self.find(number).ok_or(Error::Srch)?;
        match self.processes[caller].state {
            State::Run => {}
            State::Zombie { .. } => return Err(Error::Srch),
            State::Trace { .. } | State::Job { .. } => {
                lines.held();
                return Ok(());
            }
        }
        match *step {
            Step::Ptrace {
                request, target, data, ..
            } => return self.ptrace(caller, request, target, data, lines),
            Step::Wait { which, options, .. } => return self.wait(caller, which, options, lines),
            Step::Handle { .. } => return self.handle(caller, rules, lines),
            Step::List { .. } | Step::Spawn | Step::Turn { .. } => {
                lines.pids(self);
                return Ok(());
            }
            Step::Kill { which, signal, .. } => self.kill(caller, which, signal)?,
            Step::Sigaction { signal, action, .. } => self.sigaction(caller, signal, action)?,
            Step::Install { first, end, .. } => {
                self.add_handler(caller, first, end, rules).ok_or(Error::Again)?;
            }
        }
        lines.ok();
        Ok(())
    }

    fn sigaction(&mut self, caller: ProcessSlot, signal: u32, action: Action) -> Result<(), Error> {
        if signal == 0 || signal > LAST_SIGNAL {
            return Err(Error::Inval);
        }
        let set = bit(signal as u8);
        if UNBLOCKABLE & set != 0 && action != Action::Default {
            return Err(Error::Inval);
        }
        let row = &mut self.processes[caller];
        row.ignored &= !set;
        row.caught &= !set;
        match action {
            Action::Default => {}
            Action::Ignore => row.ignored |= set,
            Action::Catch => row.caught |= set,
        }
        self.settle(caller);
        Ok(())
    }

    fn kill(&mut self, caller: ProcessSlot, which: Which, signal: u32) -> Result<(), Error> {
        if signal > LAST_SIGNAL || which == 0 || which < -1 {
            return Err(Error::Inval);
        }
        if which != -1 {
            let p = self.find(which as u32).ok_or(Error::Srch)?;
            self.kill_one(p, signal as u8);
            return Ok(());
        }
        if self.process_count() == 1 {
            return Err(Error::Srch);
        }
        if signal != 0 {
            self.kill_others(caller, signal as u8);
        }
        Ok(())
    }

    #[inline(always)]
    fn kill_one(&mut self, p: ProcessSlot, signal: u8) {
        if signal != 0 && !matches!(self.processes[p].state, State::Zombie { .. }) {
            self.post(p, signal, None);
        }
    }

    fn kill_others(&mut self, caller: ProcessSlot, signal: u8) {
        if signal == KILL {
            return self.end_others(caller);
        }
        self.change_each_process(|table, p| {
            if p != caller {
                table.kill_one(p, signal);
            }
        });
    }

    /// Each end may end others too.
    fn end_others(&mut self, caller: ProcessSlot) {
        let mut from = 0;
        while let Some(p) = self.next_process(from) {
            from = self.processes[p].place + 1;
            if p != caller {
                self.kill_one(p, KILL);
            }
        }
    }

    fn wait(&mut self, caller: ProcessSlot, which: Which, options: u8, lines: &mut impl Replies) -> Result<(), Error> {
        if which == 0 || which < -1 {
            return Err(Error::Inval);
        }
        match self.collect(caller, which, options)? {
            Some(Collected { process, word, .. }) => lines.status(self, process, word),
            None => lines.nothing(),
        }
        Ok(())
    }

    /// The word of the status that a wait by the caller reports of the process, if there is one.
    #[inline(always)]
    fn reportable(&self, p: ProcessSlot, caller: ProcessSlot, options: u8) -> Option<u16> {
        let row = &self.processes[p];
        let is_parent = row.parent == caller;
        let (is_told, word) = match row.state {
            State::Trace { signal, seen, .. } => (!seen && row.tracer == caller, stop_word(signal)),
            State::Zombie { word } => {
                let told = if row.tracer != NOBODY { row.tracer } else { row.parent };
                (told == caller, word)
            }
            State::Job { signal, seen } => (!seen && is_parent && options & WUNTRACED != 0, stop_word(signal)),
            State::Run => (row.continued && is_parent && options & WCONTINUED != 0, CONTINUED_WORD),
        };
        is_told.then_some(word)
    }

    #[inline(always)]
    fn collect(&mut self, caller: ProcessSlot, which: Which, options: u8) -> Result<Option<Collected>, Error> {
        let found = if which == -1 {
            let row = &self.processes[caller];
            if row.children == NOBODY && row.tracees == NOBODY {
                return Err(Error::Child);
            }
            self.first_news(caller, options)
        } else {
            let p = self.find(which as u32).ok_or(Error::Child)?;
            let row = &self.processes[p];
            if row.tracer != caller && row.parent != caller {
                return Err(Error::Child);
            }
            self.reportable(p, caller, options).map(|word| (p, word))
        };
        Ok(found.map(|(process, word)| Collected {
            process,
            word,
            stopped: self.take_news(process, caller),
        }))
    }

    #[inline(always)]
    fn first_news(&self, caller: ProcessSlot, options: u8) -> Option<(ProcessSlot, u16)> {
        let mut from = 0;
        while let Some(p) = self.next_news(from) {
            if let Some(word) = self.reportable(p, caller, options) {
                return Some((p, word));
            }
            from = self.processes[p].place + 1;
        }
        None
    }

    /// Takes the news of a process, and returns the LWP of a trace stop.
    fn take_news(&mut self, p: ProcessSlot, caller: ProcessSlot) -> Option<LwpSlot> {
        let row = &mut self.processes[p];
        let mut stopped = None;
        match &mut row.state {
            State::Trace { lwp, seen, .. } => {
                *seen = true;
                stopped = Some(*lwp);
            }
            State::Zombie { .. } => {
                let parent = row.parent;
                if row.tracer == caller && parent != NOBODY && parent != caller {
                    self.set_tracer(p, NOBODY);
                    self.post_child(parent);
                } else {
                    self.remove_process(p);
                }
                return None;
            }
            State::Job { seen, .. } => *seen = true,
            State::Run => row.continued = false,
        }
        self.set_news(p, false);
        stopped
    }

    /// A debugger collects a stop, and its handlers decide what it does then.
    fn handle(&mut self, caller: ProcessSlot, rules: &[Rule], lines: &mut impl Replies) -> Result<(), Error> {
        let Some(Collected {
            process: p,
            word,
            stopped,
        }) = self.collect(caller, -1, 0)?
        else {
            lines.nothing();
            return Ok(());
        };
        let Some(l) = stopped else {
            lines.status(self, p, word);
            return Ok(());
        };
        let row = &self.lwps[l];
        let stop = Stop {
            signal: (word / 256) as u8,
            flags: row.flags,
            child: row.child,
            code: row.code,
        };
        lines.handled(self, p, l, &stop);
        let (index, rule) = self.decided(caller, &stop, rules);
        lines.decided(index, rule.decision, rule.pass);
        match rule.decision {
            Decision::Continue => self.carry_on(p, rule.pass, None),
            Decision::Detach => self.detach(p, rule.pass),
            Decision::Kill => self.end(p, KILL.into()),
            Decision::Decline | Decision::Leave => {}
        }
        Ok(())
    }

    /// The first rule of the debugger's handlers that fits and doesn't decline, and the index of its handler.
    #[inline(always)]
    fn decided(&self, debugger: ProcessSlot, stop: &Stop, rules: &[Rule]) -> (Option<usize>, Rule) {
        let own = self.handlers.iter().filter(|handler| handler.debugger == debugger);
        for (index, handler) in own.enumerate().filter(|(_, handler)| handler.may_fit(stop)) {
            let policy = &rules[handler.first as usize..handler.end as usize];
            match policy.iter().find(|rule| rule.fits(stop)) {
                Some(rule) if rule.decision != Decision::Decline => return (Some(index), *rule),
                _ => {}
            }
        }
        (None, Rule::NONE)
    }
}
