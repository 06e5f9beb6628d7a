//! The calls of a script.

use super::{succeeded, Go, Going, Line, Script, Turns};
use crate::process::{Answer, Memory, Next, Place, When};
use crate::step::Step;
use tracehost::{
    Act, Call, Disposition, Errno, Error, Reply, Request, Signal, SignalSet, WaitOptions, WaitStatus, Which,
};

impl Script {
    /// wait4(2) for a process, until it has news.
    pub fn wait(&mut self, pid: u32, then: impl Fn(&mut Place, WaitStatus) -> Going + Send + Sync + 'static) {
        self.wait_for(
            Which::Process(pid),
            WaitOptions::empty(),
            move |place, answer| match answer {
                Ok(Reply::Status { status, .. }) => then(place, *status),
                answer => succeeded(answer),
            },
        );
    }

    /// wait4(2), until there is news, or an error.
    pub fn wait_for(
        &mut self,
        which: Which,
        options: WaitOptions,
        then: impl Fn(&mut Place, &Answer) -> Going + Send + Sync + 'static,
    ) {
        let step = Step::Wait4(self.caller(), which, options);
        self.step(
            move |_, _| Next::Step(step, When::News),
            move |place, _, answer| then(place, answer),
        );
        self.outline.step(step, When::News);
    }

    /// wait4(2) with WNOHANG.
    pub fn poll(&mut self, which: Which, then: impl Fn(&mut Place, &Answer) -> Going + Send + Sync + 'static) {
        let step = Step::Wait4(self.caller(), which, WaitOptions::WNOHANG);
        self.step(
            move |_, _| Next::Step(step, When::Runs),
            move |place, _, answer| then(place, answer),
        );
        self.outline.step(step, When::Runs);
    }

    /// ptrace(2). An errno is a failure.
    pub fn ptrace(&mut self, request: Request, target: u32) {
        self.ptrace_then(request, move |_| target, |_, answer| succeeded(answer));
        self.outline
            .step(Step::Ptrace(self.caller(), request, target), When::Runs);
    }

    /// ptrace(2), with a target that may depend on what the process remembers.
    pub fn ptrace_then(
        &mut self,
        request: Request,
        target: impl Fn(&Place) -> u32 + Send + Sync + 'static,
        then: impl Fn(&mut Place, &Answer) -> Going + Send + Sync + 'static,
    ) {
        let caller = self.caller();
        self.step(
            move |place, _| Next::Step(Step::Ptrace(caller, request, target(place)), When::Runs),
            move |place, _, answer| then(place, answer),
        );
        self.outline.note(format!("{request:?}"));
    }

    /// kill(2). That there is no such process is no failure.
    pub fn kill(&mut self, pid: u32, signal: Signal) {
        let step = Step::Kill(self.caller(), Which::Process(pid), Some(signal));
        self.step(
            move |_, _| Next::Step(step, When::Runs),
            |_, _, answer| match answer {
                Err(Error::Errno(Errno::ESRCH)) => Ok(Go::On),
                answer => succeeded(answer),
            },
        );
        self.outline.step(step, When::Runs);
    }

    /// sigaction(2).
    pub fn sigaction(&mut self, signal: Signal, disposition: Disposition) {
        let step = Step::Sigaction(self.caller(), signal, disposition);
        self.step(
            move |_, _| Next::Step(step, When::Runs),
            |_, _, answer| succeeded(answer),
        );
        self.outline.step(step, When::Runs);
    }

    /// Turns of the LWP until the act is made: stops and signals may come before it.
    pub fn act(&mut self, act: Act) {
        self.act_then(act, |_, _| Ok(Go::On));
    }

    /// The same, and then what the answer leads to.
    pub fn act_then(&mut self, act: Act, then: impl Fn(&mut Place, &Reply) -> Going + Send + Sync + 'static) {
        self.act_with(move |_, _| Some(act), move |place, _, reply| then(place, reply));
        self.outline.step(Step::Turn(self.user, self.own.lwp, act), When::Runs);
    }

    /// An act that depends on the memory, and may change it. Without an act it sleeps until the memory changes, and meets
    /// signals meanwhile.
    pub fn act_with(
        &mut self,
        act: impl Fn(&Place, &Memory) -> Option<Act> + Send + Sync + 'static,
        then: impl Fn(&mut Place, &mut Memory, &Reply) -> Going + Send + Sync + 'static,
    ) {
        self.line(Line::Turns(Turns {
            when: When::Runs,
            act: Box::new(act),
            then: Box::new(then),
            ends: None,
        }));
    }

    /// Turns until a fixed act is made.
    fn turns(&mut self, act: Act, when: When, ends: Option<u8>) {
        self.line(Line::Turns(Turns {
            when,
            act: Box::new(move |_, _| Some(act)),
            then: Box::new(|_, _, _| Ok(Go::On)),
            ends,
        }));
        self.outline.step(Step::Turn(self.user, self.own.lwp, act), when);
    }

    /// Enters a call and leaves it.
    pub fn call(&mut self, call: Call) {
        self.call_then(call, |_, _| Ok(Go::On));
    }

    /// The same, and then what the answer to the second turn leads to.
    pub fn call_then(&mut self, call: Call, then: impl Fn(&mut Place, &Reply) -> Going + Send + Sync + 'static) {
        self.as_one(|script| {
            script.act(Act::Enter(call));
            script.act_then(Act::Leave, then);
        });
    }

    /// raise(3): posts a signal to the LWP itself, and meets it.
    pub fn raise(&mut self, signal: Signal) {
        self.as_one(|script| {
            script.act(Act::Raise(signal));
            script.act(Act::Compute);
        });
    }

    /// pause(2).
    pub fn pause(&mut self) {
        self.as_one(|script| {
            script.act(Act::Enter(Call::Other(29)));
            script.turns(Act::Leave, When::Signal(script.own.lwp), None);
            script.act(Act::Compute);
        });
    }

    /// sigsuspend(2): blocks the signals `asleep` until one that it doesn't block is caught, and then those `after`.
    pub fn sigsuspend(&mut self, asleep: SignalSet, after: SignalSet) {
        self.as_one(|script| {
            script.act(Act::Block(asleep));
            let last = script.lines.len() as u8 + 3;
            script.turns(Act::Enter(Call::Other(341)), When::Runs, Some(last));
            script.turns(Act::Leave, When::Signal(script.own.lwp), None);
            script.act(Act::Compute);
            script.act(Act::Block(after));
        });
    }
}
