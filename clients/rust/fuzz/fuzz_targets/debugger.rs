//! A fuzzer of a small debugger, which follows forks, and passes signals on. With the feature `wrong` it takes the stop at a
//! vfork's end for a signal, which then ends the target.
#![no_main]

use libfuzzer_sys::fuzz_target;
use std::collections::BTreeMap;
use tracehost::fuzz::{World, USER};
use tracehost::{Caller, EventMask, Reply, Request, Session, Signal, StopFlags, WaitOptions, WaitStatus, Which};

const EVENTS: EventMask = EventMask::all();

struct Debugger {
    caller: Caller,
    /// The tracees, with the flags of their last stops.
    tracees: BTreeMap<u32, StopFlags>,
    /// Whether one was ended by a signal that nobody has sent.
    has_ended_one: bool,
}

impl Debugger {
    fn start(session: &mut Session) -> Option<Debugger> {
        let caller = Caller {
            user: USER,
            pid: session.spawn(USER).ok()?.pid,
        };
        let target = session.spawn(USER).ok()?.pid;
        session.ptrace(caller, Request::Attach, target).ok()?;
        session.wait4(caller, Which::Any, WaitOptions::empty()).ok()?;
        session.ptrace(caller, Request::SetEventMask(EVENTS), target).ok()?;
        session.ptrace(caller, Request::Continue(None), target).ok()?;
        Some(Debugger {
            caller,
            tracees: BTreeMap::new(),
            has_ended_one: false,
        })
    }

    /// Whether a stop with these flags is an event's, whose SIGTRAP is nobody's signal.
    fn is_event(flags: StopFlags) -> bool {
        if cfg!(feature = "wrong") {
            return flags.intersects(StopFlags::PL_FLAG_SCE | StopFlags::PL_FLAG_SCX | StopFlags::PL_FLAG_EXITED);
        }
        !flags.is_empty()
    }

    /// Lets the tracee go on, with the signal that it has stopped for.
    fn go_on(&mut self, session: &mut Session, pid: u32, signal: Signal) {
        let flags = match session.ptrace(self.caller, Request::LwpInfo, pid) {
            Ok(Reply::Info(info)) => info.flags,
            _ => StopFlags::empty(),
        };
        self.tracees.insert(pid, flags);
        let passed = (!Debugger::is_event(flags)).then_some(signal);
        let _ = session.ptrace(self.caller, Request::Continue(passed), pid); // it may have been killed meanwhile
    }

    /// Collects all that there is to collect.
    fn collect(&mut self, session: &mut Session) {
        while let Ok(Reply::Status { pid, status }) = session.wait4(self.caller, Which::Any, WaitOptions::WNOHANG) {
            if let WaitStatus::Stopped(signal) = status {
                self.go_on(session, pid, signal);
                continue;
            }
            let flags = self.tracees.remove(&pid).unwrap_or(StopFlags::empty());
            let by_trap = matches!(status, WaitStatus::Signaled(Signal::SIGTRAP));
            self.has_ended_one |= by_trap && !flags.is_empty();
        }
    }
}

fuzz_target!(|data: &[u8]| {
    let mut world = World::new(data);
    let mut debugger = Debugger::start(&mut world).expect("a debugger");
    world.debugger = Some(debugger.caller.pid);
    while world.step() {
        debugger.collect(&mut world);
        assert!(!debugger.has_ended_one);
    }
});
