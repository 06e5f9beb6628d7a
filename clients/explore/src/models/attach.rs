//! Races of attaching and detaching.

use super::{fork, sleeping, stopped_by, threads, Processes, Setup};
use crate::script::{succeeded, Go, Script};
use tracehost::{
    Act, Call, Disposition, Errno, Error, New, Reply, Request, Session, Signal, SignalSet, WaitOptions, WaitStatus,
    Which,
};

/// A byte of the target's memory: whether the breakpoint is there.
const BREAKPOINT: usize = 0;
/// How many threads have ended.
const JOINED: usize = 1;
const ROUNDS: u8 = 3;

/// A debugger that lets its target run to a breakpoint, takes it out, and detaches. Two threads may have met it: the SIGTRAP
/// of one is still to come, and ends the target. The remedy: it takes the stops that are pending first.
pub fn stop_lost_at_detach(host: &mut Session, setup: Setup) -> Result<Processes, Error> {
    let (debugger, lwps) = threads(host, setup)?;
    let mut scripts: Processes = vec![Box::new(detacher(setup, debugger, &lwps))];
    for (place, lwp) in lwps.iter().enumerate() {
        scripts.push(Box::new(worker(setup, *lwp, place == 0)));
    }
    Ok(scripts)
}

/// A thread that comes by the breakpoint in each round. The first one waits for the others at its end, and exits.
fn worker(setup: Setup, own: New, is_first: bool) -> Script {
    const ROUND: usize = 0;
    let mut script = Script::new(format!("thread {}", own.lwp), setup.user, own);
    script.label("round");
    script.call(Call::Other(331));
    script.act_with(
        |_, memory| {
            Some(if memory[BREAKPOINT] == 1 {
                Act::Raise(Signal::SIGTRAP)
            } else {
                Act::Compute
            })
        },
        |_, memory, _| {
            Ok(if memory[BREAKPOINT] == 1 {
                Go::On
            } else {
                Go::To("past")
            })
        },
    );
    script.act(Act::Compute);
    script.label("past");
    script.local(|place| {
        place.bytes[ROUND] += 1;
        if place.bytes[ROUND] < ROUNDS {
            Go::To("round")
        } else {
            Go::On
        }
    });
    join(&mut script, is_first, setup.size - 1);
    script
}

/// The first thread waits for so many others, and exits; the others end.
pub fn join(script: &mut Script, is_first: bool, others: u8) {
    if is_first {
        script.act(Act::Enter(Call::Exit(0)));
        script.once(JOINED, others);
        script.act(Act::Leave);
    } else {
        script.call(Call::ThrExit);
        script.also(|memory| memory[JOINED] += 1);
    }
}

fn detacher(setup: Setup, own: New, lwps: &[New]) -> Script {
    let target = lwps[0].pid;
    let mut script = Script::new("debugger", setup.user, own);
    script.wait(target, stopped_by(Signal::SIGSTOP));
    script.ptrace(Request::Continue(None), target);
    script.also(|memory| memory[BREAKPOINT] = 1);
    script.label("trapped");
    script.wait(target, stopped_by(Signal::SIGTRAP));
    if setup.right {
        for lwp in lwps {
            let lwp = lwp.lwp;
            script.ptrace_then(
                Request::LwpInfo,
                move |_| lwp,
                |_, answer| match answer {
                    Ok(Reply::Info(info)) if info.pending.contains(Signal::SIGTRAP) => Ok(Go::To("another")),
                    _ => Ok(Go::On),
                },
            );
        }
    }
    script.ptrace(Request::Detach(None), target);
    script.also(|memory| memory[BREAKPOINT] = 0);
    script.wait(target, |_, status| match status {
        WaitStatus::Signaled(signal) => Err(format!("the target was ended by {signal}")),
        _ => Ok(Go::End),
    });
    script.label("another");
    script.ptrace(Request::Continue(None), target);
    script.also(|memory| memory[BREAKPOINT] = 0);
    script.jump("trapped");
    script
}

/// A collector attaches to a process that has stopped itself by job control, and detaches again: the parent waits for a stop
/// that is over. The remedy: the parent also takes that the process has gone on.
pub fn attach_to_stopped(host: &mut Session, setup: Setup) -> Result<Processes, Error> {
    let user = setup.user;
    let parent = host.spawn(user)?;
    let (target, collector) = (fork(host, user, parent)?, fork(host, user, parent)?);
    let mut stopping = Script::new("target", user, target);
    stopping.raise(Signal::SIGSTOP);
    stopping.call(Call::Exit(7));
    Ok(vec![
        Box::new(continuing(setup, parent, target.pid)),
        Box::new(collecting(setup, collector, target.pid)),
        Box::new(stopping),
    ])
}

fn continuing(setup: Setup, own: New, target: u32) -> Script {
    let right = setup.right;
    let mut script = Script::new("parent", setup.user, own);
    script.label("wait");
    script.wait_for(
        Which::Process(target),
        WaitOptions::WUNTRACED,
        move |_, answer| match answer {
            Ok(Reply::Status { status, .. }) => match status {
                WaitStatus::Stopped(_) => Ok(Go::On),
                WaitStatus::Exited(7) if right => Ok(Go::End),
                status => Err(format!("{status} in place of a stop")),
            },
            answer => succeeded(answer),
        },
    );
    script.kill(target, Signal::SIGCONT);
    if right {
        script.jump("wait");
    } else {
        script.wait(target, |_, status| match status {
            WaitStatus::Exited(7) => Ok(Go::End),
            status => Err(format!("{status} in place of exit 7")),
        });
    }
    script
}

fn collecting(setup: Setup, own: New, target: u32) -> Script {
    let mut script = Script::new("collector", setup.user, own);
    script.ptrace_then(
        Request::Attach,
        move |_| target,
        |_, answer| match answer {
            Err(Error::Errno(Errno::ESRCH)) => Ok(Go::To("exit")),
            answer => succeeded(answer),
        },
    );
    script.wait(target, |_, status| match status {
        WaitStatus::Stopped(_) => Ok(Go::On),
        _ => Ok(Go::To("exit")),
    });
    script.ptrace(Request::Detach(None), target);
    script.label("exit");
    script.call(Call::Exit(0));
    script
}

/// A guard traces a worker, and is asked to end by SIGTERM. If it ends while it still traces, the worker is killed with it. The
/// remedy: it blocks the signal while it traces.
pub fn tracer_dies(host: &mut Session, setup: Setup) -> Result<Processes, Error> {
    const DONE: usize = 0;
    let user = setup.user;
    let supervisor = host.spawn(user)?;
    let (worker, guard) = (fork(host, user, supervisor)?, fork(host, user, supervisor)?);
    if setup.right {
        host.turn(user, guard.lwp, Act::Block([Signal::SIGTERM].into_iter().collect()))?;
    }
    let mut replacing = Script::new("supervisor", user, supervisor);
    replacing.kill(guard.pid, Signal::SIGTERM);
    replacing.wait(guard.pid, |_, _| Ok(Go::On));
    replacing.also(|memory| memory[DONE] = 1);
    replacing.wait(worker.pid, |_, status| match status {
        WaitStatus::Exited(7) => Ok(Go::End),
        status => Err(format!("{status} of the worker in place of exit 7")),
    });
    Ok(vec![
        Box::new(replacing),
        Box::new(guarding(setup, guard, worker.pid)),
        Box::new(sleeping("worker", user, worker, DONE, 7)),
    ])
}

fn guarding(setup: Setup, own: New, worker: u32) -> Script {
    const ASKED: usize = 0;
    let term = [Signal::SIGTERM].into_iter().collect();
    let mut script = Script::new("guard", setup.user, own);
    script.on_caught(|place, _| place.bytes[ASKED] = 1);
    script.ptrace(Request::Attach, worker);
    script.act(Act::Compute);
    script.wait(worker, stopped_by(Signal::SIGSTOP));
    script.act(Act::Compute);
    script.sigaction(Signal::SIGTERM, Disposition::Catch);
    script.label("asked");
    script.jump_if(ASKED, 1, "detach");
    if setup.right {
        script.sigsuspend(SignalSet::empty(), term);
    } else {
        script.act_with(
            |place, _| (place.bytes[ASKED] == 1).then_some(Act::Compute),
            |_, _, _| Ok(Go::On),
        );
    }
    script.jump("asked");
    script.label("detach");
    script.ptrace(Request::Detach(None), worker);
    script.call(Call::Exit(0));
    script
}
