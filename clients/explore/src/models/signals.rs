//! Races of signals.

use super::{caller, fork, raising, set, stop, stopped_by, traced_child, Processes, Setup};
use crate::script::{succeeded, Go, Script};
use tracehost::{
    Act, Call, Disposition, Error, New, Reply, Request, Session, Signal, SignalSet, WaitOptions, WaitStatus, Which,
};

/// A debugger that sleeps in pause(2) until SIGCHLD. The signal may come between its look at what the handler has noted and
/// pause(2). The remedy: SIGCHLD is blocked but in sigsuspend(2).
pub fn lost_wakeup(host: &mut Session, setup: Setup) -> Result<Processes, Error> {
    let user = setup.user;
    let debugger = host.spawn(user)?;
    let target = traced_child(host, user, debugger)?;
    host.sigaction(caller(user, debugger), Signal::SIGCHLD, Disposition::Catch)?;
    host.turn(user, target.lwp, Act::Raise(Signal::SIGSTOP))?;
    Ok(vec![
        Box::new(sleeper(setup, debugger, target)),
        Box::new(raising(user, target, setup.size)),
    ])
}

fn sleeper(setup: Setup, own: New, target: New) -> Script {
    const NEWS: usize = 0;
    let chld = set(&[Signal::SIGCHLD]);
    let mut script = Script::new("debugger", setup.user, own);
    script.on_caught(|place, _| place.bytes[NEWS] = 1);
    script.label("await");
    if setup.right {
        script.act(Act::Block(chld));
    }
    script.label("look");
    script.jump_if(NEWS, 1, "news");
    if setup.right {
        script.sigsuspend(SignalSet::empty(), chld);
    } else {
        script.pause();
    }
    script.jump("look");
    script.label("news");
    script.set(NEWS, 0);
    if setup.right {
        script.act(Act::Block(SignalSet::empty()));
    }
    script.label("collect");
    script.poll(Which::Process(target.pid), |_, answer| match answer {
        Ok(Reply::Status { status, .. }) => match status {
            WaitStatus::Stopped(_) => Ok(Go::On),
            _ => Ok(Go::End),
        },
        _ => Ok(Go::To("await")),
    });
    script.ptrace(Request::Continue(None), target.pid);
    script.jump("collect");
    script
}

/// A debugger takes one status for each SIGCHLD. Two ends may bring one. The remedy: it waits until there is nothing more.
pub fn chld_coalesced(host: &mut Session, setup: Setup) -> Result<Processes, Error> {
    const NEWS: usize = 0;
    let user = setup.user;
    let chld = set(&[Signal::SIGCHLD]);
    let debugger = host.spawn(user)?;
    let own = caller(user, debugger);
    let mut targets = Vec::new();
    for _ in 0..2 {
        let target = traced_child(host, user, debugger)?;
        stop(host, user, target)?;
        host.wait4(own, Which::Process(target.pid), WaitOptions::empty())?;
        targets.push(target);
    }
    host.sigaction(own, Signal::SIGCHLD, Disposition::Catch)?;
    host.turn(user, debugger.lwp, Act::Block(chld))?;
    let mut script = Script::new("debugger", user, debugger);
    for target in &targets {
        script.ptrace(Request::Continue(None), target.pid);
    }
    script.label("take");
    script.jump_if(NEWS, 2, "end");
    script.sigsuspend(SignalSet::empty(), chld);
    script.label("poll");
    let then = if setup.right { "poll" } else { "take" };
    script.poll(Which::Any, move |place, answer| match answer {
        Ok(Reply::Status { .. }) => {
            place.bytes[NEWS] += 1;
            Ok(Go::To(then))
        }
        _ => Ok(Go::To("take")),
    });
    script.label("end");
    let mut scripts: Processes = vec![Box::new(script)];
    for target in targets {
        let mut script = Script::new(format!("target {}", target.pid), user, target);
        script.call(Call::Exit(7));
        scripts.push(Box::new(script));
    }
    Ok(scripts)
}

/// Memory: the debugger has attached.
const ATTACHED: usize = 0;
/// The target may exit.
const OPEN: usize = 1;

/// A debugger counts system calls, and drops each SIGSTOP: also one by which somebody else stops the process, and waits for
/// that stop. The remedy: it sends it again once it has detached.
pub fn group_stop(host: &mut Session, setup: Setup) -> Result<Processes, Error> {
    let user = setup.user;
    let parent = host.spawn(user)?;
    let (target, debugger) = (fork(host, user, parent)?, fork(host, user, parent)?);
    let mut stopping = Script::new("parent", user, parent);
    stopping.kill(target.pid, Signal::SIGSTOP);
    stopping.once(ATTACHED, 1);
    stopping.wait_for(
        Which::Process(target.pid),
        WaitOptions::WUNTRACED,
        |place, answer| match answer {
            Ok(Reply::Status { status, .. }) => stopped_by(Signal::SIGSTOP)(place, *status),
            answer => succeeded(answer),
        },
    );
    stopping.wait(debugger.pid, |_, _| Ok(Go::On));
    stopping.kill(target.pid, Signal::SIGCONT);
    stopping.also(|memory| memory[OPEN] = 1);
    stopping.wait(target.pid, |_, status| match status {
        WaitStatus::Exited(0) => Ok(Go::End),
        status => Err(format!("{status} in place of exit 0")),
    });
    let mut calling = Script::new("target", user, target);
    calling.act(Act::Enter(Call::Other(39)));
    calling.once(ATTACHED, 1);
    calling.act(Act::Leave);
    for _ in 1..STOPS {
        calling.call(Call::Other(39));
    }
    calling.act(Act::Enter(Call::Exit(0)));
    calling.once(OPEN, 1);
    calling.act(Act::Leave);
    Ok(vec![
        Box::new(stopping),
        Box::new(counting(setup, debugger, target.pid)),
        Box::new(calling),
    ])
}

/// How many stops the debugger counts.
const STOPS: u8 = 3;

fn counting(setup: Setup, own: New, target: u32) -> Script {
    const LEFT: usize = 0;
    const STOPPED: usize = 1;
    let mut script = Script::new("debugger", setup.user, own);
    script.remember(LEFT, STOPS);
    script.ptrace(Request::Attach, target);
    script.wait(target, stopped_by(Signal::SIGSTOP));
    script.also(|memory| memory[ATTACHED] = 1);
    script.label("resume");
    script.ptrace(Request::Syscall(None), target);
    script.wait(target, |place, status| {
        place.bytes[LEFT] -= 1;
        place.bytes[STOPPED] |= u8::from(status == WaitStatus::Stopped(Signal::SIGSTOP));
        Ok(if place.bytes[LEFT] > 0 {
            Go::To("resume")
        } else {
            Go::On
        })
    });
    script.ptrace(Request::Detach(None), target);
    if setup.right {
        script.jump_if(STOPPED, 0, "exit");
        script.kill(target, Signal::SIGSTOP);
    }
    script.label("exit");
    script.call(Call::Exit(0));
    script
}
