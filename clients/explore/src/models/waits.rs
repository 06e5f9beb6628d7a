//! Races of waits.

use super::{fork, next_one, raising, stop, stopped_by, thread, traced_child, Processes, Setup};
use crate::process::Place;
use crate::script::{succeeded, Go, Script};
use tracehost::{
    Act, Call, Disposition, Errno, Error, New, Reply, Request, Session, Signal, StopFlags, WaitOptions, WaitStatus,
    Which,
};

/// A debugger that waits for any of its targets, and continues it.
pub fn tracees(host: &mut Session, setup: Setup) -> Result<Processes, Error> {
    let debugger = host.spawn(setup.user)?;
    let mut scripts: Processes = vec![Box::new(continuing(setup, debugger))];
    for _ in 0..setup.size {
        let target = traced_child(host, setup.user, debugger)?;
        let mut script = raising(setup.user, target, 2);
        script.exchange(0);
        scripts.push(Box::new(script));
    }
    Ok(scripts)
}

/// The process that a script has at hand.
const AT_HAND: usize = 0;

fn continuing(setup: Setup, own: New) -> Script {
    const LEFT: usize = 0;
    let mut script = Script::new("debugger", setup.user, own);
    script.remember(LEFT, setup.size);
    script.label("wait");
    script.jump_if(LEFT, 0, "end");
    script.wait_for(Which::Any, WaitOptions::empty(), |place, answer| match answer {
        Ok(Reply::Status { pid, status }) => match status {
            WaitStatus::Stopped(_) => {
                place.numbers[AT_HAND] = *pid;
                Ok(Go::On)
            }
            WaitStatus::Exited(7) => {
                place.bytes[LEFT] -= 1;
                Ok(Go::To("wait"))
            }
            status => Err(format!("{pid} {status}")),
        },
        answer => succeeded(answer),
    });
    resume_at_hand(&mut script, "wait");
    script.label("end");
    script
}

/// Continues the process at hand, and forgets it. That it has gone, or runs, is no failure.
fn resume_at_hand(script: &mut Script, then: &'static str) {
    script.ptrace_then(
        Request::Continue(None),
        |place| place.numbers[AT_HAND],
        move |place, answer| {
            place.numbers[AT_HAND] = 0;
            match answer {
                Ok(_) | Err(Error::Errno(Errno::ESRCH | Errno::EBUSY)) => Ok(Go::To(then)),
                answer => succeeded(answer),
            }
        },
    );
}

/// A debugger acts on a process that it has attached to, once a SIGCHLD handler has waited: for another child, perhaps. The
/// remedy: it waits for the process itself.
pub fn stop_before_wait(host: &mut Session, setup: Setup) -> Result<Processes, Error> {
    const CAUGHT: usize = 0;
    let user = setup.user;
    let debugger = host.spawn(user)?;
    let (helper, target) = (fork(host, user, debugger)?, fork(host, user, debugger)?);
    let mut script = Script::new("debugger", user, debugger);
    script.on_caught(|place, _| place.bytes[CAUGHT] = 1);
    if !setup.right {
        script.sigaction(Signal::SIGCHLD, Disposition::Catch);
    }
    script.ptrace(Request::Attach, target.pid);
    if setup.right {
        script.wait(target.pid, stopped_by(Signal::SIGSTOP));
    } else {
        script.label("return");
        script.act(Act::Compute);
        script.jump_if(CAUGHT, 0, "detach");
        script.set(CAUGHT, 0);
        script.poll(Which::Any, |_, _| Ok(Go::To("return")));
    }
    script.label("detach");
    script.ptrace(Request::Detach(None), target.pid);
    let mut helping = Script::new("helper", user, helper);
    helping.call(Call::Exit(0));
    Ok(vec![Box::new(script), Box::new(helping)])
}

/// The main loop of a debugger waits for any child, and takes the status of a helper that a thread waits for. The remedy: it
/// waits for its target.
pub fn status_stolen(host: &mut Session, setup: Setup) -> Result<Processes, Error> {
    let user = setup.user;
    let debugger = host.spawn(user)?;
    let other = thread(host, user, debugger)?;
    let (target, helper) = (traced_child(host, user, debugger)?, fork(host, user, debugger)?);
    let pid = target.pid;
    let mut main = Script::new("main loop", user, debugger);
    let which = if setup.right { Which::Process(pid) } else { Which::Any };
    main.label("wait");
    main.wait_for(which, WaitOptions::empty(), move |_, answer| match answer {
        Ok(Reply::Status { pid: got, status }) if *got == pid => match status {
            WaitStatus::Stopped(_) => Ok(Go::On),
            _ => Ok(Go::End),
        },
        Ok(_) => Ok(Go::To("wait")),
        answer => succeeded(answer),
    });
    main.ptrace(Request::Continue(None), pid);
    main.jump("wait");
    let mut waiting = Script::new("thread", user, other);
    waiting.wait(helper.pid, |_, status| match status {
        WaitStatus::Exited(3) => Ok(Go::End),
        status => Err(format!("{status} of the helper")),
    });
    let mut helping = Script::new("helper", user, helper);
    helping.call(Call::Exit(3));
    Ok(vec![
        Box::new(main),
        Box::new(waiting),
        Box::new(raising(user, target, setup.size)),
        Box::new(helping),
    ])
}

/// Which processes a debugger knows: those with these distances from its own number, as bits.
const KNOWN: usize = 0;
const LIVE: usize = 1;

fn is_known(place: &Place, debugger: u32, pid: u32) -> bool {
    place.bytes[KNOWN] >> (pid - debugger) & 1 == 1
}

fn learn(place: &mut Place, debugger: u32, pid: u32) {
    if !is_known(place, debugger, pid) {
        place.bytes[KNOWN] |= 1 << (pid - debugger);
        place.bytes[LIVE] += 1;
    }
}

/// A debugger, and a target that it traces with its children. The target has reported its first stop.
fn following(host: &mut Session, user: u32) -> Result<(New, New), Error> {
    let debugger = host.spawn(user)?;
    let target = traced_child(host, user, debugger)?;
    stop(host, user, target)?;
    let caller = super::caller(user, debugger);
    host.wait4(caller, Which::Process(target.pid), WaitOptions::empty())?;
    host.ptrace(caller, Request::FollowFork(true), target.pid)?;
    Ok((debugger, target))
}

/// The target forks, and waits for its child, which exits.
fn forking(user: u32, target: New, child: New) -> [Script; 2] {
    let mut parent = Script::new("target", user, target);
    parent.call(Call::Fork);
    parent.wait_for(Which::Process(child.pid), WaitOptions::empty(), |_, _| Ok(Go::On));
    parent.call(Call::Exit(0));
    let mut born = Script::new("child", user, child);
    born.call(Call::Exit(0));
    [parent, born]
}

/// A debugger that follows forks learns of a child by its parent's report, but the child's stop may be reported first. The
/// remedy: a first stop tells of a child, too.
pub fn child_before_parent(host: &mut Session, setup: Setup) -> Result<Processes, Error> {
    let user = setup.user;
    let (debugger, target) = following(host, user)?;
    let child = next_one(host, user)?;
    let (own, right) = (debugger.pid, setup.right);
    let mut script = Script::new("debugger", user, debugger);
    script.remember(KNOWN, 1 << (target.pid - own));
    script.remember(LIVE, 1);
    script.ptrace(Request::Continue(None), target.pid);
    script.label("wait");
    script.jump_if(LIVE, 0, "end");
    script.wait_for(Which::Any, WaitOptions::empty(), |place, answer| match answer {
        Ok(Reply::Status { pid, status }) => match status {
            WaitStatus::Stopped(_) => {
                place.numbers[AT_HAND] = *pid;
                Ok(Go::On)
            }
            _ => {
                place.bytes[LIVE] -= 1;
                Ok(Go::To("wait"))
            }
        },
        answer => succeeded(answer),
    });
    script.ptrace_then(
        Request::LwpInfo,
        |place| place.numbers[AT_HAND],
        move |place, answer| {
            let Ok(Reply::Info(info)) = answer else {
                return succeeded(answer);
            };
            let pid = place.numbers[AT_HAND];
            if right && info.flags.contains(StopFlags::PL_FLAG_CHILD) {
                learn(place, own, pid);
            }
            if !is_known(place, own, pid) {
                return Err(format!("{pid} isn't mine"));
            }
            if info.flags.contains(StopFlags::PL_FLAG_FORKED) {
                learn(place, own, info.child);
            }
            Ok(Go::On)
        },
    );
    resume_at_hand(&mut script, "wait");
    script.label("end");
    let [parent, born] = forking(user, target, child);
    Ok(vec![Box::new(script), Box::new(parent), Box::new(born)])
}

/// A debugger that follows forks lets a child wait until its parent has reported it. The parent may be killed before that. The
/// remedy: a process with a first stop is one's own.
pub fn unannounced_child(host: &mut Session, setup: Setup) -> Result<Processes, Error> {
    let user = setup.user;
    let (debugger, target) = following(host, user)?;
    let watchdog = fork(host, user, debugger)?;
    let child = next_one(host, user)?;
    let mut script = Script::new("debugger", user, debugger);
    script.ptrace_then(Request::Continue(None), move |_| target.pid, |_, _| Ok(Go::On));
    script.label("wait");
    script.wait_for(Which::Any, WaitOptions::empty(), |place, answer| match answer {
        Ok(Reply::Status {
            pid,
            status: WaitStatus::Stopped(_),
        }) => {
            place.numbers[AT_HAND] = *pid;
            Ok(Go::On)
        }
        Ok(_) => Ok(Go::To("wait")),
        Err(_) => Ok(Go::End),
    });
    look_at_stop(&mut script, setup.right, debugger.pid);
    resume_at_hand(&mut script, "wait");
    if !setup.right {
        script.label("announced");
        // the child, whose number is beside that of the process at hand
        script.ptrace_then(
            Request::Continue(None),
            |place| place.numbers[1],
            |place, _| {
                place.numbers[1] = 0;
                Ok(Go::On)
            },
        );
        resume_at_hand(&mut script, "wait");
    }
    let mut watching = Script::new("watchdog", user, watchdog);
    watching.kill(target.pid, Signal::SIGKILL);
    watching.call(Call::Exit(0));
    let [parent, born] = forking(user, target, child);
    Ok(vec![
        Box::new(script),
        Box::new(parent),
        Box::new(born),
        Box::new(watching),
    ])
}

fn look_at_stop(script: &mut Script, right: bool, own: u32) {
    script.ptrace_then(
        Request::LwpInfo,
        |place| place.numbers[AT_HAND],
        move |place, answer| {
            let Ok(Reply::Info(info)) = answer else {
                place.numbers[AT_HAND] = 0;
                return Ok(Go::To("wait"));
            };
            let pid = place.numbers[AT_HAND];
            if right {
                return Ok(Go::On);
            }
            if info.flags.contains(StopFlags::PL_FLAG_FORKED) {
                place.bytes[KNOWN] |= 1 << (info.child - own);
                place.numbers[1] = info.child;
                return Ok(Go::To("announced"));
            }
            if info.flags.contains(StopFlags::PL_FLAG_CHILD) && !is_known(place, own, pid) {
                place.numbers[AT_HAND] = 0;
                return Ok(Go::To("wait"));
            }
            Ok(Go::On)
        },
    );
}
