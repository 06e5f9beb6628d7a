//! Races of threads.

use super::attach::join;
use super::{next_one, stop, stopped_by, threads, traced_child, Processes, Setup};
use crate::process::{Next, Place, When};
use crate::script::{succeeded, Go, Script};
use crate::step::Step;
use tracehost::{Act, Call, Error, New, Reply, Request, Session, Signal, StopFlags, WaitStatus};

/// A number that a script has at hand.
const AT_HAND: usize = 0;
/// Another one.
const OTHER: usize = 1;

/// A target that has stopped, and its thread, which isn't there yet.
fn threaded(host: &mut Session, user: u32) -> Result<(New, New, New), Error> {
    let debugger = host.spawn(user)?;
    let target = traced_child(host, user, debugger)?;
    stop(host, user, target)?;
    let lwp = next_one(host, user)?.lwp;
    Ok((debugger, target, New { pid: target.pid, lwp }))
}

/// Continues the target, and waits again.
fn resume(script: &mut Script, target: u32) {
    script.label("resume");
    script.ptrace(Request::Continue(None), target);
    script.jump("wait");
}

/// Waits for a stop of the target, which otherwise exits with 0.
fn wait_for_stop(script: &mut Script, target: u32) {
    script.label("wait");
    script.wait(target, |_, status| match status {
        WaitStatus::Stopped(_) => Ok(Go::On),
        WaitStatus::Exited(0) => Ok(Go::End),
        status => Err(format!("{status} of the target")),
    });
}

/// A debugger keeps a list of its target's threads by their births, and an exec takes them away. The remedy: at an exec the
/// list begins anew.
pub fn exec_with_threads(host: &mut Session, setup: Setup) -> Result<Processes, Error> {
    let (user, right) = (setup.user, setup.right);
    let (debugger, target, other) = threaded(host, user)?;
    let pid = target.pid;
    let mut script = Script::new("debugger", user, debugger);
    script.wait(pid, stopped_by(Signal::SIGSTOP));
    script.ptrace(Request::LwpEvents(true), pid);
    script.jump("resume");
    wait_for_stop(&mut script, pid);
    script.ptrace_then(
        Request::LwpInfo,
        move |_| pid,
        move |place, answer| {
            let Ok(Reply::Info(info)) = answer else {
                return succeeded(answer);
            };
            if info.flags.contains(StopFlags::PL_FLAG_BORN) {
                place.numbers[AT_HAND] = info.lwp;
            }
            if right && info.flags.contains(StopFlags::PL_FLAG_EXEC) {
                place.numbers[AT_HAND] = 0;
            }
            Ok(if place.numbers[AT_HAND] == 0 {
                Go::To("resume")
            } else {
                Go::On
            })
        },
    );
    script.ptrace_then(
        Request::LwpInfo,
        |place| place.numbers[AT_HAND],
        |_, answer| succeeded(answer),
    );
    resume(&mut script, pid);
    let mut main = Script::new("target", user, target);
    main.call(Call::ThrNew);
    main.call(Call::Exec);
    main.call(Call::Exit(0));
    let mut idle = Script::new("thread", user, other);
    idle.pause();
    Ok(vec![Box::new(script), Box::new(main), Box::new(idle)])
}

/// A debugger keeps the numbers of LWPs that have stopped, and looks at each at each stop. An exec of another thread takes one
/// away. The remedy: it asks for the list each time.
pub fn stale_lwp(host: &mut Session, setup: Setup) -> Result<Processes, Error> {
    let user = setup.user;
    let (debugger, target, other) = threaded(host, user)?;
    let pid = target.pid;
    let mut script = Script::new("debugger", user, debugger);
    wait_for_stop(&mut script, pid);
    let request = if setup.right {
        Request::GetLwpList(16)
    } else {
        Request::LwpInfo
    };
    script.ptrace_then(
        request,
        move |_| pid,
        |place, answer| {
            match answer {
                Ok(Reply::Lwps(lwps)) => place.numbers = [lwps[0], lwps.get(1).copied().unwrap_or(0)],
                Ok(Reply::Info(info)) if place.numbers[AT_HAND] == 0 => place.numbers[AT_HAND] = info.lwp,
                Ok(Reply::Info(info)) if place.numbers[AT_HAND] != info.lwp => place.numbers[OTHER] = info.lwp,
                answer => return succeeded(answer),
            }
            Ok(Go::On)
        },
    );
    script.ptrace_then(
        Request::LwpInfo,
        |place| place.numbers[AT_HAND],
        |_, answer| succeeded(answer),
    );
    script.local(|place| {
        if place.numbers[OTHER] == 0 {
            Go::To("resume")
        } else {
            Go::On
        }
    });
    script.ptrace_then(
        Request::LwpInfo,
        |place| place.numbers[OTHER],
        |_, answer| succeeded(answer),
    );
    resume(&mut script, pid);
    let mut main = Script::new("target", user, target);
    main.call(Call::ThrNew);
    main.raise(Signal::SIGUSR1);
    main.call(Call::Exit(0));
    let mut executing = Script::new("thread", user, other);
    executing.call(Call::Exec);
    executing.call(Call::Exit(0));
    Ok(vec![Box::new(script), Box::new(main), Box::new(executing)])
}

/// A byte of the memory: whether the breakpoint is there. `join` has the next byte.
const BREAKPOINT: usize = 0;

/// A debugger counts calls by a breakpoint, takes it out, steps a thread over it, and puts it back. Another thread may come by
/// meanwhile. The remedy: the others are suspended for the step.
pub fn step_over_breakpoint(host: &mut Session, setup: Setup) -> Result<Processes, Error> {
    let (debugger, lwps) = threads(host, setup)?;
    let mut scripts: Processes = vec![Box::new(counting(setup, debugger, &lwps))];
    for (place, lwp) in lwps.iter().enumerate() {
        scripts.push(Box::new(counted(setup, *lwp, place == 0)));
    }
    Ok(scripts)
}

/// A thread that calls the function once.
fn counted(setup: Setup, own: New, is_first: bool) -> Script {
    let mut script = Script::new(format!("thread {}", own.lwp), setup.user, own);
    call_counted(&mut script, setup.user, own.lwp);
    join(&mut script, is_first, setup.size - 1);
    script
}

/// The call. A thread may have to report its birth first.
fn call_counted(script: &mut Script, user: u32, lwp: u32) {
    script.label("call");
    script.step(
        move |_, memory| {
            let act = if memory[BREAKPOINT] == 1 {
                Act::Raise(Signal::SIGTRAP)
            } else {
                Act::Compute
            };
            Next::Step(Step::Turn(user, lwp, act), When::Runs)
        },
        |_, memory, answer| match answer {
            Ok(Reply::Stopped { flags, .. }) if flags.contains(StopFlags::PL_FLAG_BORN) => Ok(Go::To("call")),
            answer if memory[BREAKPOINT] == 1 => succeeded(answer),
            _ => Ok(Go::To("return")), // also if a step ends here
        },
    );
    // it stops, and the call is made again
    script.step(
        move |_, _| Next::Step(Step::Turn(user, lwp, Act::Compute), When::Runs),
        |_, _, _| Ok(Go::To("call")),
    );
    script.label("return");
}

fn counting(setup: Setup, own: New, lwps: &[New]) -> Script {
    const HITS: usize = 0;
    let pid = lwps[0].pid;
    let calls = setup.size;
    let mut script = Script::new("debugger", setup.user, own);
    script.wait(pid, stopped_by(Signal::SIGSTOP));
    script.label("resume");
    script.ptrace(Request::Continue(None), pid);
    script.also(|memory| memory[BREAKPOINT] = 1);
    script.wait(pid, move |place, status| match status {
        WaitStatus::Stopped(_) => {
            place.bytes[HITS] += 1;
            Ok(Go::On)
        }
        WaitStatus::Exited(0) if place.bytes[HITS] == calls => Ok(Go::End),
        status => Err(format!(
            "{status}, and {} of {calls} calls were counted",
            place.bytes[HITS]
        )),
    });
    script.ptrace_then(
        Request::LwpInfo,
        move |_| pid,
        |place, answer| match answer {
            Ok(Reply::Info(info)) => {
                place.numbers[AT_HAND] = info.lwp;
                Ok(Go::On)
            }
            answer => succeeded(answer),
        },
    );
    if setup.right {
        others(&mut script, lwps, Request::Suspend);
    }
    script.ptrace_then(
        Request::Step(None),
        |place| place.numbers[AT_HAND],
        |_, answer| succeeded(answer),
    );
    script.also(|memory| memory[BREAKPOINT] = 0);
    script.wait(pid, stopped_by(Signal::SIGTRAP));
    if setup.right {
        others(&mut script, lwps, Request::Resume);
    }
    script.local(|place| {
        place.numbers[AT_HAND] = 0;
        Go::To("resume")
    });
    script
}

/// A request for each LWP but the one at hand. One that has ended is passed over.
fn others(script: &mut Script, lwps: &[New], request: Request) {
    for lwp in lwps {
        let (caller, lwp) = (script.caller(), lwp.lwp);
        script.step(
            move |place, _| match place.numbers[AT_HAND] == lwp {
                true => Next::Step(Step::Ptrace(caller, Request::GetNumLwps, lwp), When::Runs),
                false => Next::Step(Step::Ptrace(caller, request, lwp), When::Runs),
            },
            |_, _, _| Ok(Go::On),
        );
    }
}

/// A debugger counts calls as above, and suspends the other threads for a step. One that was created before reports its birth
/// during the step, and is let go. The remedy: it is suspended, too.
pub fn newborn_lwp(host: &mut Session, setup: Setup) -> Result<Processes, Error> {
    let (debugger, target, born) = threaded(host, setup.user)?;
    let mut main = Script::new("target", setup.user, target);
    main.call(Call::ThrNew);
    call_counted(&mut main, setup.user, target.lwp);
    join(&mut main, true, 1);
    let mut thread = Script::new("thread", setup.user, born);
    call_counted(&mut thread, setup.user, born.lwp);
    join(&mut thread, false, 1);
    let counting = counting_births(setup, debugger, target, born.lwp);
    Ok(vec![Box::new(counting), Box::new(main), Box::new(thread)])
}

fn counting_births(setup: Setup, own: New, target: New, born: u32) -> Script {
    const HITS: usize = 0;
    const IS_BORN: usize = 1;
    let pid = target.pid;
    let mut script = Script::new("debugger", setup.user, own);
    script.wait(pid, stopped_by(Signal::SIGSTOP));
    script.ptrace(Request::LwpEvents(true), pid);
    script.label("resume");
    script.ptrace(Request::Continue(None), pid);
    script.also(|memory| memory[BREAKPOINT] = 1);
    script.wait(pid, |place, status| match status {
        WaitStatus::Stopped(_) => Ok(Go::On),
        WaitStatus::Exited(0) if place.bytes[HITS] == 2 => Ok(Go::End),
        status => Err(format!("{status}, and {} of 2 calls were counted", place.bytes[HITS])),
    });
    births(&mut script, pid, IS_BORN, "resume", "resume");
    script.local(move |place| {
        place.bytes[HITS] += 1;
        match place.bytes[IS_BORN] == 1 || place.numbers[AT_HAND] == born {
            true => Go::To("suspend"),
            false => Go::To("step"),
        }
    });
    let other = move |place: &Place| match place.numbers[AT_HAND] == born {
        true => target.lwp,
        false => born,
    };
    script.label("suspend");
    script.ptrace_then(Request::Suspend, other, |_, answer| succeeded(answer));
    script.label("step");
    script.ptrace_then(
        Request::Step(None),
        |place| place.numbers[AT_HAND],
        |_, answer| succeeded(answer),
    );
    script.also(|memory| memory[BREAKPOINT] = 0);
    script.wait(pid, stopped_by(Signal::SIGTRAP));
    births(
        &mut script,
        pid,
        IS_BORN,
        if setup.right { "suspend" } else { "step" },
        "step",
    );
    script.jump_if(IS_BORN, 0, "resume");
    script.ptrace_then(Request::Resume, other, |_, answer| succeeded(answer));
    script.jump("resume");
    script
}

/// Looks at a stop: the birth and the end of a thread lead to these labels, and its LWP is at hand at another one.
fn births(script: &mut Script, pid: u32, is_born: usize, birth: &'static str, end: &'static str) {
    script.ptrace_then(
        Request::LwpInfo,
        move |_| pid,
        move |place, answer| {
            let Ok(Reply::Info(info)) = answer else {
                return succeeded(answer);
            };
            if info.flags.contains(StopFlags::PL_FLAG_BORN) {
                place.bytes[is_born] = 1;
                return Ok(Go::To(birth));
            }
            if info.flags.contains(StopFlags::PL_FLAG_EXITED) {
                place.bytes[is_born] = 0;
                return Ok(Go::To(end));
            }
            place.numbers[AT_HAND] = info.lwp;
            Ok(Go::On)
        },
    );
}
