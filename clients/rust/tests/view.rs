//! A user's rows as data.

use tracehost::{
    Act, Call, Caller, Due, EventMask, Lwp, Mode, Process, Request, Session, Signal, SignalSet, State, StopFlags,
    WaitOptions, WaitStatus, Which,
};

const USER: u32 = 1001;
const DEBUGGER: Caller = Caller { user: USER, pid: 1000 };
const TARGET: u32 = 1001;
const TARGET_LWP: u32 = 100001;

/// A session with two processes of the user, 1000 and 1001.
fn two_processes() -> Session {
    let mut session = Session::new().unwrap();
    session.spawn(USER).unwrap();
    session.spawn(USER).unwrap();
    session
}

fn attach(session: &mut Session) {
    session.ptrace(DEBUGGER, Request::Attach, TARGET).unwrap();
}

fn wait(session: &mut Session) {
    session.wait4(DEBUGGER, Which::Any, WaitOptions::empty()).unwrap();
}

fn turn(session: &mut Session, act: Act) {
    session.turn(USER, TARGET_LWP, act).unwrap();
}

fn target(session: &Session) -> Process {
    *session.view(USER).unwrap().process(TARGET).unwrap()
}

fn target_lwp(session: &Session) -> Lwp {
    *session.view(USER).unwrap().lwp(TARGET_LWP).unwrap()
}

#[test]
fn a_new_process() {
    let session = two_processes();
    let view = session.view(USER).unwrap();
    assert_eq!(
        view.processes.iter().map(|process| process.pid).collect::<Vec<_>>(),
        [1000, 1001]
    );
    assert_eq!(
        view.lwps.iter().map(|lwp| (lwp.lwp, lwp.pid)).collect::<Vec<_>>(),
        [(100000, 1000), (100001, 1001)]
    );
    let wanted = Process {
        pid: TARGET,
        parent: 1,
        tracer: None,
        state: State::Running,
        continued: false,
        events: EventMask::empty(),
        pending: SignalSet::empty(),
    };
    assert_eq!(target(&session), wanted);
    let wanted = Lwp {
        lwp: TARGET_LWP,
        pid: TARGET,
        mode: Mode::User,
        suspended: false,
        stepping: false,
        blocked: SignalSet::empty(),
        pending: SignalSet::empty(),
        due: None,
        flags: StopFlags::empty(),
        child: 0,
        code: 0,
    };
    assert_eq!(target_lwp(&session), wanted);
}

#[test]
fn a_view_is_no_step_and_has_no_rows_of_others() {
    let session = two_processes();
    let other = session.view(1002).unwrap();
    assert!(other.processes.is_empty() && other.lwps.is_empty());
    assert_eq!(session.view(1065), Err(tracehost::Error::Invalid));
    assert_eq!(session.last_line().unwrap(), "1001 2 new 1001 100001");
}

#[test]
fn a_trace_stop() {
    let mut session = two_processes();
    attach(&mut session);
    let stopped = target(&session);
    assert_eq!((stopped.tracer, stopped.events), (Some(1000), EventMask::PTRACE_EXEC));
    let stop = |told| State::TraceStop {
        lwp: TARGET_LWP,
        signal: Signal::SIGSTOP,
        told,
    };
    assert_eq!(stopped.state, stop(false));
    wait(&mut session);
    assert_eq!(target(&session).state, stop(true));
    session.ptrace(DEBUGGER, Request::Suspend, TARGET).unwrap();
    assert!(target_lwp(&session).suspended);
    session.ptrace(DEBUGGER, Request::Resume, TARGET).unwrap();
    session.ptrace(DEBUGGER, Request::Step(None), TARGET).unwrap();
    assert_eq!(target(&session).state, State::Running);
    assert!(target_lwp(&session).stepping && !target_lwp(&session).suspended);
}

#[test]
fn signals() {
    let mut session = two_processes();
    let set: SignalSet = [Signal::SIGUSR1, Signal::SIGTERM].into_iter().collect();
    turn(&mut session, Act::Block(set));
    assert_eq!(target_lwp(&session).blocked, set);
    turn(&mut session, Act::Raise(Signal::SIGTERM));
    session
        .kill(DEBUGGER, Which::Process(TARGET), Some(Signal::SIGUSR1))
        .unwrap();
    assert_eq!(target_lwp(&session).pending.to_string(), "15");
    assert_eq!(target(&session).pending.to_string(), "30");
}

#[test]
fn a_job_stop_and_its_end() {
    let mut session = two_processes();
    turn(&mut session, Act::Raise(Signal::SIGTSTP));
    turn(&mut session, Act::Compute);
    assert_eq!(
        target(&session).state,
        State::JobStop {
            signal: Signal::SIGTSTP,
            told: false
        }
    );
    session
        .kill(DEBUGGER, Which::Process(TARGET), Some(Signal::SIGCONT))
        .unwrap();
    assert_eq!(target(&session).state, State::Running);
}

#[test]
fn a_call_and_an_end() {
    let mut session = two_processes();
    attach(&mut session);
    wait(&mut session);
    let events = Request::SetEventMask(EventMask::PTRACE_SCE);
    session.ptrace(DEBUGGER, events, TARGET).unwrap();
    session.ptrace(DEBUGGER, Request::Continue(None), TARGET).unwrap();
    turn(&mut session, Act::Enter(Call::Other(20)));
    let lwp = target_lwp(&session);
    assert_eq!(
        (lwp.mode, lwp.flags, lwp.code),
        (Mode::InCall(Call::Other(20)), StopFlags::PL_FLAG_SCE, 20)
    );
    wait(&mut session);
    session.ptrace(DEBUGGER, Request::Kill, TARGET).unwrap();
    assert_eq!(
        target(&session).state,
        State::Zombie(WaitStatus::Signaled(Signal::SIGKILL))
    );
    wait(&mut session);
    assert_eq!(
        session.view(USER).unwrap().process(TARGET),
        None,
        "process 1 has collected it"
    );
}

#[test]
fn a_new_lwp_and_a_vfork() {
    let mut session = two_processes();
    attach(&mut session);
    wait(&mut session);
    session.ptrace(DEBUGGER, Request::LwpEvents(true), TARGET).unwrap();
    session.ptrace(DEBUGGER, Request::Continue(None), TARGET).unwrap();
    turn(&mut session, Act::Enter(Call::ThrNew));
    assert_eq!(target_lwp(&session).mode, Mode::InCall(Call::ThrNew));
    turn(&mut session, Act::Leave);
    let view = session.view(USER).unwrap();
    assert_eq!(
        view.lwps.last().map(|lwp| (lwp.lwp, lwp.pid, lwp.due)),
        Some((100002, TARGET, Some(Due::Born)))
    );

    let mut session = two_processes();
    turn(&mut session, Act::Enter(Call::Vfork));
    turn(&mut session, Act::Leave);
    assert_eq!(target_lwp(&session).mode, Mode::Vfork { child: 1002 });
    let child = *session.view(USER).unwrap().process(1002).unwrap();
    assert_eq!((child.parent, child.state), (TARGET, State::Running));
}
