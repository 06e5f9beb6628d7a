//! What the replay of scenarios doesn't reach: errors, copies, text after typed calls, threads.

use std::thread;
use tracehost::{
    Act, Call, Caller, Decision, Errno, Error, Reply, Request, Rule, Session, Settings, Signal, StopFlags, WaitOptions,
    WaitStatus, Which,
};

const USER: u32 = 1001;
const DEBUGGER: Caller = Caller { user: USER, pid: 1000 };
const TARGET: u32 = 1001;
const TARGET_LWP: u32 = 100001;

/// A session whose process 1000 has attached to process 1001.
fn attached() -> Session {
    let mut session = Session::new().unwrap();
    session.spawn(USER).unwrap();
    session.spawn(USER).unwrap();
    assert_eq!(session.ptrace(DEBUGGER, Request::Attach, TARGET), Ok(Reply::Done));
    session
}

fn wait(session: &mut Session) -> Result<Reply, Error> {
    session.wait4(DEBUGGER, Which::Any, WaitOptions::empty())
}

#[test]
fn errors() {
    let mut session = attached();
    assert_eq!(session.spawn(1000), Err(Error::Invalid));
    assert_eq!(session.spawn(1065), Err(Error::Invalid));
    let rule = Rule {
        signal: None,
        flags: StopFlags::empty(),
        decision: Decision::Leave,
    };
    assert_eq!(session.install(DEBUGGER, &[rule; 17]), Err(Error::TooManyRules));
    assert_eq!(session.last_line().unwrap(), "1001 3 ok", "nothing of this was a step");
    assert_eq!(session.install(DEBUGGER, &[rule; 16]), Ok(()));
    let target = Caller {
        user: USER,
        pid: TARGET,
    };
    assert_eq!(session.list(target), Err(Error::Held));
    assert_eq!(session.last_line().unwrap(), "1001 5 held");
    let attach = session.ptrace(DEBUGGER, Request::Attach, 99);
    assert_eq!(attach, Err(Error::Errno(Errno::ESRCH)));
    assert_eq!(session.last_line().unwrap(), "1001 6 error ESRCH 3");
    let error: Box<dyn std::error::Error> = Box::new(attach.unwrap_err());
    assert_eq!(error.to_string(), "No such process");
}

#[test]
fn settings() {
    for kill_on_debugger_exit in [false, true] {
        let mut session = Session::with_settings(Settings { kill_on_debugger_exit }).unwrap();
        for _ in 0..3 {
            session.spawn(USER).unwrap();
        }
        session.ptrace(DEBUGGER, Request::Attach, TARGET).unwrap();
        let ended = session.turn(USER, 100000, Act::Raise(Signal::SIGKILL));
        assert_eq!(ended, Ok(Reply::Ended(WaitStatus::Signaled(Signal::SIGKILL))));
        let left = session.list(Caller { user: USER, pid: 1002 }).unwrap();
        assert_eq!(
            left,
            if kill_on_debugger_exit {
                vec![1002]
            } else {
                vec![1001, 1002]
            }
        );
    }
}

#[test]
fn copies_go_their_own_ways() {
    let mut session = attached();
    let mut copy = session.try_clone().unwrap();
    assert_eq!(
        wait(&mut copy),
        Ok(Reply::Status {
            pid: TARGET,
            status: WaitStatus::Stopped(Signal::SIGSTOP)
        })
    );
    copy.ptrace(DEBUGGER, Request::Kill, TARGET).unwrap();
    assert_eq!(
        wait(&mut copy),
        Ok(Reply::Status {
            pid: TARGET,
            status: WaitStatus::Signaled(Signal::SIGKILL)
        })
    );
    assert_eq!(copy.last_line().unwrap(), "1001 6 status 1001 9");
    assert_eq!(
        session.ptrace(DEBUGGER, Request::Kill, TARGET),
        Err(Error::Errno(Errno::EBUSY)),
        "no wait has reported it"
    );
    assert_eq!(session.last_line().unwrap(), "1001 4 error EBUSY 16");
    drop(session);
    assert_eq!(
        copy.list(DEBUGGER),
        Ok(vec![1000]),
        "process 1, its parent, has collected it"
    );
}

#[test]
fn sessions_share_nothing() {
    let mut first = attached();
    let mut second = Session::new().unwrap();
    assert_eq!(second.spawn(USER).unwrap().pid, 1000);
    assert_eq!(first.spawn(USER).unwrap().pid, 1002);
}

#[test]
fn text_and_typed_calls_mix() {
    let mut session = Session::new().unwrap();
    assert_eq!(session.last_line().unwrap(), "");
    session.spawn(USER).unwrap();
    assert_eq!(
        session.line(r#"{"user":1001,"op":"spawn"}"#).unwrap(),
        "1001 2 new 1001 100001"
    );
    session.list(DEBUGGER).unwrap();
    assert_eq!(session.last_line().unwrap(), "1001 3 pids 1000 1001");
    assert_eq!(
        session.last_json_line().unwrap(),
        r#"{"user":1001,"step":3,"reply":"pids","pids":[1000,1001]}"#
    );
    assert_eq!(session.line("").unwrap(), "refused BadJson");
    assert_eq!(session.line(&" ".repeat(65537)).unwrap(), "refused TooLong");
    session.list(DEBUGGER).unwrap();
    assert_eq!(session.last_line().unwrap(), "1001 4 pids 1000 1001");
}

#[test]
fn an_answer_longer_than_the_first_room() {
    let mut session = Session::new().unwrap();
    for _ in 0..200 {
        session.spawn(USER).unwrap();
    }
    let pids: Vec<u32> = (1000..1200).collect();
    assert_eq!(session.list(DEBUGGER).unwrap(), pids);
    let words: Vec<String> = pids.iter().map(u32::to_string).collect();
    let line = session.line(r#"{"user":1001,"op":"list","caller":1000}"#).unwrap();
    assert_eq!(line, format!("1001 202 pids {}", words.join(" ")));
}

#[test]
fn handlers() {
    let mut session = attached();
    let rule = Rule {
        signal: Some(Signal::SIGSTOP),
        flags: StopFlags::empty(),
        decision: Decision::Continue(None),
    };
    session.install(DEBUGGER, &[rule]).unwrap();
    let Ok(Reply::Handled(handled)) = session.handle(DEBUGGER) else {
        panic!("a trace stop");
    };
    assert_eq!(
        (handled.pid, handled.lwp, handled.signal),
        (TARGET, TARGET_LWP, Signal::SIGSTOP)
    );
    assert_eq!((handled.handler, handled.decision), (Some(0), Decision::Continue(None)));
    assert_eq!(session.handle(DEBUGGER), Ok(Reply::Nothing));
}

#[test]
fn a_session_moves_to_another_thread_and_back() {
    let session = attached();
    let moved = thread::spawn(move || {
        let mut session = session;
        let news = wait(&mut session);
        (session, news)
    });
    let (mut session, news) = moved.join().unwrap();
    assert_eq!(
        news,
        Ok(Reply::Status {
            pid: TARGET,
            status: WaitStatus::Stopped(Signal::SIGSTOP)
        })
    );
    session.ptrace(DEBUGGER, Request::Continue(None), TARGET).unwrap();
    let dropped = thread::spawn(move || session.turn(USER, TARGET_LWP, Act::Enter(Call::Fork)));
    assert_eq!(dropped.join().unwrap(), Ok(Reply::Done));
}

#[test]
fn sessions_in_many_threads() {
    let threads: Vec<_> = (0..4)
        .map(|_| {
            thread::spawn(|| {
                for _ in 0..20 {
                    let mut session = attached();
                    assert!(wait(&mut session).is_ok());
                }
            })
        })
        .collect();
    for thread in threads {
        thread.join().unwrap();
    }
}

/// A closure decides by system call: reads go on, an exec ends the process, and a signal is passed on with a detach.
#[test]
fn a_closure_decides() {
    const READ: u32 = 3;
    let mut session = attached();
    wait(&mut session).unwrap();
    session.ptrace(DEBUGGER, Request::Syscall(None), TARGET).unwrap();
    let mut seen = Vec::new();
    let mut decide = |stop: &tracehost::Handled| {
        seen.push((stop.code, stop.flags));
        match (stop.code, stop.signal) {
            (59, _) => Decision::Kill,
            (_, Signal::SIGTRAP) => Decision::Continue(None),
            (_, signal) => Decision::Detach(Some(signal)),
        }
    };
    assert_eq!(session.handle_with(DEBUGGER, &mut decide), Ok(Reply::Nothing));
    for call in [Act::Enter(Call::Other(READ)), Act::Leave, Act::Enter(Call::Exec)] {
        session.turn(USER, TARGET_LWP, call).unwrap();
        let Ok(Reply::Handled(stop)) = session.handle_with(DEBUGGER, &mut decide) else {
            panic!("a stop")
        };
        assert_eq!((stop.pid, stop.handler), (TARGET, None));
    }
    let killed = session.handle_with(DEBUGGER, &mut decide).unwrap();
    assert!(matches!(killed, Reply::Status { pid: TARGET, .. }), "{killed}");
    let codes: Vec<u32> = seen.iter().map(|&(code, _)| code).collect();
    assert_eq!(codes, [READ, READ, 59]);
}

/// The caller's rules come first, a stop that is left remains, and an error of the request is returned.
#[test]
fn a_closure_after_rules() {
    let mut session = attached();
    wait(&mut session).unwrap();
    let rule = Rule {
        signal: Some(Signal::SIGUSR1),
        flags: StopFlags::empty(),
        decision: Decision::Continue(None),
    };
    session.install(DEBUGGER, &[rule]).unwrap();
    session.ptrace(DEBUGGER, Request::Continue(None), TARGET).unwrap();
    for (signal, asked) in [(Signal::SIGUSR1, false), (Signal::SIGUSR2, true)] {
        session.turn(USER, TARGET_LWP, Act::Raise(signal)).unwrap();
        session.turn(USER, TARGET_LWP, Act::Compute).unwrap();
        let mut was_asked = false;
        let reply = session.handle_with(DEBUGGER, |_| {
            was_asked = true;
            Decision::Leave
        });
        assert!(matches!(reply, Ok(Reply::Handled(_))));
        assert_eq!(was_asked, asked);
    }
    assert_eq!(
        session.turn(USER, TARGET_LWP, Act::Compute),
        Err(Error::Held),
        "the stop remains"
    );
    let other = Caller { user: USER, pid: 7 };
    assert_eq!(
        session.handle_with(other, |_| Decision::Kill),
        Err(Error::Errno(Errno::ESRCH))
    );
}
