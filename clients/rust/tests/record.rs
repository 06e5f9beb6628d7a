//! Recordings: the scenario is whole after each step, and the lines are those of its steps.

use std::fs;
use std::io::ErrorKind;
use std::path::{Path, PathBuf};
use tracehost::{
    Act, Call, Caller, Decision, Errno, Error, EventMask, Request, Rule, Session, Signal, StopFlags, WaitOptions, Which,
};

const USER: u32 = 1001;
const ENOSPC: i32 = 28;

/// A new folder of a test.
fn folder(name: &str) -> PathBuf {
    let folder = std::env::temp_dir().join(format!("tracehost-{name}-{}", std::process::id()));
    let _ = fs::remove_dir_all(&folder);
    fs::create_dir(&folder).expect("a new folder");
    folder
}

/// The steps of a recording, which is whole.
fn steps_of(scenario: &Path) -> Vec<String> {
    let text = fs::read_to_string(scenario).expect("a scenario");
    let steps = text
        .strip_prefix("{\"kill_on_debugger_exit\":1,\"steps\":[")
        .and_then(|rest| rest.strip_suffix("\n]}\n"));
    let steps = steps.unwrap_or_else(|| panic!("not whole: {text}"));
    steps
        .lines()
        .filter(|line| !line.is_empty())
        .map(|line| line.trim_end_matches(',').to_owned())
        .collect()
}

/// The lines that the steps of a recording have in a new session.
fn replayed(scenario: &Path) -> String {
    let mut session = Session::new().expect("a session");
    steps_of(scenario)
        .iter()
        .map(|step| session.line(step).expect("an answer") + "\n")
        .collect()
}

#[test]
fn each_call_is_recorded() -> Result<(), Box<dyn std::error::Error>> {
    let folder = folder("calls");
    let (scenario, lines) = (folder.join("s.json"), folder.join("s.out"));
    let mut session = Session::new()?;
    session.record(&scenario, Some(&lines))?;
    assert_eq!(steps_of(&scenario), Vec::<String>::new());
    let debugger = Caller {
        user: USER,
        pid: session.spawn(USER)?.pid,
    };
    let target = session.spawn(USER)?;
    assert_eq!(steps_of(&scenario).len(), 2);
    session.ptrace(debugger, Request::Attach, target.pid)?;
    session.wait4(debugger, Which::Any, WaitOptions::empty())?;
    session.ptrace(debugger, Request::SetEventMask(EventMask::PTRACE_EXEC), target.pid)?;
    let rule = Rule {
        signal: Some(Signal::SIGTRAP),
        flags: StopFlags::empty(),
        decision: Decision::Continue(None),
    };
    session.install(debugger, &[rule])?;
    session.ptrace(debugger, Request::Continue(None), target.pid)?;
    assert!(session.turn(USER, target.lwp, Act::Enter(Call::Exit(3))).is_ok());
    assert_eq!(
        session.kill(debugger, Which::Process(9), None),
        Err(Error::Errno(Errno::ESRCH))
    );
    // PT_TRACE_ME ignores the target
    assert_eq!(
        session.ptrace(debugger, Request::TraceMe, debugger.pid),
        Err(Error::Errno(Errno::EPERM))
    );
    session.json_line("{\"user\":1002,\"op\":\"spawn\"}")?;
    assert!(session.line("spawn")?.starts_with("refused"));
    assert_eq!(steps_of(&scenario).len(), 11);
    assert_eq!(fs::read_to_string(&lines)?, replayed(&scenario));
    fs::remove_dir_all(folder)?;
    Ok(())
}

#[test]
fn a_full_disk_leaves_a_whole_scenario() -> Result<(), Box<dyn std::error::Error>> {
    let folder = folder("full");
    let scenario = folder.join("s.json");
    let mut session = Session::new()?;
    session.record(&scenario, Some(Path::new("/dev/full")))?;
    assert_eq!(session.spawn(USER), Err(Error::RecordingFailed));
    assert_eq!(
        session.record_error().and_then(std::io::Error::raw_os_error),
        Some(ENOSPC)
    );
    assert_eq!(steps_of(&scenario), Vec::<String>::new());
    let caller = Caller { user: USER, pid: 1000 };
    assert_eq!(
        session.spawn(USER),
        Err(Error::RecordingFailed),
        "the session has ended"
    );
    assert_eq!(session.list(caller), Err(Error::RecordingFailed));
    assert_eq!(session.install(caller, &[]), Err(Error::RecordingFailed));
    assert_eq!(
        session.line("{\"user\":1001,\"op\":\"spawn\"}"),
        Err(Error::RecordingFailed)
    );
    assert_eq!(session.last_line(), Err(Error::RecordingFailed));
    assert_eq!(session.last_step(), Err(Error::RecordingFailed));
    assert_eq!(session.view(USER).err(), Some(Error::RecordingFailed));
    assert_eq!(session.try_clone().err(), Some(Error::RecordingFailed));
    let late = session.record(&scenario, None).expect_err("the session has ended");
    assert_eq!(late.kind(), ErrorKind::AlreadyExists);
    assert_eq!(steps_of(&scenario), Vec::<String>::new());
    fs::remove_dir_all(folder)?;
    Ok(())
}

#[test]
fn a_file_that_cannot_be_made_is_named() {
    let mut session = Session::new().expect("a session");
    let error = session.record("/nonexistent/s.json", None).expect_err("no folder");
    assert_eq!(
        (error.kind(), error.to_string().starts_with("/nonexistent/s.json: ")),
        (ErrorKind::NotFound, true)
    );
    let full = session.record("/dev/full", None).expect_err("a full disk");
    assert!(full.to_string().starts_with("/dev/full: "), "{full}");
    assert!(session.spawn(USER).is_ok());
    let late = session
        .record("/nonexistent/s.json", None)
        .expect_err("a step was made");
    assert_eq!(late.kind(), ErrorKind::AlreadyExists);
}
