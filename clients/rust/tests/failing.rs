//! Tests that fail, or pass, in the ways that their names say. tests/python/test_failed_tests.py runs them, and looks at what
//! they leave.

use std::thread;
use tracehost::test::{self, TestSession};
use tracehost::{Act, Caller, Error, Reply, Request, Session, Settings, Signal, WaitOptions, WaitStatus, Which};

const USER: u32 = 1001;

/// A debugger that takes a SIGSEGV of its target for the end of a PT_STEP: the signal of its second stop.
fn signal_after_step(session: &mut Session) -> Result<Option<Signal>, Error> {
    let debugger = Caller {
        user: USER,
        pid: session.spawn(USER)?.pid,
    };
    let target = session.spawn(USER)?;
    session.ptrace(debugger, Request::Attach, target.pid)?;
    session.wait4(debugger, Which::Any, WaitOptions::empty())?;
    session.ptrace(debugger, Request::Step(None), target.pid)?;
    session.turn(USER, target.lwp, Act::Raise(Signal::SIGSEGV))?;
    session.turn(USER, target.lwp, Act::Compute)?;
    Ok(match session.wait4(debugger, Which::Any, WaitOptions::empty())? {
        Reply::Status {
            status: WaitStatus::Stopped(signal),
            ..
        } => Some(signal),
        _ => None,
    })
}

/// Named by the environment, if it names one.
fn begin() -> TestSession {
    match std::env::var("TEST_NAME") {
        Ok(name) => test::session_named(&name, Settings::default()),
        Err(_) => test::session(),
    }
}

#[test]
#[ignore = "tests/python/test_failed_tests.py runs it"]
fn passes() {
    assert_eq!(signal_after_step(&mut begin()), Ok(Some(Signal::SIGSEGV)));
}

#[test]
#[ignore = "tests/python/test_failed_tests.py runs it"]
fn fails() {
    assert_eq!(signal_after_step(&mut begin()), Ok(Some(Signal::SIGTRAP)));
}

#[test]
#[ignore = "tests/python/test_failed_tests.py runs it"]
fn returns_an_error() -> Result<(), String> {
    test::run("returns_an_error", |session| {
        let signal = signal_after_step(session).map_err(|error| error.to_string())?;
        Err(format!("stopped by {signal:?}"))
    })
}

#[test]
#[ignore = "tests/python/test_failed_tests.py runs it"]
fn returns_no_error() -> Result<(), Error> {
    test::run("returns_no_error", |session| signal_after_step(session).map(drop))
}

fn fails_in_a_thread() {
    let made = thread::spawn(|| {
        let mut session = test::session_named("twice", Settings::default());
        assert_eq!(signal_after_step(&mut session), Ok(Some(Signal::SIGTRAP)));
    });
    assert!(made.join().is_err());
}

#[test]
#[ignore = "tests/python/test_failed_tests.py runs it"]
fn twice() {
    fails_in_a_thread();
    fails_in_a_thread();
}

#[test]
#[ignore = "tests/python/test_failed_tests.py runs it"]
fn threads() {
    let all: Vec<_> = (0..8)
        .map(|_| {
            thread::spawn(|| {
                let mut session = test::session_named("threads", Settings::default());
                assert_eq!(signal_after_step(&mut session), Ok(Some(Signal::SIGTRAP)));
            })
        })
        .collect();
    let failed = all.into_iter().filter_map(|thread| thread.join().err()).count();
    assert_eq!(failed, 8);
}

/// It is dropped by a panic that was there before the session, and has not failed.
#[test]
#[ignore = "tests/python/test_failed_tests.py runs it"]
fn begins_in_a_panic() {
    struct Cleaner;
    impl Drop for Cleaner {
        fn drop(&mut self) {
            let mut session = test::session_named("begins_in_a_panic", Settings::default());
            session.spawn(USER).expect("a process");
        }
    }
    let made = thread::spawn(|| {
        let _cleaner = Cleaner;
        panic!("of the test");
    });
    assert!(made.join().is_err());
}

#[test]
#[ignore = "tests/python/test_failed_tests.py runs it"]
fn no_step() {
    let _session = test::session_named("no_step", Settings::default());
    panic!("before any step");
}

/// A debugger and a target that nobody traces.
fn begun() -> Result<(TestSession, Caller, u32), Error> {
    let mut session = begin();
    let debugger = Caller {
        user: USER,
        pid: session.spawn(USER)?.pid,
    };
    let target = session.spawn(USER)?.pid;
    Ok((session, debugger, target))
}

#[test]
#[ignore = "tests/python/test_failed_tests.py runs it"]
fn question_mark() -> Result<(), Error> {
    let (mut session, debugger, target) = begun()?;
    session.ptrace(debugger, Request::Continue(None), target)?;
    Ok(())
}

#[test]
#[ignore = "tests/python/test_failed_tests.py runs it"]
fn question_mark_of_a_box() -> Result<(), Box<dyn std::error::Error>> {
    let (mut session, debugger, target) = begun()?;
    session.ptrace(debugger, Request::Continue(None), target)?;
    Ok(())
}

/// The last step is refused, as the test expects.
#[test]
#[ignore = "tests/python/test_failed_tests.py runs it"]
fn ends_with_a_refusal() -> Result<(), Error> {
    let (mut session, debugger, target) = begun()?;
    assert!(session.ptrace(debugger, Request::Continue(None), target).is_err());
    Ok(())
}

#[test]
#[should_panic(expected = "EPERM")]
#[ignore = "tests/python/test_failed_tests.py runs it"]
fn should_panic() {
    let (mut session, debugger, target) = begun().expect("two processes");
    session
        .ptrace(debugger, Request::Continue(None), target)
        .expect("it is traced");
}

#[test]
#[should_panic(expected = "another text")]
#[ignore = "tests/python/test_failed_tests.py runs it"]
fn should_panic_otherwise() {
    let (mut session, debugger, target) = begun().expect("two processes");
    session
        .ptrace(debugger, Request::Continue(None), target)
        .expect("it is traced");
}

#[test]
#[ignore = "tests/python/test_failed_tests.py runs it"]
fn dies() {
    let (mut session, _, _) = begun().expect("two processes");
    session.list(Caller { user: USER, pid: 1000 }).expect("a list");
    std::process::abort();
}

/// It makes the steps of the lines of the file `$STEPS`, and fails.
#[test]
#[ignore = "tests/python/test_faults_in_suites.py runs it"]
fn steps() {
    let lines = std::fs::read_to_string(std::env::var("STEPS").expect("a file")).expect("steps");
    let mut session = begin();
    for line in lines.lines() {
        session.line(line).expect("an answer");
    }
    assert_eq!(lines.lines().count(), 0);
}

/// Which tests fail, by `$FAILING`: all, none, or those with an even number.
fn is_to_fail(number: usize) -> bool {
    std::env::var("FAILING").map_or(number % 2 == 0, |failing| failing == "all")
}

/// The test `$PREFIX.NUMBER` makes 1 to 5 steps.
fn numbered(number: usize) -> Result<(), Error> {
    let prefix = std::env::var("PREFIX").unwrap_or_default();
    let name = format!("{prefix}.{number}");
    let mut session = test::session_named(&name, Settings::default());
    let caller = Caller {
        user: USER,
        pid: session.spawn(USER)?.pid,
    };
    for _ in 0..number % 5 {
        session.spawn(USER)?;
    }
    if is_to_fail(number) {
        assert_eq!(number % 4, 0, "it is to fail");
        session.ptrace(caller, Request::Continue(None), 4711)?;
    }
    Ok(())
}

macro_rules! side_by_side {
    ($($name:ident $number:literal)*) => {
        mod side_by_side {
            $(#[test]
            #[ignore = "tests/python/test_records_at_once.py runs it"]
            fn $name() -> Result<(), super::Error> {
                super::numbered($number)
            })*
        }
    };
}

side_by_side!(n0 0 n1 1 n2 2 n3 3 n4 4 n5 5 n6 6 n7 7 n8 8 n9 9 n10 10 n11 11 n12 12 n13 13 n14 14 n15 15 n16 16 n17 17 n18 18 n19 19);
