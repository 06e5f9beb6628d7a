//! What a session does if the library runs out of memory, or returns another code. tests/python/test_rust.py runs it over
//! the library of tests/memory/library.c.

use tracehost::{Act, Caller, Disposition, Errno, Error, Request, Session, Settings, Signal, WaitOptions, Which};

const CODES: [(u32, Error); 4] = [
    (0, Error::Errno(Errno::ENOMEM)),
    (2, Error::NoMemory),
    (3, Error::Invalid),
    (5, Error::TooMany),
];

#[test]
#[ignore = "tests/python/test_rust.py has its library"]
fn sessions() {
    assert_eq!(
        Session::with_settings(Settings {
            kill_on_debugger_exit: false
        })
        .err(),
        Some(Error::NoMemory)
    );
    assert_eq!(Session::new().unwrap().try_clone().err(), Some(Error::NoMemory));
}

#[test]
#[ignore = "tests/python/test_rust.py has its library"]
fn typed_calls() {
    let mut session = Session::new().unwrap();
    for (user, error) in CODES {
        let caller = Caller { user, pid: 1000 };
        assert_eq!(session.spawn(user), Err(error));
        assert_eq!(session.list(caller), Err(error));
        assert_eq!(
            session.sigaction(caller, Signal::SIGHUP, Disposition::Catch),
            Err(error)
        );
        assert_eq!(session.kill(caller, Which::Any, None), Err(error));
        assert_eq!(session.wait4(caller, Which::Any, WaitOptions::empty()), Err(error));
        assert_eq!(session.install(caller, &[]), Err(error));
        assert_eq!(session.handle(caller), Err(error));
        assert_eq!(session.ptrace(caller, Request::TraceMe, 0), Err(error));
        assert_eq!(session.turn(user, 100000, Act::Compute), Err(error));
    }
}

#[test]
#[ignore = "tests/python/test_rust.py has its library"]
fn text() {
    let mut session = Session::new().unwrap();
    assert_eq!(session.line("2"), Err(Error::NoMemory));
    assert_eq!(session.line("5"), Err(Error::TooMany));
    assert_eq!(session.line("4"), Err(Error::NoText));
    assert_eq!(session.last_line().unwrap(), "1001 1 ok");
    assert_eq!(session.line("0").unwrap(), "1001 1 ok", "the first room was too small");
    assert_eq!(session.json_line("0").unwrap(), "y".repeat(1000));
    assert_eq!(session.last_step(), Err(Error::NoMemory));
    assert_eq!(session.last_step().unwrap(), Some("z".repeat(1000)));
}

#[test]
#[ignore = "tests/python/test_rust.py has its library"]
fn views() {
    let session = Session::new().unwrap();
    assert_eq!(session.view(2), Err(Error::NoMemory));
    assert_eq!(session.view(3), Err(Error::Invalid));
    assert_eq!(
        session.view(0).unwrap().processes.len(),
        4,
        "the room grows until the rows fit"
    );
}
