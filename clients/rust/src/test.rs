//! Sessions for tests: one that fails leaves its session.
//!
//! It leaves `PROGRAM.NAME-DIGEST.json`, a scenario with the steps, with `.out` their lines, and with `.html` a page with the
//! test's name, the panic and the state at that step. They are in the folder `$TRACEHOST_ARTIFACTS`, else in a new one below
//! [`std::env::temp_dir`], and standard error says where. `$TRACEHOST` and `$TRACEHOST_VIEW` name the programs that make the
//! page; else they are `tracehost` and `tracehost-view`. A further test of the name in this process gets a number. A test that
//! passes leaves nothing, and removes what it left in an earlier run; a forked child does neither. If `$TRACEHOST_TRACES` names
//! a folder, a test that ends leaves a copy of its scenario there, whether it passes or fails, as
//! `PROGRAM.NAME-DIGEST.PROCESS.json`. What can't be recorded is told, and changes neither a call nor the test.
//!
//! A test may fail by a panic, or by returning an error:
//!
//! - While a test runs, the process's number is at the end of the names. They stay so if the process dies, which the test's
//!   next run tells.
//! - libtest tells no test whether it has failed. A panic of a test's own thread is a failure if the program's status is one:
//!   if all tests pass, those with `#[should_panic]` leave nothing; beside a failed test their files stay too.
//! - If the last step was refused, and its [`Error`](crate::Error) is shown in that thread once the session is dropped, as
//!   libtest shows what a test returns, it is such a failure. An error that was turned into a text before isn't seen: [`run`]
//!   sees it.

use crate::artifacts::{tell_lost, Artifacts};
use crate::endings::{self, Ending};
use crate::record::Recording;
use crate::{Session, Settings};
use std::cell::RefCell;
use std::fmt::Display;
use std::ops::{Deref, DerefMut};
use std::panic::{self, AssertUnwindSafe, Location};
use std::sync::Once;
use std::thread;

thread_local! {
    /// The thread's last panic.
    static PANIC: RefCell<Option<String>> = const { RefCell::new(None) };
}

/// A session that is recorded from its beginning. If its thread panics it leaves its files, once it is dropped.
///
/// ```
/// // in a function with #[test]
/// let mut session = tracehost::test::session();
/// let debugger = tracehost::Caller { user: 1001, pid: session.spawn(1001).unwrap().pid };
/// let target = session.spawn(1001).unwrap().pid;
/// session.ptrace(debugger, tracehost::Request::Attach, target).unwrap();
/// ```
#[derive(Debug)]
pub struct TestSession {
    session: Session,
    name: String,
    artifacts: Option<Artifacts>,
    /// What was said of the failure, and after how many steps.
    failure: Option<(String, usize)>,
    began_in_panic: bool,
    process: u32,
}

/// A session named as its test: as the thread, which `cargo test` names so, or as the place of this call.
///
/// # Panics
///
/// If memory runs out.
#[track_caller]
pub fn session() -> TestSession {
    let place = Location::caller();
    let thread = thread::current();
    match thread.name() {
        Some(name) if name != "main" => session_named(name, Settings::default()),
        _ => session_named(&format!("{}:{}", place.file(), place.line()), Settings::default()),
    }
}

/// A session of a test of this name.
///
/// # Panics
///
/// If memory runs out.
#[track_caller]
pub fn session_named(name: &str, settings: Settings) -> TestSession {
    keep_panics();
    endings::begin();
    let mut session = Session::with_settings(settings).expect("a session");
    let artifacts = match Artifacts::open(name) {
        Ok((artifacts, scenario, lines)) => {
            let kills = settings.kill_on_debugger_exit;
            match Recording::of_files(&artifacts.now.scenario, scenario, Some(lines), kills) {
                Ok(recording) => session.record_test(recording),
                Err(error) => tell_lost(name, "", &error),
            }
            Some(artifacts)
        }
        Err(error) => {
            tell_lost(name, "", &error);
            None
        }
    };
    TestSession {
        session,
        name: name.to_owned(),
        artifacts,
        failure: None,
        began_in_panic: thread::panicking(),
        process: std::process::id(),
    }
}

/// Runs a test that returns a `Result` with a session of this name. An error is a failure, too.
///
/// ```
/// # fn main() -> Result<(), tracehost::Error> {
/// tracehost::test::run("spawning", |session| {
///     session.spawn(1001)?;
///     Ok(())
/// })
/// # }
/// ```
pub fn run<T, E: Display>(name: &str, test: impl FnOnce(&mut TestSession) -> Result<T, E>) -> Result<T, E> {
    let mut session = session_named(name, Settings::default());
    let result = test(&mut session);
    if let Err(error) = &result {
        session.fail(error.to_string());
    }
    result
}

impl TestSession {
    /// The test has failed, also if it doesn't panic. The first message and its step are on the page.
    pub fn fail(&mut self, message: impl Into<String>) {
        if self.failure.is_none() {
            let mut message = message.into();
            if let Ok(Some(why)) = self.session.explain() {
                message = format!("{message}\n{why}");
            }
            self.failure = Some((message, self.session.recorded_steps()));
        }
    }
}

impl Deref for TestSession {
    type Target = Session;

    fn deref(&self) -> &Session {
        &self.session
    }
}

impl DerefMut for TestSession {
    fn deref_mut(&mut self) -> &mut Session {
        &mut self.session
    }
}

impl Drop for TestSession {
    fn drop(&mut self) {
        // a second panic would abort the program, and with it the tests that haven't run
        let _ = panic::catch_unwind(AssertUnwindSafe(|| self.end()));
    }
}

impl TestSession {
    fn end(&mut self) {
        let is_told = self.failure.is_some();
        let panics = thread::panicking() && !self.began_in_panic;
        if panics {
            let said = PANIC.try_with(|last| last.borrow_mut().take());
            self.fail(said.ok().flatten().unwrap_or_else(|| "a panic".to_owned()));
        }
        let Some(artifacts) = self.artifacts.take() else { return };
        if self.process != std::process::id() {
            return; // a forked child, and the files are the parent's
        }
        artifacts.leave_trace();
        match self.failure.take() {
            Some(failure) if panics && !is_told && is_of_libtest() => {
                let ending = self.ending(artifacts, failure, true);
                let page = ending.artifacts.try_page(&ending.test, &ending.message, ending.step);
                let told = ending.artifacts.last.told(&page, ending.artifacts.story(ending.step));
                endings::at_exit(ending);
                eprintln!("{told}"); // which libtest shows if the test fails
            }
            Some(failure) => endings::keep(self.ending(artifacts, failure, false)),
            None if self.session.is_refused() => {
                let line = self.session.last_line().unwrap_or_default();
                let why = self.session.explain().ok().flatten().unwrap_or_default();
                let step = self.session.recorded_steps();
                endings::refused(self.ending(artifacts, (format!("the last step: {line}\n{why}"), step), false));
            }
            None => artifacts.remove(),
        }
    }

    fn ending(&mut self, artifacts: Artifacts, (message, step): (String, usize), is_told: bool) -> Ending {
        Ending {
            artifacts,
            test: std::mem::take(&mut self.name),
            message,
            step,
            is_told,
        }
    }
}

/// Whether this thread is one that libtest has made for a test, and named.
fn is_of_libtest() -> bool {
    thread::current().name().is_some_and(|name| name != "main")
}

/// From now on a panic's text is kept for the page.
fn keep_panics() {
    static ONCE: Once = Once::new();
    ONCE.call_once(|| {
        if thread::panicking() {
            return; // a hook can't be set now
        }
        let before = panic::take_hook();
        panic::set_hook(Box::new(move |info| {
            let _ = PANIC.try_with(|last| *last.borrow_mut() = Some(info.to_string()));
            before(info);
        }));
    });
}
