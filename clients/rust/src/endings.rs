//! Tests of which only the end of their thread, or of the program, says whether they have failed.
//!
//! `#[should_panic]` makes a panic a pass. A test that returns an error drops its session first, as one does whose last step
//! is refused as it expects. Until it is known the files keep the names of a test that runs.

use crate::artifacts::Artifacts;
use crate::pages::{self, make_page};
use crate::sys;
use std::cell::RefCell;
use std::ffi::{c_int, c_void};
use std::panic::{self, AssertUnwindSafe};
use std::process;
use std::sync::{Mutex, Once};

/// A test that may have failed.
#[derive(Debug)]
pub struct Ending {
    pub artifacts: Artifacts,
    pub test: String,
    pub message: String,
    pub step: usize,
    /// Whether the page has been tried, and its paths are printed.
    pub is_told: bool,
}

/// Tests that have failed if the program's status isn't 0.
static AT_EXIT: Mutex<Vec<(u32, Ending)>> = Mutex::new(Vec::new());

thread_local! {
    static REFUSED: RefCell<Refused> = const { RefCell::new(Refused { ending: None, is_shown: false }) };
}

/// The thread's last test, if its last step was refused.
struct Refused {
    ending: Option<Ending>,
    is_shown: bool,
}

impl Drop for Refused {
    fn drop(&mut self) {
        self.end();
    }
}

impl Refused {
    /// A test that has returned an error has it shown by then, by [`std::process::Termination`].
    fn end(&mut self) {
        let is_shown = std::mem::take(&mut self.is_shown);
        match self.ending.take() {
            Some(ending) if is_shown => at_exit(ending),
            Some(ending) => ending.artifacts.remove(),
            None => {}
        }
    }
}

/// The last step was refused. The test has failed if an error is shown in this thread from now on.
pub fn refused(ending: Ending) {
    let mut given = Some(ending);
    let _ = REFUSED.try_with(|last| {
        if let Ok(mut last) = last.try_borrow_mut() {
            last.end();
            last.ending = given.take();
        }
    });
    if let Some(ending) = given {
        ending.artifacts.remove(); // the thread ends
    }
}

/// Another test begins in this thread.
pub fn begin() {
    let _ = REFUSED.try_with(|last| last.try_borrow_mut().map(|mut last| last.end()));
}

/// An error is shown in this thread.
pub fn error_is_shown() {
    let _ = REFUSED.try_with(|last| {
        last.try_borrow_mut()
            .map(|mut last| last.is_shown = last.ending.is_some())
    });
}

/// The test has failed if the program has.
pub fn at_exit(ending: Ending) {
    static ONCE: Once = Once::new();
    ONCE.call_once(|| sys::call_at_exit(end_of_program));
    if let Ok(mut all) = AT_EXIT.lock() {
        all.push((process::id(), ending));
    }
}

extern "C" fn end_of_program(status: c_int, _: *mut c_void) {
    let _ = panic::catch_unwind(AssertUnwindSafe(|| {
        let all = AT_EXIT.try_lock().map(|mut all| std::mem::take(&mut *all));
        for (owner, ending) in all.unwrap_or_default() {
            match status {
                _ if owner != process::id() => {} // a forked child, and the files are the parent's
                0 => ending.artifacts.remove(),
                _ => keep(ending),
            }
        }
    }));
}

/// The test has failed: makes its page, and says what is left.
pub fn keep(ending: Ending) {
    let Ending {
        test,
        message,
        step,
        is_told,
        artifacts,
    } = ending;
    let left = if is_told {
        None
    } else {
        Some((artifacts.try_page(&test, &message, step), artifacts.story(step)))
    };
    let stays = artifacts.now.scenario.display().to_string();
    match artifacts.keep() {
        Err(error) => {
            eprintln!("tracehost: the record stays {stays}: {error}");
        }
        Ok(names) => {
            if let Some((page, story)) = left {
                eprintln!("{}", names.told(&page, story));
            }
        }
    }
}

impl Artifacts {
    /// Makes the page. Else says why there is none.
    pub fn try_page(&self, test: &str, message: &str, step: usize) -> Result<(), String> {
        make_page(&self.now.scenario, &self.now.page, test, message, step)
    }

    /// What the session comes to, in words.
    pub fn story(&self, step: usize) -> Option<String> {
        pages::story(&self.now.scenario, &self.last.scenario, step)
    }
}
