//! The model of FreeBSD's ptrace(2), wait(2), sigaction(2) and kill(2), in the process.
//!
//! A [`Session`] is a host of its own, shared by 64 users, each of whom sees only their own processes. Calls have the
//! arguments of their manual pages, and return a [`Reply`] or an [`Error`]. What they answer is proved to be what the
//! model says; this crate, which calls the proved library, is tested.
//!
//! ```
//! use tracehost::{Act, Call, Caller, Errno, Error, Reply, Request, Session, Signal, WaitOptions, WaitStatus, Which};
//!
//! const USER: u32 = 1001;
//!
//! fn main() -> Result<(), Error> {
//!     let mut session = Session::new()?;
//!     let debugger = Caller { user: USER, pid: session.spawn(USER)?.pid };
//!     let target = session.spawn(USER)?;
//!
//!     session.ptrace(debugger, Request::Attach, target.pid)?;
//!     let news = session.wait4(debugger, Which::Any, WaitOptions::empty())?;
//!     assert_eq!(news, Reply::Status { pid: target.pid, status: WaitStatus::Stopped(Signal::SIGSTOP) });
//!     session.ptrace(debugger, Request::Continue(None), target.pid)?;
//!
//!     session.turn(USER, target.lwp, Act::Enter(Call::Exit(3)))?;
//!     assert_eq!(session.turn(USER, target.lwp, Act::Leave)?, Reply::Ended(WaitStatus::Exited(3)));
//!
//!     let stranger = Caller { user: 1002, pid: session.spawn(1002)?.pid };
//!     let refused = session.ptrace(stranger, Request::Attach, target.pid);
//!     assert_eq!(refused, Err(Error::Errno(Errno::ESRCH)));
//!     Ok(())
//! }
//! ```

#[cfg(doctest)]
#[doc = include_str!("../README.md")]
struct Readme;

mod artifacts;
mod earlier;
mod endings;
mod error;
mod flags;
pub mod fuzz;
mod numbers;
mod pages;
mod record;
mod refusals;
mod replies;
mod session;
mod steps;
mod sys;
pub mod test;
mod view;

pub use error::Error;
pub use flags::{EventMask, SignalSet, StopFlags, WaitOptions};
pub use numbers::{Errno, Signal};
pub use replies::{Handled, LwpInfo, New, Reply, WaitStatus};
pub use session::{Session, Settings};
pub use steps::{Act, Call, Caller, Decision, Disposition, Request, Rule, Which};
pub use view::{Due, Lwp, Mode, Process, State, View};
