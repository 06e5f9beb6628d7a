//! Makes steps, attach, wait4 and detach in turn, and prints how many nanoseconds a step took.
//!
//!     steps typed STEPS
//!
//! bench/in_process.py compiles and runs it.

use std::env;
use std::time::Instant;
use tracehost::{Caller, Error, Reply, Request, Session, WaitOptions, Which};

fn main() -> Result<(), Error> {
    let steps = env::args().nth(2).and_then(|word| word.parse().ok());
    let rounds: u32 = steps.unwrap_or(3000) / 3;
    let mut session = Session::new()?;
    let debugger = Caller {
        user: 1001,
        pid: session.spawn(1001)?.pid,
    };
    let target = session.spawn(1001)?.pid;
    let began = Instant::now();
    for _ in 0..rounds {
        session.ptrace(debugger, Request::Attach, target)?;
        let news = session.wait4(debugger, Which::Process(target), WaitOptions::empty())?;
        assert!(matches!(news, Reply::Status { pid, .. } if pid == target));
        session.ptrace(debugger, Request::Detach(None), target)?;
    }
    println!("{:.1}", began.elapsed().as_nanos() as f64 / f64::from(rounds * 3));
    Ok(())
}
