//! A small debugger: attaches to a shell, follows its forks, prints system calls and signals, and detaches when a child
//! of the shell has ended.
//!
//!     cargo run --example debugger
//!
//! `main` has what the traced processes do. The examples of the clients in C and Python print the same.

use tracehost::{
    Act, Call, Caller, Errno, Error, EventMask, LwpInfo, Reply, Request, Session, Signal, StopFlags, WaitOptions,
    WaitStatus, Which,
};

const USER: u32 = 1001;
const SYS_READ: u32 = 3;
const SYS_WRITE: u32 = 4;

struct Debugger {
    session: Session,
    caller: Caller,
    tracees: Vec<u32>,
    leaving: bool,
}

fn call_name(code: u32) -> &'static str {
    match code {
        1 => "exit",
        2 => "fork",
        3 => "read",
        4 => "write",
        59 => "execve",
        66 => "vfork",
        _ => "call",
    }
}

impl Debugger {
    fn request(&mut self, request: Request, pid: u32) -> Result<Reply, Error> {
        self.session.ptrace(self.caller, request, pid)
    }

    /// Asks a process that has stopped for its events, and lets it go on.
    fn follow(&mut self, pid: u32) -> Result<(), Error> {
        let events =
            EventMask::PTRACE_FORK | EventMask::PTRACE_VFORK | EventMask::PTRACE_EXEC | EventMask::PTRACE_SYSCALL;
        self.tracees.push(pid);
        self.request(Request::SetEventMask(events), pid)?;
        self.request(Request::Continue(None), pid)?;
        Ok(())
    }

    fn attach(&mut self, pid: u32) -> Result<(), Error> {
        self.request(Request::Attach, pid)?;
        self.session
            .wait4(self.caller, Which::Process(pid), WaitOptions::empty())?;
        println!("{pid}: attached");
        self.follow(pid)
    }

    fn forget(&mut self, pid: u32) {
        self.tracees.retain(|tracee| *tracee != pid);
    }

    fn info(&mut self, pid: u32) -> Result<LwpInfo, Error> {
        match self.request(Request::LwpInfo, pid)? {
            Reply::Info(info) => Ok(info),
            reply => unreachable!("PT_LWPINFO answers {reply}"),
        }
    }

    fn stopped(&mut self, pid: u32, signal: Signal) -> Result<(), Error> {
        let info = self.info(pid)?;
        let call = call_name(info.code);
        let mut passed = None;
        if info.flags.contains(StopFlags::PL_FLAG_CHILD) {
            println!("{pid}: a child, followed");
            return self.follow(pid);
        }
        if info.flags.contains(StopFlags::PL_FLAG_SCE) {
            println!("{pid}: {call}");
        } else if info.flags.contains(StopFlags::PL_FLAG_FORKED) {
            println!("{pid}: {call} = {}", info.child);
        } else if info.flags.contains(StopFlags::PL_FLAG_EXEC) {
            println!("{pid}: runs another program");
        } else if info.flags.contains(StopFlags::PL_FLAG_SCX) {
            println!("{pid}: {call} done");
        } else if signal == Signal::SIGSTOP && self.leaving {
            self.request(Request::Detach(None), pid)?;
            self.forget(pid);
            println!("{pid}: detached");
            return Ok(());
        } else {
            println!("{pid}: {signal}, passed on");
            passed = Some(signal);
        }
        self.request(Request::Continue(passed), pid)?;
        Ok(())
    }

    /// The first end is what the debugger has waited for: it stops the others, to detach from them.
    fn ended(&mut self, pid: u32) -> Result<(), Error> {
        self.forget(pid);
        self.leaving = true;
        for tracee in &self.tracees {
            self.session
                .kill(self.caller, Which::Process(*tracee), Some(Signal::SIGSTOP))?;
        }
        Ok(())
    }

    /// Takes all that wait4(2) has to report.
    fn collect(&mut self) -> Result<(), Error> {
        while !self.tracees.is_empty() {
            let news = self.session.wait4(self.caller, Which::Any, WaitOptions::empty())?;
            let Reply::Status { pid, status } = news else {
                break;
            };
            match status {
                WaitStatus::Stopped(signal) => self.stopped(pid, signal)?,
                WaitStatus::Exited(code) => {
                    println!("{pid}: exited with {code}");
                    self.ended(pid)?;
                }
                WaitStatus::Signaled(signal) => {
                    println!("{pid}: ended by {signal}");
                    self.ended(pid)?;
                }
                WaitStatus::Continued => {}
            }
        }
        Ok(())
    }

    /// The LWP does these acts, and the debugger takes what they bring. An act that a stop came before is done after it.
    fn run(&mut self, lwp: u32, acts: &[Act]) -> Result<(), Error> {
        let of_a_call = StopFlags::PL_FLAG_SCE | StopFlags::PL_FLAG_SCX;
        for act in acts {
            loop {
                let turned = self.session.turn(USER, lwp, *act)?;
                self.collect()?;
                if !matches!(turned, Reply::Stopped { flags, .. } if !flags.intersects(of_a_call)) {
                    break;
                }
            }
        }
        Ok(())
    }
}

fn main() -> Result<(), Error> {
    let mut session = Session::new()?;
    let caller = Caller {
        user: USER,
        pid: session.spawn(USER)?.pid,
    };
    let shell = session.spawn(USER)?;
    let mut debugger = Debugger {
        session,
        caller,
        tracees: Vec::new(),
        leaving: false,
    };
    debugger.attach(shell.pid)?;

    // the shell reads a command, and makes a process for it, whose LWP has the next number
    let (shell_lwp, child_lwp) = (shell.lwp, shell.lwp + 1);
    let enter = |call| Act::Enter(call);
    let (read, write) = (enter(Call::Other(SYS_READ)), enter(Call::Other(SYS_WRITE)));
    debugger.run(shell_lwp, &[read, Act::Leave, enter(Call::Fork), Act::Leave])?;
    debugger.run(child_lwp, &[enter(Call::Exec), Act::Leave, write, Act::Leave])?;
    debugger.run(
        child_lwp,
        &[
            Act::Raise(Signal::SIGWINCH),
            Act::Compute,
            enter(Call::Exit(3)),
            Act::Leave,
        ],
    )?;
    debugger.run(shell_lwp, &[Act::Compute, read, Act::Leave])?;

    let parent = Caller {
        user: USER,
        pid: shell.pid,
    };
    if let Reply::Status { pid, .. } = debugger.session.wait4(parent, Which::Any, WaitOptions::empty())? {
        println!("{}: has collected {pid}", shell.pid);
    }
    let nothing_left = debugger.session.wait4(caller, Which::Any, WaitOptions::empty());
    if nothing_left == Err(Error::Errno(Errno::ECHILD)) {
        println!("nothing left to trace");
    }
    Ok(())
}
