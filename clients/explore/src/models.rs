//! Models to begin with: debuggers that have a race, and their remedies. Those of `clients/posix/races` are there as programs
//! in C; here they are small scripts.

mod attach;
mod signals;
mod threads;
mod waits;

use crate::model::Model;
use crate::process::{Place, Process};
use crate::script::{Go, Going, Script};
use std::ops::RangeInclusive;
use tracehost::{Act, Call, Caller, Error, New, Reply, Request, Session, Signal, SignalSet, WaitStatus};

/// What is set up: for whom, and how.
#[derive(Clone, Copy, Debug)]
pub struct Setup {
    /// Whose processes they are.
    pub user: u32,
    /// With the remedy.
    pub right: bool,
    /// How many signals, threads or targets there are, if the model has many of them.
    pub size: u8,
}

type Processes = Vec<Box<dyn Process>>;
type World = fn(&mut Session, Setup) -> Result<Processes, Error>;

/// A debugger with a race.
pub struct Race {
    /// Its name.
    pub name: &'static str,
    /// What may happen, in words.
    pub about: &'static str,
    /// The size of the program.
    pub size: u8,
    world: World,
}

impl Race {
    const fn new(name: &'static str, about: &'static str, size: u8, world: World) -> Race {
        Race {
            name,
            about,
            size,
            world,
        }
    }

    /// The sizes that it has.
    pub fn sizes(&self) -> RangeInclusive<u8> {
        match self.name {
            "lost_wakeup" | "status_stolen" => 0..=u8::MAX,
            "stop_lost_at_detach" | "step_over_breakpoint" | "tracees" => 1..=20,
            _ => self.size..=self.size,
        }
    }

    /// The race with this name.
    pub fn named(name: &str) -> Option<&'static Race> {
        ALL.iter().chain([&TRACEES]).find(|race| race.name == name)
    }

    /// Its model, or that of its remedy, for so many users from 1001 on, each of whom has all of it.
    pub fn model(&self, right: bool, users: u32, size: u8) -> Model {
        self.beside(right, users, size, false)
    }

    /// The same, with a process of each user that computes for ever, if there should be one.
    pub fn beside(&self, right: bool, users: u32, size: u8, ticker: bool) -> Model {
        let world = self.world;
        let right_name = if right { ", right" } else { "" };
        let ticker_name = if ticker { ", beside a ticker" } else { "" };
        let model = Model::new(format!("{}{right_name}{ticker_name}", self.name), move |host| {
            let mut processes = Processes::new();
            for user in 1001..1001 + users {
                if ticker {
                    processes.push(Box::new(ticking(host, user)?)); // first: a child gets the number after the others
                }
                processes.extend(world(host, Setup { user, right, size })?);
            }
            Ok(processes)
        });
        let size = size.to_string();
        let arguments = [
            self.name,
            if right { "right" } else { "wrong" },
            if ticker { "ticker" } else { "alone" },
            &users.to_string(),
            &size,
        ];
        model.arguments(arguments.map(str::to_owned))
    }
}

/// All races.
pub const ALL: &[Race] = &[
    Race::new(
        "attach_to_stopped",
        "a process is attached to that has stopped by job control",
        0,
        attach::attach_to_stopped,
    ),
    Race::new(
        "child_before_parent",
        "a fork's child stops, and its parent's report comes later",
        0,
        waits::child_before_parent,
    ),
    Race::new(
        "chld_coalesced",
        "two ends bring one SIGCHLD",
        0,
        signals::chld_coalesced,
    ),
    Race::new(
        "exec_with_threads",
        "an exec takes a thread away that is in a list",
        0,
        threads::exec_with_threads,
    ),
    Race::new(
        "group_stop",
        "a debugger takes another's SIGSTOP for its own",
        0,
        signals::group_stop,
    ),
    Race::new(
        "lost_wakeup",
        "SIGCHLD comes between a look and pause(2)",
        2,
        signals::lost_wakeup,
    ),
    Race::new(
        "newborn_lwp",
        "a thread is born while another is stepped over a breakpoint",
        0,
        threads::newborn_lwp,
    ),
    Race::new(
        "stale_lwp",
        "an exec takes the thread away that has stopped before",
        0,
        threads::stale_lwp,
    ),
    Race::new(
        "status_stolen",
        "a wait for any child takes the status of a helper",
        2,
        waits::status_stolen,
    ),
    Race::new(
        "step_over_breakpoint",
        "a thread passes a breakpoint while another is stepped",
        2,
        threads::step_over_breakpoint,
    ),
    Race::new(
        "stop_before_wait",
        "a request comes before the wait that reports the stop",
        0,
        waits::stop_before_wait,
    ),
    Race::new(
        "stop_lost_at_detach",
        "a second SIGTRAP is pending at PT_DETACH",
        2,
        attach::stop_lost_at_detach,
    ),
    Race::new(
        "tracer_dies",
        "a tracer is asked to end before it can detach",
        0,
        attach::tracer_dies,
    ),
    Race::new(
        "unannounced_child",
        "a parent is killed before it reports its child",
        0,
        waits::unannounced_child,
    ),
];

/// A debugger that waits for any of its targets, which has no race.
pub const TRACEES: Race = Race::new(
    "tracees",
    "none: a debugger waits for any of its targets",
    3,
    waits::tracees,
);

fn set(signals: &[Signal]) -> SignalSet {
    signals.iter().copied().collect()
}

fn caller(user: u32, new: New) -> Caller {
    Caller { user, pid: new.pid }
}

/// A child of a process, by fork(2).
fn fork(host: &mut Session, user: u32, parent: New) -> Result<New, Error> {
    host.turn(user, parent.lwp, Act::Enter(Call::Fork))?;
    made(host.turn(user, parent.lwp, Act::Leave)?)
}

/// A thread of a process.
fn thread(host: &mut Session, user: u32, process: New) -> Result<New, Error> {
    host.turn(user, process.lwp, Act::Enter(Call::ThrNew))?;
    made(host.turn(user, process.lwp, Act::Leave)?)
}

fn made(reply: Reply) -> Result<New, Error> {
    match reply {
        Reply::New(new) => Ok(new),
        reply => unreachable!("{reply} in place of a new process or LWP"),
    }
}

/// A child that its parent traces.
fn traced_child(host: &mut Session, user: u32, debugger: New) -> Result<New, Error> {
    let target = fork(host, user, debugger)?;
    host.ptrace(caller(user, target), Request::TraceMe, 0)?;
    Ok(target)
}

/// A process that isn't there yet: the user's next one. Its script begins once it is there.
fn next_one(host: &Session, user: u32) -> Result<New, Error> {
    host.try_clone()?.spawn(user)
}

/// A process that computes for ever.
fn ticking(host: &mut Session, user: u32) -> Result<Script, Error> {
    let mut script = Script::new("ticker", user, host.spawn(user)?);
    script.label("tick");
    script.act(Act::Compute);
    script.jump("tick");
    Ok(script)
}

/// A process that sleeps until a byte of the memory is 1, and exits.
fn sleeping(name: &str, user: u32, own: New, byte: usize, code: u8) -> Script {
    let mut script = Script::new(name, user, own);
    script.act(Act::Enter(Call::Exit(code)));
    script.once(byte, 1);
    script.act(Act::Leave);
    script
}

/// The child stops by SIGSTOP.
fn stop(host: &mut Session, user: u32, target: New) -> Result<(), Error> {
    host.turn(user, target.lwp, Act::Raise(Signal::SIGSTOP))?;
    host.turn(user, target.lwp, Act::Compute).map(drop)
}

/// A debugger, and the LWPs of its target, as many as the size says. The target has stopped by SIGSTOP.
fn threads(host: &mut Session, setup: Setup) -> Result<(New, Vec<New>), Error> {
    let debugger = host.spawn(setup.user)?;
    let target = traced_child(host, setup.user, debugger)?;
    let mut lwps = vec![target];
    for _ in 1..setup.size {
        lwps.push(thread(host, setup.user, target)?);
    }
    stop(host, setup.user, target)?;
    Ok((debugger, lwps))
}

/// Goes on if the process has stopped by this signal.
fn stopped_by(wanted: Signal) -> impl Fn(&mut Place, WaitStatus) -> Going {
    move |_, status| match status {
        WaitStatus::Stopped(signal) if signal == wanted => Ok(Go::On),
        status => Err(format!("{status} in place of a stop by {wanted}")),
    }
}

/// A target that raises SIGUSR1 and SIGUSR2 in turn, so often, and exits.
fn raising(user: u32, own: New, signals: u8) -> Script {
    const LEFT: usize = 0;
    let mut script = Script::new(format!("target {}", own.pid), user, own);
    script.remember(LEFT, signals);
    script.label("signal");
    script.jump_if(LEFT, 0, "exit");
    script.act_with(
        |place, _| {
            Some(Act::Raise(if place.bytes[LEFT] % 2 == 0 {
                Signal::SIGUSR1
            } else {
                Signal::SIGUSR2
            }))
        },
        |_, _, _| Ok(Go::On),
    );
    script.act(Act::Compute);
    script.local(|place| {
        place.bytes[LEFT] -= 1;
        Go::To("signal")
    });
    script.label("exit");
    script.call(Call::Exit(7));
    script
}
