//! Fuzzing of a debugger: bytes are steps of the world around it, and what its user sees of the host tells the fuzzer what is
//! new.
//!
//! A [`World`] is a [`Session`], and makes the steps of all processes but the debugger's. libFuzzer, by cargo-fuzz or without
//! it, is told of each new state by its extra counters. A panic is a find: its session is saved as that of a failing test,
//! `PROGRAM.find-DIGEST.json` and `.out` in `$TRACEHOST_ARTIFACTS`, or in the present folder, for `tracehost-debug`. One world of
//! a thread is fuzzed at a time.
//!
//! ```
//! # fn collect(_: &mut tracehost::fuzz::World) {}
//! // in a fuzz_target!, which gives `data`
//! # let data: &[u8] = &[64, 0, 0, 0, 16, 0, 5, 3];
//! let mut world = tracehost::fuzz::World::new(data);
//! let debugger = world.spawn(1001).unwrap().pid;
//! world.debugger = Some(debugger);
//! while world.step() {
//!     collect(&mut world); // the debugger's calls
//! }
//! ```

use crate::artifacts::digest;
use crate::{
    sys, Act, Call, Caller, Disposition, Due, EventMask, Lwp, Mode, Process, Request, Session, Settings, Signal,
};
use crate::{SignalSet, State, View, WaitOptions, Which};
use std::cell::RefCell;
use std::ops::{Deref, DerefMut};
use std::path::PathBuf;
use std::sync::atomic::Ordering;
use std::sync::Once;
use std::{env, fs, io, panic};

/// Bytes of a step: which one, who, whom, and what.
pub const STEP: usize = 4;
/// Whose steps a world makes.
pub const USER: u32 = 1001;
/// The steps of a world, and their lines.
#[derive(Debug, Default)]
struct Log {
    steps: Vec<String>,
    lines: String,
    kills: bool,
    /// Whether a step has no line: the log ends before it.
    is_cut: bool,
}

thread_local! {
    static LOG: RefCell<Option<Log>> = const { RefCell::new(None) };
}

/// A session, and the steps that bytes are.
#[derive(Debug)]
pub struct World<'a> {
    session: Session,
    bytes: &'a [u8],
    /// The process whose steps are its own; without one the world makes all steps, and fuzzes the model.
    pub debugger: Option<u32>,
}

impl<'a> World<'a> {
    /// A world with an unused host.
    ///
    /// # Panics
    ///
    /// If memory runs out.
    pub fn new(bytes: &'a [u8]) -> World<'a> {
        World::with_settings(bytes, Settings::default())
    }

    /// The same with settings.
    ///
    /// # Panics
    ///
    /// If memory runs out.
    pub fn with_settings(bytes: &'a [u8], settings: Settings) -> World<'a> {
        save_at_a_panic();
        let mut session = Session::with_settings(settings).expect("a session");
        session.note_steps();
        let log = Log {
            kills: settings.kill_on_debugger_exit,
            ..Log::default()
        };
        LOG.with(|now| *now.borrow_mut() = Some(log));
        World {
            session,
            bytes,
            debugger: None,
        }
    }

    /// Makes the step that the next bytes are. False at their end.
    pub fn step(&mut self) -> bool {
        let (bytes, rest) = self.bytes.split_at(STEP.min(self.bytes.len()));
        let Ok(bytes) = bytes.try_into() else { return false };
        self.bytes = rest;
        let rows = self.others();
        // an errno or `held` is a reply like others
        let _ = self.make(bytes, &rows);
        true
    }

    /// The rows of all but the debugger.
    fn others(&self) -> View {
        let mut rows = self.session.view(USER).expect("rows");
        rows.processes.retain(|row| Some(row.pid) != self.debugger);
        rows.lwps.retain(|row| Some(row.pid) != self.debugger);
        rows
    }

    fn make(&mut self, bytes: [u8; STEP], rows: &View) -> Result<(), crate::Error> {
        let [which, _, whom, what] = bytes;
        let caller = Caller {
            user: USER,
            pid: process(rows, bytes[1]),
        };
        let signal = Signal::from_number((what % 32).into());
        let target = Which::Process(process(rows, whom));
        match if rows.processes.is_empty() { 8 } else { which / 8 % 16 } {
            8 => self.session.spawn(USER).map(drop),
            9 | 10 => self.session.kill(caller, target, signal),
            11 => self
                .session
                .sigaction(caller, signal.unwrap_or(Signal::SIGTERM), disposition(whom)),
            12 => {
                let which = if whom % 2 == 1 { target } else { Which::Any };
                self.session.wait4(caller, which, options(what)).map(drop)
            }
            13 => self.session.kill(caller, Which::Any, signal),
            14 | 15 => {
                let of_lwp = rows.lwps.get(usize::from(whom) % rows.lwps.len().max(1));
                let target = of_lwp
                    .filter(|_| whom >= 128)
                    .map_or(process(rows, whom), |row| row.lwp);
                self.session.ptrace(caller, request(which, what), target).map(drop)
            }
            _ => {
                let lwp = rows.lwps.get(usize::from(bytes[1]) % rows.lwps.len().max(1));
                let number = lwp.map_or(sys::LAST_PROCESS + 1, |row| row.lwp);
                self.session.turn(USER, number, act(bytes, lwp)).map(drop)
            }
        }
    }
}

impl Deref for World<'_> {
    type Target = Session;

    fn deref(&self) -> &Session {
        &self.session
    }
}

impl DerefMut for World<'_> {
    fn deref_mut(&mut self) -> &mut Session {
        &mut self.session
    }
}

impl Drop for World<'_> {
    fn drop(&mut self) {
        let _ = LOG.try_with(|now| now.borrow_mut().take());
    }
}

// ---- bytes

/// A process; now and then a number that nobody has.
fn process(rows: &View, place: u8) -> u32 {
    let nth = usize::from(place) % (rows.processes.len() + 1);
    rows.processes.get(nth).map_or(sys::LAST_PROCESS, |row| row.pid)
}

/// The LWP leaves the call that it is in, or makes this act.
fn act([which, _, whom, what]: [u8; STEP], lwp: Option<&Lwp>) -> Act {
    if matches!(lwp, Some(row) if matches!(row.mode, Mode::InCall(_))) {
        return Act::Leave;
    }
    match which % 8 {
        0 | 1 => Act::Compute,
        2..=4 => Act::Enter(match whom % 7 {
            0 => Call::Fork,
            1 => Call::Vfork,
            2 => Call::Exec,
            3 => Call::ThrNew,
            4 => Call::ThrExit,
            5 => Call::Exit(what),
            _ => Call::Other(what.into()),
        }),
        5 => Act::Raise(Signal::from_number((what % 32).into()).unwrap_or(Signal::SIGTRAP)),
        6 => Act::Block(SignalSet((u32::from(what) * 0x0101_0101) >> 1)),
        _ => Act::Leave,
    }
}

fn disposition(whom: u8) -> Disposition {
    match whom % 3 {
        0 => Disposition::Default,
        1 => Disposition::Ignore,
        _ => Disposition::Catch,
    }
}

fn options(what: u8) -> WaitOptions {
    WaitOptions(u32::from(what) % 8)
}

fn request(which: u8, what: u8) -> Request {
    let data = u32::from(what) / 20;
    let signal = Signal::from_number(data);
    match what % 20 {
        0 => Request::TraceMe,
        1 | 2 => Request::Continue(signal),
        3 => Request::Kill,
        4 => Request::Step(signal),
        5 | 6 => Request::Attach,
        7 => Request::Detach(signal),
        8 => Request::LwpInfo,
        9 => Request::GetNumLwps,
        10 => Request::GetLwpList(data),
        11 => Request::Suspend,
        12 => Request::Resume,
        13 => Request::ToSce(signal),
        14 => Request::ToScx(signal),
        15 => Request::Syscall(signal),
        16 => Request::FollowFork(data != 0),
        17 => Request::LwpEvents(data != 0),
        18 => Request::GetEventMask,
        _ => Request::SetEventMask(EventMask(u32::from(which) % 64)),
    }
}

// ---- what is noted

/// Notes the session's last step, and tells the fuzzer what the user sees now.
pub(crate) fn note(session: &Session) {
    let (Ok(step), Ok(line), Ok(rows)) = (session.last_step(), session.last_line(), session.view(USER)) else {
        return;
    };
    let _ = LOG.try_with(|now| {
        if let Some(log) = now.borrow_mut().as_mut().filter(|log| !log.is_cut) {
            match step {
                Some(step) => {
                    log.steps.push(step);
                    log.lines.push_str(&line);
                    log.lines.push('\n');
                }
                None => log.is_cut = true,
            }
        }
    });
    tell(&rows);
}

/// The fuzzer is told each shape of an LWP in each of its process, and each two shapes of processes at once. Numbers, signals and
/// masks are no part of a shape: else each number is new, and the fuzzer keeps thousands of inputs.
fn tell(rows: &View) {
    let mut there: Vec<u8> = Vec::new();
    for process in &rows.processes {
        let shape = shape_of(process);
        let mut kind = 0;
        for lwp in rows.lwps.iter().filter(|lwp| lwp.pid == process.pid) {
            let (mode, call, due) = parts(lwp);
            let flags = u8::from(lwp.suspended) * 2 + u8::from(lwp.stepping);
            tell_shapes(&[1, shape, mode, call, due, flags]);
            let own = if mode == 2 {
                3
            } else if due != 0 {
                2
            } else {
                u8::from(lwp.suspended)
            };
            kind = kind.max(own);
        }
        there.push(shape * 4 + kind);
    }
    there.sort_unstable();
    there.dedup();
    for (nth, one) in there.iter().enumerate() {
        for other in &there[nth + 1..] {
            tell_shapes(&[2, *one, *other]);
        }
    }
}

fn shape_of(process: &Process) -> u8 {
    let (state, told) = match process.state {
        State::Running => (0, false),
        State::TraceStop { told, .. } => (1, told),
        State::JobStop { told, .. } => (2, told),
        State::Zombie(_) => (3, false),
    };
    state * 4 + u8::from(told) * 2 + u8::from(process.tracer.is_some())
}

/// The mode, the call, and the stop that is due.
fn parts(lwp: &Lwp) -> (u8, u8, u8) {
    let (mode, call) = match lwp.mode {
        Mode::User => (0, 7),
        Mode::InCall(call) => (1, u8::try_from(Act::Enter(call).numbers().1).unwrap_or(7)),
        Mode::Vfork { .. } => (2, 7),
    };
    let due = match lwp.due {
        None => 0,
        Some(Due::Born) => 1,
        Some(Due::Begun) => 2,
        Some(Due::VforkDone) => 3,
    };
    (mode, call, due)
}

fn tell_shapes(shapes: &[u8]) {
    let place = digest(&[shapes]) % sys::SEEN.len() as u64;
    sys::SEEN[usize::try_from(place).unwrap_or(0)].store(1, Ordering::Relaxed);
}

// ---- a find

/// From now on a panic of a thread saves the session that it fuzzes, before the hook that ends a fuzzer.
fn save_at_a_panic() {
    static ONCE: Once = Once::new();
    ONCE.call_once(|| {
        let before = panic::take_hook();
        panic::set_hook(Box::new(move |info| {
            let log = LOG.try_with(|now| now.try_borrow_mut().ok().and_then(|mut log| log.take()));
            if let Some(log) = log.ok().flatten() {
                match log.save() {
                    Ok(scenario) => {
                        let (lines, path) = (scenario.with_extension("out"), scenario.display());
                        eprintln!("tracehost: scenario: {path}\ntracehost: lines:    {}", lines.display());
                        eprintln!("tracehost: to go on from here: tracehost-debug {path}");
                    }
                    Err(error) => eprintln!("tracehost: the find can't be saved: {error}"),
                }
            }
            before(info);
        }));
    });
}

impl Log {
    /// Writes both files under other names first, so that none is half of a file. Returns the scenario's name.
    fn save(&self) -> io::Result<PathBuf> {
        let folder = env::var_os("TRACEHOST_ARTIFACTS").filter(|name| !name.is_empty());
        let folder = folder.map_or_else(|| PathBuf::from("."), PathBuf::from);
        let program = env::current_exe().ok();
        let program = program
            .as_deref()
            .and_then(|path| path.file_name()?.to_str())
            .unwrap_or("fuzzer");
        let steps = self.steps.join(",\n");
        let path = folder.join(format!("{program}.find-{:012x}.json", digest(&[steps.as_bytes()])));
        let kills = u8::from(self.kills);
        let scenario = format!("{{\"kill_on_debugger_exit\":{kills},\"steps\":[\n{steps}\n]}}\n");
        for (path, text) in [(path.clone(), &scenario), (path.with_extension("out"), &self.lines)] {
            let new = path.with_extension("new");
            if let Err(error) = fs::write(&new, text).and_then(|()| fs::rename(&new, &path)) {
                let _ = fs::remove_file(&new);
                return Err(io::Error::new(error.kind(), format!("{}: {error}", path.display())));
            }
        }
        if self.is_cut {
            eprintln!("tracehost: the record ends early: a step has no line");
        }
        Ok(path)
    }
}

#[cfg(test)]
mod tests {
    use super::{sys, Ordering, World, LOG, STEP, USER};

    fn steps() -> Vec<String> {
        LOG.with(|log| log.borrow().as_ref().map_or(Vec::new(), |log| log.steps.clone()))
    }

    #[test]
    fn bytes_are_steps_of_all_but_the_debugger() {
        let bytes: Vec<u8> = (0..=255)
            .flat_map(|which: u8| [which, which.wrapping_mul(7), which / 3, 77])
            .collect();
        let mut world = World::new(&bytes);
        let debugger = world.spawn(USER).unwrap().pid;
        world.spawn(USER).unwrap();
        world.debugger = Some(debugger);
        let mut made = 0;
        while world.step() {
            made += 1;
        }
        let noted = steps();
        assert_eq!((made, noted.len()), (bytes.len() / STEP, made + 2));
        assert!(
            !noted
                .iter()
                .any(|step| step.contains(&format!("\"caller\":{debugger},"))),
            "{noted:?}"
        );
        assert!(
            sys::SEEN
                .iter()
                .filter(|seen| seen.load(Ordering::Relaxed) != 0)
                .count()
                > 10
        );
        drop(world);
        assert!(steps().is_empty());
    }

    #[test]
    fn a_step_that_is_cut_off_is_none() {
        let mut world = World::new(&[64, 0, 0]);
        assert!(!world.step());
    }
}
