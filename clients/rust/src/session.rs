//! A session, and its calls.

mod lines;

use crate::artifacts::tell_lost;
use crate::fuzz;
use crate::record::{self, Recording};
use crate::replies::{checked, new, reply};
use crate::view::{Lwp, Process, View};
use crate::{
    sys, Act, Caller, Decision, Disposition, Error, Handled, New, Reply, Request, Rule, Signal, WaitOptions, Which,
};
use std::io;
use std::path::Path;

/// The settings of a session.
#[derive(Clone, Copy, Debug, PartialEq, Eq, Hash)]
pub struct Settings {
    /// The sysctl kern.kill_on_debugger_exit: whether the end of a debugger kills the processes that it traces.
    pub kill_on_debugger_exit: bool,
}

impl Default for Settings {
    fn default() -> Settings {
        Settings {
            kill_on_debugger_exit: true,
        }
    }
}

/// A host of its own, which the users 1001 to 1064 share.
///
/// Each call makes one step of its user, and no call blocks. A session may move to another thread; calls are made one
/// at a time, so that it can't be shared:
///
/// ```compile_fail,E0277
/// let mut session = tracehost::Session::new().unwrap();
/// std::thread::scope(|scope| {
///     let shared = &session;
///     scope.spawn(move || shared.last_line());
/// });
/// ```
#[derive(Debug)]
pub struct Session {
    handle: sys::Handle,
    settings: Settings,
    recording: Option<Recording>,
    record_error: Option<io::Error>,
    /// Whether the session goes on if a step can't be recorded.
    is_test: bool,
    /// Steps in the recording, also once it has ended.
    recorded: usize,
    /// Whether the last step was answered by an errno or `held`.
    is_refused: bool,
    /// Whether a fuzzer is told of each step.
    is_noted: bool,
}

impl Session {
    /// Opens a session. The end of a debugger kills the processes that it traces.
    pub fn new() -> Result<Session, Error> {
        Session::with_settings(Settings::default())
    }

    /// Opens a session with these settings. [`Error::NoMemory`] if memory runs out.
    pub fn with_settings(settings: Settings) -> Result<Session, Error> {
        if sys::version() != env!("CARGO_PKG_VERSION") {
            return Err(Error::OtherLibrary);
        }
        match sys::Handle::open(settings.kill_on_debugger_exit) {
            Ok(handle) => Ok(Session::of(handle, settings)),
            Err(code) => Err(Error::of_code(code)),
        }
    }

    fn of(handle: sys::Handle, settings: Settings) -> Session {
        Session {
            handle,
            settings,
            recording: None,
            record_error: None,
            is_test: false,
            recorded: 0,
            is_refused: false,
            is_noted: false,
        }
    }

    /// Keeps the steps of the session in the file `scenario`, and the lines of their answers in the file `lines`.
    ///
    /// The scenario is whole after each step: `tracehost scenario --expect lines` passes. A line that is refused, a step
    /// that is answered ENOMEM and the steps of a forked child aren't recorded. If a step can't be written, its call
    /// returns [`Error::RecordingFailed`] though it was made, both files are as before, and the session has ended.
    ///
    /// # Errors
    ///
    /// The error of a file that can't be made, which names the file; `AlreadyExists` if the session has made a step, or is
    /// recorded.
    ///
    /// ```
    /// # fn main() -> Result<(), Box<dyn std::error::Error>> {
    /// # let folder = std::env::temp_dir();
    /// let (scenario, lines) = (folder.join("spawned.json"), folder.join("spawned.out"));
    /// let mut session = tracehost::Session::new()?;
    /// session.record(&scenario, Some(lines.as_path()))?;
    /// session.spawn(1001)?;
    /// assert_eq!(std::fs::read_to_string(&lines)?, "1001 1 new 1000 100000\n");
    /// # Ok(())
    /// # }
    /// ```
    pub fn record(&mut self, scenario: impl AsRef<Path>, lines: Option<&Path>) -> io::Result<()> {
        let is_new = self.last_line().is_ok_and(|line| line.is_empty());
        if !is_new || self.recording.is_some() {
            return Err(record::too_late());
        }
        let kills = self.settings.kill_on_debugger_exit;
        self.recording = Some(Recording::create(scenario.as_ref(), lines, kills)?);
        Ok(())
    }

    /// Records a test. A step that can't be written is told, and the session goes on without a recording.
    pub(crate) fn record_test(&mut self, recording: Recording) {
        self.recording = Some(recording);
        self.is_test = true;
    }

    /// From now on a fuzzer is told of each step.
    pub(crate) fn note_steps(&mut self) {
        self.is_noted = true;
    }

    pub(crate) fn recorded_steps(&self) -> usize {
        self.recorded
    }

    pub(crate) fn is_refused(&self) -> bool {
        self.is_refused
    }

    /// Why a step couldn't be recorded, if a call returned [`Error::RecordingFailed`].
    pub fn record_error(&self) -> Option<&io::Error> {
        self.record_error.as_ref()
    }

    /// Adds the last step to the recording, and tells a fuzzer of it, if they are there.
    fn recorded(&mut self) -> Result<(), Error> {
        if self.is_noted {
            fuzz::note(self);
        }
        let Some(mut recording) = self.recording.take() else {
            return Ok(());
        };
        let added = match self.last_step()? {
            Some(step) => self.last_line().map(|line| recording.add(&step, &line))?,
            None => Ok(()),
        };
        match added {
            Ok(()) => {
                self.recorded = recording.steps();
                self.recording = Some(recording);
                Ok(())
            }
            Err(error) if self.is_test => {
                let since = format!(" from step {} on", recording.steps() + 1);
                tell_lost(recording.path().display(), &since, &error);
                self.record_error = Some(error);
                Ok(())
            }
            Err(error) => {
                self.record_error = Some(error);
                self.handle.close();
                Err(Error::RecordingFailed)
            }
        }
    }

    /// The reply of a call, once its step is recorded.
    fn made(&mut self, code: u32, raw: sys::Reply) -> Result<sys::Reply, Error> {
        if code == sys::ANSWERED {
            self.recorded()?;
        }
        let reply = checked(code, raw);
        self.is_refused = reply.is_err();
        reply
    }

    /// Copies the session at its present state. Both then go their own ways. The copy isn't recorded.
    ///
    /// ```
    /// # fn main() -> Result<(), tracehost::Error> {
    /// use tracehost::{Caller, Session};
    ///
    /// let mut session = Session::new()?;
    /// let first = session.spawn(1001)?;
    /// let mut copy = session.try_clone()?;
    /// copy.spawn(1001)?;
    /// let caller = Caller { user: 1001, pid: first.pid };
    /// assert_eq!(session.list(caller)?, [1000]);
    /// assert_eq!(copy.list(caller)?, [1000, 1001]);
    /// # Ok(())
    /// # }
    /// ```
    pub fn try_clone(&self) -> Result<Session, Error> {
        match self.handle.copy() {
            Ok(handle) => Ok(Session::of(handle, self.settings)),
            Err(code) => Err(Error::of_code(code)),
        }
    }

    /// Copies the session over another, whose session and recording end. From the first such copy on, this session keeps the
    /// memory of two. The copy isn't recorded. After an error the other session is as it was.
    ///
    /// ```
    /// # fn main() -> Result<(), tracehost::Error> {
    /// let mut session = tracehost::Session::new()?;
    /// let mut scratch = tracehost::Session::new()?;
    /// session.spawn(1001)?;
    /// session.copy_over(&mut scratch)?;
    /// assert_eq!(scratch.spawn(1001)?.pid, 1001);
    /// # Ok(())
    /// # }
    /// ```
    pub fn copy_over(&self, to: &mut Session) -> Result<(), Error> {
        match self.handle.copy_over(&mut to.handle) {
            sys::ANSWERED => {
                to.settings = self.settings;
                to.end_recording();
                Ok(())
            }
            code => Err(Error::of_code(code)),
        }
    }

    /// Copies what one user has over what the user has in another session: the processes, and the number of answers. All
    /// other users of that session keep theirs, its recording ends, and no answer is its last one. It takes the time and the
    /// memory of only this user's processes.
    ///
    /// # Errors
    ///
    /// `Invalid` if there is no such user, or if the end of a debugger kills its tracees in one of the sessions and not in the
    /// other, and `NoMemory`. The other session is as it was.
    ///
    /// ```
    /// # fn main() -> Result<(), tracehost::Error> {
    /// let mut session = tracehost::Session::new()?;
    /// let mut scratch = tracehost::Session::new()?;
    /// session.spawn(1001)?;
    /// scratch.spawn(1002)?;
    /// session.copy_user(&mut scratch, 1001)?;
    /// assert_eq!(scratch.spawn(1001)?.pid, 1001);
    /// assert_eq!(scratch.spawn(1002)?.pid, 2001);
    /// # Ok(())
    /// # }
    /// ```
    pub fn copy_user(&self, to: &mut Session, user: u32) -> Result<(), Error> {
        match self.handle.copy_user(&mut to.handle, user) {
            sys::ANSWERED => {
                to.end_recording();
                Ok(())
            }
            code => Err(Error::of_code(code)),
        }
    }

    fn end_recording(&mut self) {
        (self.recording, self.record_error, self.is_test, self.recorded) = (None, None, false, 0);
    }

    /// Makes a process of the user with one LWP. Its parent is process 1.
    pub fn spawn(&mut self, user: u32) -> Result<New, Error> {
        let (code, raw) = self.handle.spawn(user);
        Ok(new(&self.made(code, raw)?))
    }

    /// Lists the user's processes, zombies too, by rising number.
    pub fn list(&mut self, caller: Caller) -> Result<Vec<u32>, Error> {
        let (code, raw) = self.handle.list(caller.user, caller.pid);
        let raw = self.made(code, raw)?;
        Ok(self.numbers(&raw))
    }

    /// sigaction(2): sets what the caller does with a signal.
    pub fn sigaction(&mut self, caller: Caller, signal: Signal, disposition: Disposition) -> Result<(), Error> {
        let (signal, disposition) = (signal.number(), disposition.number());
        let (code, raw) = self.handle.sigaction(caller.user, caller.pid, signal, disposition);
        self.made(code, raw).map(drop)
    }

    /// kill(2): posts a signal, or only looks for the processes.
    pub fn kill(&mut self, caller: Caller, which: Which, signal: Option<Signal>) -> Result<(), Error> {
        let signal = signal.map_or(0, Signal::number);
        let (code, raw) = self.handle.kill(caller.user, caller.pid, which.number(), signal);
        self.made(code, raw).map(drop)
    }

    /// wait4(2), as with WNOHANG: [`Reply::Status`], or [`Reply::Nothing`].
    pub fn wait4(&mut self, caller: Caller, which: Which, options: WaitOptions) -> Result<Reply, Error> {
        let (code, raw) = self.handle.wait4(caller.user, caller.pid, which.number(), options.0);
        self.reply(code, raw)
    }

    /// Adds a stop handler with these rules, at most 16, after the caller's others.
    pub fn install(&mut self, caller: Caller, rules: &[Rule]) -> Result<(), Error> {
        let mut raws = [sys::Rule::default(); sys::MAX_RULES];
        let raws = raws.get_mut(..rules.len()).ok_or(Error::TooManyRules)?;
        for (raw, rule) in raws.iter_mut().zip(rules) {
            *raw = rule.raw();
        }
        let (code, raw) = self.handle.install(caller.user, caller.pid, raws);
        self.made(code, raw).map(drop)
    }

    /// Waits for any child, and gives a trace stop to the caller's handlers: [`Reply::Handled`], [`Reply::Status`], or
    /// [`Reply::Nothing`].
    pub fn handle(&mut self, caller: Caller) -> Result<Reply, Error> {
        let (code, raw) = self.handle.handle(caller.user, caller.pid);
        self.reply(code, raw)
    }

    /// As [`handle`](Session::handle). If the caller's rules leave or decline the stop, a closure decides.
    ///
    /// The closure gets the stop, with the system call's number in `code`. Then the request is made, which is a step of
    /// its own, and its error is returned. The reply has the closure's decision, and no handler.
    ///
    /// ```no_run
    /// # fn main() -> Result<(), tracehost::Error> {
    /// use tracehost::{Caller, Decision, Session};
    ///
    /// const EXECVE: u32 = 59;
    /// let mut session = Session::new()?;
    /// let sandbox = Caller { user: 1001, pid: session.spawn(1001)?.pid };
    /// session.handle_with(sandbox, |stop| match stop.code {
    ///     EXECVE => Decision::Kill,
    ///     _ => Decision::Continue(None),
    /// })?;
    /// # Ok(())
    /// # }
    /// ```
    pub fn handle_with(&mut self, caller: Caller, decide: impl FnOnce(&Handled) -> Decision) -> Result<Reply, Error> {
        let mut stop = match self.handle(caller)? {
            Reply::Handled(stop) if matches!(stop.decision, Decision::Leave | Decision::Decline) => stop,
            reply => return Ok(reply),
        };
        stop.decision = decide(&stop);
        stop.handler = None;
        let request = match stop.decision {
            Decision::Decline | Decision::Leave => return Ok(Reply::Handled(stop)),
            Decision::Continue(signal) => Request::Continue(signal),
            Decision::Detach(signal) => Request::Detach(signal),
            Decision::Kill => Request::Kill,
        };
        self.ptrace(caller, request, stop.pid)?;
        Ok(Reply::Handled(stop))
    }

    /// ptrace(2). A target up to 99999 is a process, a greater one an LWP. [`Reply::Done`], or what [`Request`] names.
    pub fn ptrace(&mut self, caller: Caller, request: Request, target: u32) -> Result<Reply, Error> {
        let (request, data) = request.numbers();
        let (code, raw) = self.handle.ptrace(caller.user, caller.pid, request, target, data);
        self.reply(code, raw)
    }

    /// Gives an LWP its turn: [`Reply::Done`], [`Reply::New`], [`Reply::Stopped`], [`Reply::Caught`] or
    /// [`Reply::Ended`].
    pub fn turn(&mut self, user: u32, lwp: u32, act: Act) -> Result<Reply, Error> {
        let (act, call, argument) = act.numbers();
        let (code, raw) = self.handle.turn(user, lwp, act, call, argument);
        self.reply(code, raw)
    }

    /// The user's processes and LWPs at this moment. It makes no step.
    ///
    /// ```no_run
    /// # fn main() -> Result<(), tracehost::Error> {
    /// use tracehost::{Session, State};
    ///
    /// let mut session = Session::new()?;
    /// let new = session.spawn(1001)?;
    /// let view = session.view(1001)?;
    /// assert_eq!(view.process(new.pid).map(|process| process.state), Some(State::Running));
    /// assert_eq!(view.lwps.len(), 1);
    /// # Ok(())
    /// # }
    /// ```
    pub fn view(&self, user: u32) -> Result<View, Error> {
        let (processes, lwps) = self.rows(user)?;
        Ok(View {
            processes: processes.iter().map(Process::from).collect(),
            lwps: lwps.iter().map(Lwp::from).collect(),
        })
    }

    /// Stores all that a user sees as numbers: more than [`view`](Session::view), which lacks dispositions, handlers and the
    /// next numbers of processes and LWPs. Sessions with the same numbers answer the user's next step alike, and have the
    /// same numbers again, which is proved. It makes no step. The room's capacity is used again.
    ///
    /// ```
    /// # fn main() -> Result<(), tracehost::Error> {
    /// use tracehost::{Caller, Disposition, Session, Signal};
    ///
    /// let mut session = Session::new()?;
    /// let caller = Caller { user: 1001, pid: session.spawn(1001)?.pid };
    /// let (mut before, mut after) = (Vec::new(), Vec::new());
    /// session.state(1001, &mut before)?;
    /// session.sigaction(caller, Signal::SIGTERM, Disposition::Ignore)?;
    /// session.state(1001, &mut after)?;
    /// assert_ne!(before, after);
    /// # Ok(())
    /// # }
    /// ```
    pub fn state(&self, user: u32, numbers: &mut Vec<u32>) -> Result<(), Error> {
        numbers.resize(numbers.capacity(), 0);
        loop {
            let (code, length) = self.handle.state(user, numbers);
            if code != sys::ANSWERED {
                return Err(Error::of_code(code));
            }
            let fits = length <= numbers.len();
            numbers.resize(length, 0);
            if fits {
                return Ok(());
            }
        }
    }

    fn rows(&self, user: u32) -> Result<(Vec<sys::Process>, Vec<sys::Lwp>), Error> {
        let (mut processes, mut lwps) = (Vec::new(), Vec::new());
        loop {
            let (code, [processes_length, lwps_length]) = self.handle.view(user, &mut processes, &mut lwps);
            if code != sys::ANSWERED {
                return Err(Error::of_code(code));
            }
            if processes.len() == processes_length && lwps.len() == lwps_length {
                return Ok((processes, lwps));
            }
            processes.resize(processes_length, sys::Process::default());
            lwps.resize(lwps_length, sys::Lwp::default());
        }
    }

    fn reply(&mut self, code: u32, raw: sys::Reply) -> Result<Reply, Error> {
        let raw = self.made(code, raw)?;
        Ok(reply(&raw, || self.numbers(&raw)))
    }

    /// The numbers of the last answer.
    fn numbers(&self, raw: &sys::Reply) -> Vec<u32> {
        let mut numbers = vec![0; raw.count as usize];
        let (code, length) = self.handle.numbers(&mut numbers);
        assert!(
            code == sys::ANSWERED && length == numbers.len(),
            "the numbers of the last answer"
        );
        numbers
    }
}
