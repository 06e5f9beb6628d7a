//! Why a step was answered by an errno, or held: the first of its call's conditions that holds.
//!
//! `tools/format` writes the tables from format/refusals.toml. Numbers are those of `tracehost.h`; what a call hasn't is 0.

use crate::{sys, Signal};

/// A step that was made, by its line: a JSON object without spaces.
struct Asked<'a> {
    line: &'a str,
    caller: i64,
    target: i64,
    which: i64,
    lwp: i64,
    signal: i64,
    data: i64,
    request: i64,
    act: i64,
    action: i64,
    /// A line has names of events.
    unnamed: i64,
}

impl<'a> Asked<'a> {
    fn of(line: &'a str) -> Asked<'a> {
        let (number, text) = (|key| number(line, key), |key| text(line, key));
        let op = text("op");
        let data = number("data");
        Asked {
            line,
            caller: number("caller"),
            target: number("target"),
            which: if op == "handle" { -1 } else { number("which") },
            lwp: number("lwp"),
            signal: if op == "ptrace" { data } else { number("signal") },
            data,
            request: if op == "ptrace" { request(text("request")) } else { -1 },
            act: place(text("act"), &["compute", "raise", "block", "enter", "leave"]),
            action: place(text("action"), &["default", "ignore", "catch"]),
            unnamed: 0,
        }
    }

    /// An argument, as a person writes it.
    fn word(&self, name: &str) -> String {
        let text = |key| text(self.line, key);
        match name {
            "signal" => signal_name(self.signal),
            "data" if self.data == 0 || !DATA_REQUESTS.contains(&self.request) => String::new(),
            "data" if SIGNAL_REQUESTS.contains(&self.request) => format!(", {}", signal_name(self.data)),
            "data" => format!(", {}", self.data),
            "act" if text("act") == "raise" => format!("raise {}", signal_name(self.signal)),
            "act" if text("act") == "enter" => format!("enter {}", text("call")),
            "act" | "action" | "request" => text(name).to_owned(),
            "rules" => match self.line.matches("\"decision\"").count() {
                1 => "1 rule".to_owned(),
                count => format!("{count} rules"),
            },
            _ => number(self.line, name).to_string(),
        }
    }
}

/// What follows a key.
fn value<'a>(line: &'a str, key: &str) -> Option<&'a str> {
    line.split_once(&format!("\"{key}\":")).map(|(_, rest)| rest)
}

fn number(line: &str, key: &str) -> i64 {
    let end = |rest: &str| rest.find([',', '}']).unwrap_or(rest.len());
    value(line, key)
        .and_then(|rest| rest[..end(rest)].parse().ok())
        .unwrap_or(0)
}

fn text<'a>(line: &'a str, key: &str) -> &'a str {
    value(line, key)
        .and_then(|rest| rest.strip_prefix('"')?.split('"').next())
        .unwrap_or("")
}

fn place(name: &str, names: &[&str]) -> i64 {
    names.iter().position(|known| *known == name).unwrap_or(0) as i64
}

/// A number that is no signal as it was given: -1 is sent as 4294967295.
fn signal_name(number: i64) -> String {
    match u32::try_from(number).ok().and_then(Signal::from_number) {
        Some(signal) => signal.name().to_owned(),
        None => (number as i32).to_string(),
    }
}

fn request(name: &str) -> i64 {
    match name {
        // tools/format requests
        "PT_TRACE_ME" => 0,
        "PT_ATTACH" => 10,
        "PT_CONTINUE" => 7,
        "PT_STEP" => 9,
        "PT_TO_SCE" => 20,
        "PT_TO_SCX" => 21,
        "PT_SYSCALL" => 22,
        "PT_DETACH" => 11,
        "PT_KILL" => 8,
        "PT_SUSPEND" => 18,
        "PT_RESUME" => 19,
        "PT_SET_EVENT_MASK" => 26,
        "PT_GET_EVENT_MASK" => 25,
        "PT_FOLLOW_FORK" => 23,
        "PT_LWP_EVENTS" => 24,
        "PT_LWPINFO" => 13,
        "PT_GETNUMLWPS" => 14,
        "PT_GETLWPLIST" => 15,
        // end
        _ => -1,
    }
}

/// A user's rows. What is asked of a process or an LWP that isn't there is 0 or false.
pub struct Rows {
    pub processes: Vec<sys::Process>,
    pub lwps: Vec<sys::Lwp>,
}

const ZOMBIE: u32 = 3;
const IN_CALL: u32 = 1;

impl Rows {
    fn process(&self, pid: i64) -> sys::Process {
        let found = self.processes.iter().find(|row| i64::from(row.pid) == pid);
        found.copied().unwrap_or_default()
    }

    fn lwp(&self, lwp: i64) -> sys::Lwp {
        let found = self.lwps.iter().find(|row| i64::from(row.lwp) == lwp);
        found.copied().unwrap_or_default()
    }

    fn processes(&self) -> usize {
        self.processes.len()
    }

    fn lwps(&self) -> usize {
        self.lwps.len()
    }

    /// The process that a target of ptrace(2) names, by its number or an LWP's.
    fn process_of(&self, number: i64) -> i64 {
        if number <= i64::from(sys::LAST_PROCESS) {
            self.process(number).pid.into()
        } else {
            self.owner(number)
        }
    }

    fn state(&self, pid: i64) -> u32 {
        self.process(pid).state
    }

    fn parent(&self, pid: i64) -> i64 {
        self.process(pid).parent.into()
    }

    fn tracer(&self, pid: i64) -> i64 {
        self.process(pid).tracer.into()
    }

    fn was_told(&self, pid: i64) -> bool {
        self.process(pid).told != 0
    }

    fn is_live(&self, pid: i64) -> bool {
        let process = self.process(pid);
        process.pid != 0 && process.state != ZOMBIE
    }

    /// Directly or through others.
    fn traces(&self, by: i64, mut pid: i64) -> bool {
        for _ in 0..self.processes() {
            pid = self.tracer(pid);
            if pid == 0 || pid == by {
                break;
            }
        }
        pid != 0 && pid == by
    }

    /// Has a child, or traces a process, that `which` names.
    fn has_child(&self, caller: i64, which: i64) -> bool {
        let is_child = |row: &sys::Process| i64::from(row.parent) == caller || i64::from(row.tracer) == caller;
        let is_named = |row: &sys::Process| which == -1 || i64::from(row.pid) == which;
        self.processes.iter().any(|row| is_named(row) && is_child(row))
    }

    fn owner(&self, lwp: i64) -> i64 {
        self.lwp(lwp).pid.into()
    }

    fn mode(&self, lwp: i64) -> u32 {
        self.lwp(lwp).mode
    }

    /// The call that it is in; -1 for none.
    fn call_of(&self, lwp: i64) -> i64 {
        let row = self.lwp(lwp);
        if row.mode == IN_CALL {
            row.call.into()
        } else {
            -1
        }
    }

    fn is_suspended(&self, lwp: i64) -> bool {
        self.lwp(lwp).suspended != 0
    }
}

/// A condition, and what is answered if it is the first that holds.
struct Condition {
    answer: &'static str,
    words: &'static str,
    /// What the arguments say of it.
    possible: fn(&Asked) -> bool,
    holds: fn(&Asked, &Rows) -> bool,
}

/// A call, and its conditions in order.
struct Call {
    op: &'static str,
    /// -1 for any.
    request: i64,
    text: &'static str,
    order: &'static [&'static Condition],
}

#[rustfmt::skip]
#[allow(clippy::manual_range_contains, clippy::nonminimal_bool)]
mod tables {
    use super::{Call, Condition};

    // tools/format sets
pub const SIGNAL_REQUESTS: &[i64] = &[7, 9, 20, 21, 22, 11];
pub const DATA_REQUESTS: &[i64] = &[7, 9, 20, 21, 22, 11, 23, 24, 15];
    // end

    // tools/format conditions
static CALLER_GONE: Condition = Condition {
    answer: "ESRCH", words: "{caller} isn't a live process of user {user}",
    possible: |_| true, holds: |a, r| !r.is_live(a.caller),
};
static CALLER_IN_TRACE_STOP: Condition = Condition {
    answer: "held", words: "{caller} is in a trace stop",
    possible: |_| true, holds: |a, r| r.state(a.caller) == 1,
};
static CALLER_IN_JOB_STOP: Condition = Condition {
    answer: "held", words: "a stop signal has stopped {caller}",
    possible: |_| true, holds: |a, r| r.state(a.caller) == 2,
};
static NO_NUMBER_OF_LWP: Condition = Condition {
    answer: "ESRCH", words: "{lwp} is no LWP, whose numbers begin at 100000",
    possible: |a| a.lwp <= 99999, holds: |_, _| true,
};
static LWP_GONE: Condition = Condition {
    answer: "ESRCH", words: "user {user} has no LWP {lwp}",
    possible: |a| a.lwp > 99999, holds: |a, r| r.owner(a.lwp) == 0,
};
static LWP_IN_TRACE_STOP: Condition = Condition {
    answer: "held", words: "the process of LWP {lwp} is in a trace stop",
    possible: |_| true, holds: |a, r| r.state(r.owner(a.lwp)) == 1,
};
static LWP_IN_JOB_STOP: Condition = Condition {
    answer: "held", words: "a stop signal has stopped the process of LWP {lwp}",
    possible: |_| true, holds: |a, r| r.state(r.owner(a.lwp)) == 2,
};
static LWP_SUSPENDED: Condition = Condition {
    answer: "held", words: "PT_SUSPEND holds LWP {lwp}",
    possible: |_| true, holds: |a, r| r.is_suspended(a.lwp),
};
static LWP_WAITS: Condition = Condition {
    answer: "held", words: "LWP {lwp} waits for the child of its vfork",
    possible: |_| true, holds: |a, r| r.mode(a.lwp) == 2,
};
static NO_GROUPS: Condition = Condition {
    answer: "EINVAL", words: "which is {which}, and there are no process groups",
    possible: |a| a.which == 0 || a.which < -1, holds: |_, _| true,
};
static NO_CHILD: Condition = Condition {
    answer: "ECHILD", words: "{caller} has no child and traces no process",
    possible: |a| a.which == -1, holds: |a, r| !r.has_child(a.caller, -1),
};
static NO_CHILD_OF_NUMBER: Condition = Condition {
    answer: "ECHILD", words: "{which} is neither a child of {caller} nor traced by it",
    possible: |a| a.which != -1, holds: |a, r| !r.has_child(a.caller, a.which),
};
static NO_SIGNAL_TO_POST: Condition = Condition {
    answer: "EINVAL", words: "{signal} is no signal",
    possible: |a| !(0 <= a.signal && a.signal <= 31), holds: |_, _| true,
};
static NO_OTHER_PROCESS: Condition = Condition {
    answer: "ESRCH", words: "user {user} has no process except {caller}",
    possible: |a| a.which == -1, holds: |_, r| r.processes() == 1,
};
static PROCESS_GONE: Condition = Condition {
    answer: "ESRCH", words: "user {user} has no process {which}",
    possible: |a| a.which != -1, holds: |a, r| a.which > 99999 || r.process_of(a.which) == 0,
};
static NO_SIGNAL: Condition = Condition {
    answer: "EINVAL", words: "{signal} is no signal",
    possible: |a| !(1 <= a.signal && a.signal <= 31), holds: |_, _| true,
};
static FIXED_SIGNAL: Condition = Condition {
    answer: "EINVAL", words: "{signal} can be neither caught nor ignored",
    possible: |a| (a.signal == 9 || a.signal == 17) && a.action != 0, holds: |_, _| true,
};
static MOST_HANDLERS: Condition = Condition {
    answer: "EAGAIN", words: "user {user} has 64 stop handlers",
    possible: |_| true, holds: |_, _| true,
};
static IN_NO_CALL: Condition = Condition {
    answer: "EINVAL", words: "LWP {lwp} is in no system call",
    possible: |a| a.act == 4, holds: |a, r| r.mode(a.lwp) != 1,
};
static IN_A_CALL: Condition = Condition {
    answer: "EINVAL", words: "LWP {lwp} is in a system call, which it has to leave first",
    possible: |a| a.act != 4, holds: |a, r| r.mode(a.lwp) == 1,
};
static NO_SIGNAL_TO_RAISE: Condition = Condition {
    answer: "EINVAL", words: "{signal} is no signal",
    possible: |a| a.act == 1 && !(1 <= a.signal && a.signal <= 31), holds: |_, _| true,
};
static MOST_PROCESSES: Condition = Condition {
    answer: "EAGAIN", words: "user {user} has 250 processes",
    possible: |a| a.lwp == 0 || a.act == 4, holds: |a, r| r.processes() >= 250 && (a.lwp == 0 || r.call_of(a.lwp) == 0 || r.call_of(a.lwp) == 1),
};
static MOST_LWPS: Condition = Condition {
    answer: "EAGAIN", words: "user {user} has 1000 LWPs",
    possible: |a| a.lwp == 0 || a.act == 4, holds: |a, r| r.lwps() >= 1000 && (a.lwp == 0 || r.call_of(a.lwp) == 0 || r.call_of(a.lwp) == 1 || r.call_of(a.lwp) == 3),
};
static NO_MEMORY: Condition = Condition {
    answer: "ENOMEM", words: "no memory is left",
    possible: |_| true, holds: |_, _| true,
};
static CALLER_TRACED: Condition = Condition {
    answer: "EBUSY", words: "{caller} is traced already",
    possible: |_| true, holds: |a, r| r.tracer(a.caller) != 0,
};
static PARENT_IS_1: Condition = Condition {
    answer: "EPERM", words: "the parent of {caller} is process 1",
    possible: |_| true, holds: |a, r| r.parent(a.caller) == 1,
};
static TRACES_ITS_PARENT: Condition = Condition {
    answer: "EINVAL", words: "{caller} traces its parent, directly or through others",
    possible: |_| true, holds: |a, r| r.traces(a.caller, r.parent(a.caller)),
};
static TARGET_IS_0: Condition = Condition {
    answer: "ESRCH", words: "the target is 0, which is no process",
    possible: |a| a.target == 0, holds: |_, _| true,
};
static TARGET_PROCESS_GONE: Condition = Condition {
    answer: "ESRCH", words: "user {user} has no process {target}",
    possible: |a| a.target != 0 && a.target <= 99999, holds: |a, r| r.process_of(a.target) == 0,
};
static TARGET_LWP_GONE: Condition = Condition {
    answer: "ESRCH", words: "user {user} has no LWP {target}",
    possible: |a| a.target > 99999, holds: |a, r| r.process_of(a.target) == 0,
};
static TARGET_ENDED: Condition = Condition {
    answer: "ESRCH", words: "{target} has ended",
    possible: |_| true, holds: |a, r| r.state(r.process_of(a.target)) == 3,
};
static TRACES_ITSELF: Condition = Condition {
    answer: "EINVAL", words: "a process can't trace itself",
    possible: |_| true, holds: |a, r| r.process_of(a.target) == a.caller,
};
static TRACED_ALREADY: Condition = Condition {
    answer: "EBUSY", words: "{target} is traced already",
    possible: |_| true, holds: |a, r| r.tracer(r.process_of(a.target)) != 0,
};
static TRACES_THE_CALLER: Condition = Condition {
    answer: "EINVAL", words: "{target} traces {caller}, directly or through others",
    possible: |_| true, holds: |a, r| r.traces(r.process_of(a.target), a.caller),
};
static NOT_TRACED: Condition = Condition {
    answer: "EPERM", words: "{target} isn't traced",
    possible: |_| true, holds: |a, r| r.tracer(r.process_of(a.target)) == 0,
};
static TRACED_BY_ANOTHER: Condition = Condition {
    answer: "EBUSY", words: "another process traces {target}",
    possible: |_| true, holds: |a, r| r.tracer(r.process_of(a.target)) != a.caller,
};
static IN_NO_STOP: Condition = Condition {
    answer: "EBUSY", words: "{target} is in no trace stop",
    possible: |_| true, holds: |a, r| r.state(r.process_of(a.target)) != 1,
};
static STOP_NOT_TOLD: Condition = Condition {
    answer: "EBUSY", words: "no wait has reported the stop of {target}",
    possible: |_| true, holds: |a, r| !r.was_told(r.process_of(a.target)),
};
static NO_SIGNAL_TO_PASS: Condition = Condition {
    answer: "EINVAL", words: "{signal} is no signal",
    possible: |a| (a.request == 7 || a.request == 9 || a.request == 20 || a.request == 21 || a.request == 22 || a.request == 11) && !(0 <= a.data && a.data <= 31), holds: |_, _| true,
};
static NO_COUNT: Condition = Condition {
    answer: "EINVAL", words: "data is 0, and has to be how many LWPs to list",
    possible: |a| a.request == 15 && a.data == 0, holds: |_, _| true,
};
static UNNAMED_EVENTS: Condition = Condition {
    answer: "EINVAL", words: "the mask's {unnamed} is no event",
    possible: |a| a.request == 26 && a.unnamed != 0, holds: |_, _| true,
};

pub static CALLS: &[Call] = &[
    Call { op: "spawn", request: -1, text: "spawn() by user {user}", order: &[&MOST_PROCESSES, &MOST_LWPS, &NO_MEMORY] },
    Call { op: "list", request: -1, text: "list() by {caller}", order: &[&CALLER_GONE, &CALLER_IN_TRACE_STOP, &CALLER_IN_JOB_STOP, &NO_MEMORY] },
    Call { op: "wait4", request: -1, text: "wait4({which}) by {caller}", order: &[&CALLER_GONE, &CALLER_IN_TRACE_STOP, &CALLER_IN_JOB_STOP, &NO_GROUPS, &NO_CHILD, &NO_CHILD_OF_NUMBER] },
    Call { op: "handle", request: -1, text: "handle() by {caller}", order: &[&CALLER_GONE, &CALLER_IN_TRACE_STOP, &CALLER_IN_JOB_STOP, &NO_CHILD] },
    Call { op: "kill", request: -1, text: "kill({which}, {signal}) by {caller}", order: &[&CALLER_GONE, &CALLER_IN_TRACE_STOP, &CALLER_IN_JOB_STOP, &NO_SIGNAL_TO_POST, &NO_GROUPS, &NO_OTHER_PROCESS, &PROCESS_GONE] },
    Call { op: "sigaction", request: -1, text: "sigaction({signal}, {action}) by {caller}", order: &[&CALLER_GONE, &CALLER_IN_TRACE_STOP, &CALLER_IN_JOB_STOP, &NO_SIGNAL, &FIXED_SIGNAL] },
    Call { op: "install", request: -1, text: "install({rules}) by {caller}", order: &[&CALLER_GONE, &CALLER_IN_TRACE_STOP, &CALLER_IN_JOB_STOP, &MOST_HANDLERS, &NO_MEMORY] },
    Call { op: "turn", request: -1, text: "turn({lwp}, {act}) by user {user}", order: &[&NO_NUMBER_OF_LWP, &LWP_GONE, &LWP_IN_TRACE_STOP, &LWP_IN_JOB_STOP, &LWP_SUSPENDED, &LWP_WAITS, &IN_NO_CALL, &IN_A_CALL, &NO_SIGNAL_TO_RAISE, &MOST_PROCESSES, &MOST_LWPS, &NO_MEMORY] },
    Call { op: "ptrace", request: 0, text: "ptrace(PT_TRACE_ME) by {caller}", order: &[&CALLER_GONE, &CALLER_IN_TRACE_STOP, &CALLER_IN_JOB_STOP, &CALLER_TRACED, &PARENT_IS_1, &TRACES_ITS_PARENT] },
    Call { op: "ptrace", request: 10, text: "ptrace({request}, {target}{data}) by {caller}", order: &[&CALLER_GONE, &CALLER_IN_TRACE_STOP, &CALLER_IN_JOB_STOP, &TARGET_IS_0, &TARGET_PROCESS_GONE, &TARGET_LWP_GONE, &TARGET_ENDED, &TRACES_ITSELF, &TRACED_ALREADY, &TRACES_THE_CALLER] },
    Call { op: "ptrace", request: -1, text: "ptrace({request}, {target}{data}) by {caller}", order: &[&CALLER_GONE, &CALLER_IN_TRACE_STOP, &CALLER_IN_JOB_STOP, &TARGET_IS_0, &TARGET_PROCESS_GONE, &TARGET_LWP_GONE, &TARGET_ENDED, &NOT_TRACED, &TRACED_BY_ANOTHER, &IN_NO_STOP, &STOP_NOT_TOLD, &NO_SIGNAL_TO_PASS, &NO_COUNT, &UNNAMED_EVENTS, &NO_MEMORY] },
];
    // end
}
use tables::{CALLS, DATA_REQUESTS, SIGNAL_REQUESTS};

/// Words with arguments in place of their names in braces.
fn filled(words: &str, asked: &Asked) -> String {
    let mut parts = words.split('{');
    let mut text = parts.next().unwrap_or("").to_owned();
    for part in parts {
        let (name, rest) = part.split_once('}').expect("a name in braces");
        text += &asked.word(name);
        text += rest;
    }
    text
}

/// The user of a step's line.
pub fn user(step: &str) -> u32 {
    number(step, "user") as u32
}

/// The errno, or `held`, of an answer's line.
pub fn refusal(answer: &str) -> Option<&str> {
    let mut words = answer.split(' ').skip(2);
    match words.next() {
        Some("held") => Some("held"),
        Some("error") => words.next(),
        _ => None,
    }
}

/// The call, the answer and the condition that held.
pub fn explanation(step: &str, answer: &str, rows: &Rows) -> String {
    let asked = Asked::of(step);
    let op = text(step, "op");
    let call = CALLS
        .iter()
        .find(|call| call.op == op && (call.request == -1 || call.request == asked.request))
        .expect("an op of a step");
    let held = call
        .order
        .iter()
        .find(|one| one.answer == answer && (one.possible)(&asked) && (one.holds)(&asked, rows));
    let why = held.map_or_else(String::new, |one| format!(", {}", filled(one.words, &asked)));
    format!("{}: {answer}{why}", filled(call.text, &asked))
}
