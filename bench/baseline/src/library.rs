//! The calls of include/tracehost.h that benchmarks make. They look at what would hurt them, and not at all that callers owe.

use std::{ptr, slice};

use crate::names::{Action, Call, Decision, Request, LAST_SIGNAL};
use crate::objects::Objects;
use crate::plain::user_place;
use crate::reading::line_step;
use crate::rows::Rule;
use crate::scanning::Padded;
use crate::steps::{Act, Step, Which, MOST_RULES};
use crate::tables::Users;
use crate::text::Lines;
use crate::typed::{Reply, Typed};

const ANSWERED: u32 = 0;
const INVALID: u32 = 3;
const REFUSED: &[u8] = b"refused\n";

pub struct Session {
    users: Users,
    /// Those of all handlers that were ever installed.
    rules: Vec<Rule>,
    line: Padded,
    lines: Lines,
    objects: Objects,
    /// The numbers of the last list.
    numbers: Vec<u32>,
}

/// An open session, or null.
#[repr(C)]
pub struct Handle {
    session: *mut Session,
    tag: u64,
}

#[repr(C)]
pub struct RuleOfC {
    flags: u32,
    signal: u32,
    decision: u32,
    pass: u32,
}

impl RuleOfC {
    fn rule(&self) -> Option<Rule> {
        let decision = Decision::of_number(self.decision)?;
        let passes = matches!(decision, Decision::Continue | Decision::Detach);
        if self.signal > LAST_SIGNAL || self.flags >= 512 || passes && self.pass > LAST_SIGNAL {
            return None;
        }
        Some(Rule {
            signal: self.signal as u8,
            flags: self.flags as u16,
            decision,
            pass: if passes { self.pass as u8 } else { 0 },
        })
    }
}

impl Handle {
    fn open(&mut self, users: Users, rules: Vec<Rule>) {
        self.session = Box::into_raw(Box::new(Session {
            users,
            rules,
            line: Padded::default(),
            lines: Lines::default(),
            objects: Objects::default(),
            numbers: Vec::new(),
        }));
    }

    fn session(&mut self) -> &mut Session {
        // SAFETY: the caller has opened the handle
        unsafe { &mut *self.session }
    }

    #[inline(always)]
    fn make(&mut self, user: u32, step: &Step, reply: &mut Reply) -> u32 {
        let Some(user) = user_place(user) else {
            return INVALID;
        };
        let Session {
            users, rules, numbers, ..
        } = self.session();
        let table = users.table(user);
        table.front.head.count();
        table.step(step, rules, &mut Typed { reply, numbers });
        ANSWERED
    }
}

/// All numbers that are no process's are alike, if they have one sign.
#[inline(always)]
fn which_of(which: i64) -> Which {
    which.clamp(Which::MIN.into(), Which::MAX.into()) as Which
}

fn act_of(act: u32, call: u32, argument: u32) -> Option<Act> {
    Some(match act {
        0 => Act::Compute,
        1 => Act::Raise(argument),
        2 if argument < 1 << LAST_SIGNAL => Act::Block(argument << 1),
        3 => Act::Enter(Call::of_number(call, argument)?),
        4 => Act::Leave,
        _ => return None,
    })
}

impl Session {
    /// Takes over the rules of a user's handlers, behind its own ones.
    #[cold]
    fn take_rules(&mut self, others: &Session, user: u8) {
        for handler in &mut self.users.table(user).handlers {
            let policy = &others.rules[handler.first as usize..handler.end as usize];
            handler.first = self.rules.len() as u32;
            self.rules.extend_from_slice(policy);
            handler.end = self.rules.len() as u32;
        }
    }

    /// Makes the step of a line, and returns the line of the answer.
    #[inline(always)]
    fn answer(&mut self, json: bool, line: &[u8]) -> &[u8] {
        self.line.set(line);
        let Some((user, step)) = line_step(&self.line, &mut self.rules) else {
            return REFUSED;
        };
        let table = self.users.table(user);
        if json {
            self.objects.0.begin();
            self.objects.begin(&mut table.front.head);
            table.step(&step, &self.rules, &mut self.objects);
            self.objects.0.bytes()
        } else {
            self.lines.0.begin();
            self.lines.begin(&mut table.front.head);
            table.step(&step, &self.rules, &mut self.lines);
            self.lines.0.bytes()
        }
    }
}

#[no_mangle]
pub extern "C" fn tracehost_open(kills_tracees: bool, out: &mut Handle) -> u32 {
    out.open(Users::new(kills_tracees), Vec::new());
    ANSWERED
}

#[no_mangle]
pub extern "C" fn tracehost_close(h: &mut Handle) -> u32 {
    let session = std::mem::replace(&mut h.session, ptr::null_mut());
    if !session.is_null() {
        // SAFETY: it is that of a handle that was opened, which has it no longer
        drop(unsafe { Box::from_raw(session) });
    }
    ANSWERED
}

#[no_mangle]
pub extern "C" fn tracehost_copy(from: &mut Handle, to: &mut Handle) -> u32 {
    let from = from.session();
    to.open(Users::new(from.users.kills_tracees), from.rules.clone());
    to.session().users.become_as(&from.users);
    ANSWERED
}

#[no_mangle]
pub extern "C" fn tracehost_copy_over(from: &mut Handle, to: &mut Handle) -> u32 {
    let (from, to) = (from.session(), to.session());
    to.users.become_as(&from.users);
    if !from.rules.is_empty() {
        to.rules.clone_from(&from.rules);
    }
    ANSWERED
}

#[no_mangle]
pub extern "C" fn tracehost_copy_user(from: &mut Handle, to: &mut Handle, user: u32) -> u32 {
    let Some(user) = user_place(user) else {
        return INVALID;
    };
    let (from, to) = (from.session(), to.session());
    if from.users.kills_tracees != to.users.kills_tracees {
        return INVALID;
    }
    to.users.take_user(&from.users, user);
    if !from.rules.is_empty() {
        to.take_rules(from, user);
    }
    ANSWERED
}

/// # Safety
/// As many bytes as the lengths say can be read from `line`, and written to `out`.
#[no_mangle]
pub unsafe extern "C" fn tracehost_line(
    h: &mut Handle,
    json: bool,
    line: *const u8,
    line_length: usize,
    out: *mut u8,
    out_size: usize,
    length: &mut usize,
) -> u32 {
    let answer = h.session().answer(json, slice::from_raw_parts(line, line_length));
    *length = answer.len();
    ptr::copy_nonoverlapping(answer.as_ptr(), out, answer.len().min(out_size));
    ANSWERED
}

#[no_mangle]
pub extern "C" fn tracehost_spawn(h: &mut Handle, user: u32, reply: &mut Reply) -> u32 {
    h.make(user, &Step::Spawn, reply)
}

#[no_mangle]
pub extern "C" fn tracehost_list(h: &mut Handle, user: u32, caller: u32, reply: &mut Reply) -> u32 {
    h.make(user, &Step::List { caller }, reply)
}

#[no_mangle]
pub extern "C" fn tracehost_sigaction(
    h: &mut Handle,
    user: u32,
    caller: u32,
    signal: u32,
    action: u32,
    reply: &mut Reply,
) -> u32 {
    let Some(action) = Action::of_number(action) else {
        return INVALID;
    };
    h.make(user, &Step::Sigaction { caller, signal, action }, reply)
}

#[no_mangle]
pub extern "C" fn tracehost_kill(
    h: &mut Handle,
    user: u32,
    caller: u32,
    which: i64,
    signal: u32,
    reply: &mut Reply,
) -> u32 {
    let which = which_of(which);
    h.make(user, &Step::Kill { caller, which, signal }, reply)
}

#[no_mangle]
pub extern "C" fn tracehost_wait4(
    h: &mut Handle,
    user: u32,
    caller: u32,
    which: i64,
    options: u32,
    reply: &mut Reply,
) -> u32 {
    if options > 7 {
        return INVALID;
    }
    // WNOHANG has the lowest bit, and changes nothing
    let (which, options) = (which_of(which), (options >> 1) as u8);
    h.make(user, &Step::Wait { caller, which, options }, reply)
}

/// # Safety
/// So many rules can be read.
#[no_mangle]
pub unsafe extern "C" fn tracehost_install(
    h: &mut Handle,
    user: u32,
    caller: u32,
    rules: *const RuleOfC,
    count: usize,
    reply: &mut Reply,
) -> u32 {
    let all = &mut h.session().rules;
    let first = all.len();
    if count > MOST_RULES {
        return INVALID;
    }
    for rule in slice::from_raw_parts(rules, count) {
        let Some(rule) = rule.rule() else {
            all.truncate(first);
            return INVALID;
        };
        all.push(rule);
    }
    let (first, end) = (first as u32, all.len() as u32);
    h.make(user, &Step::Install { caller, first, end }, reply)
}

#[no_mangle]
pub extern "C" fn tracehost_handle(h: &mut Handle, user: u32, caller: u32, reply: &mut Reply) -> u32 {
    h.make(user, &Step::Handle { caller }, reply)
}

#[no_mangle]
pub extern "C" fn tracehost_ptrace(
    h: &mut Handle,
    user: u32,
    caller: u32,
    request: u32,
    target: u32,
    data: u32,
    reply: &mut Reply,
) -> u32 {
    let Some(request) = Request::of_number(request) else {
        return INVALID;
    };
    let step = Step::Ptrace {
        caller,
        request,
        target,
        data,
    };
    h.make(user, &step, reply)
}

#[no_mangle]
pub extern "C" fn tracehost_turn(
    h: &mut Handle,
    user: u32,
    lwp: u32,
    act: u32,
    call: u32,
    argument: u32,
    reply: &mut Reply,
) -> u32 {
    let Some(act) = act_of(act, call, argument) else {
        return INVALID;
    };
    h.make(user, &Step::Turn { lwp, act }, reply)
}

/// The numbers of the last list.
///
/// # Safety
/// So many numbers can be written to `out`.
#[no_mangle]
pub unsafe extern "C" fn tracehost_numbers(h: &mut Handle, out: *mut u32, size: usize, length: &mut usize) -> u32 {
    let numbers = &h.session().numbers;
    *length = numbers.len();
    ptr::copy_nonoverlapping(numbers.as_ptr(), out, numbers.len().min(size));
    ANSWERED
}
