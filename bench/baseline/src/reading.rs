//! Scenarios out of texts. A text that isn't one is refused without a reason.

use crate::names::{bit, Action, Bits, Call, Decision, Events, Flags, Named, Options, Request, Signals};
use crate::plain::{self, a_signal, user_place};
use crate::rows::Rule;
use crate::scanning::{Padded, Scanner};
use crate::steps::{Act, Step, Which, MOST_RULES};

const LONGEST_TEXT: usize = 4_194_304;
const MOST_STEPS: usize = 100_000;
/// The bytes of a step and a comma: no step as programs write them has fewer.
const SHORTEST_STEP: usize = r#"{"user":1001,"op":"spawn"},"#.len();
/// In so many arrays and objects is the value of a step's key: in a scenario, and in a line. Of a rule's key two more.
const STEP_DEPTH: usize = 3;
const LINE_DEPTH: usize = 1;

pub struct Scenario {
    pub kills_tracees: bool,
    /// Each with the place of its user.
    pub steps: Vec<(u8, Step)>,
    pub rules: Vec<Rule>,
}

/// A key of a step or a rule, and its bit.
#[derive(Clone, Copy, PartialEq, Eq)]
#[repr(u8)]
enum Key {
    User,
    Op,
    Caller,
    Lwp,
    Act,
    Which,
    Request,
    Target,
    Data,
    Call,
    Code,
    Signal,
    Options,
    Action,
    Rules,
    Set,
    Mask,
    Flags,
    Decision,
    Pass,
}

impl Key {
    fn of(name: &[u8]) -> Option<Key> {
        Some(match name {
            b"user" => Key::User,
            b"op" => Key::Op,
            b"caller" => Key::Caller,
            b"lwp" => Key::Lwp,
            b"act" => Key::Act,
            b"which" => Key::Which,
            b"request" => Key::Request,
            b"target" => Key::Target,
            b"data" => Key::Data,
            b"call" => Key::Call,
            b"code" => Key::Code,
            b"signal" => Key::Signal,
            b"options" => Key::Options,
            b"action" => Key::Action,
            b"rules" => Key::Rules,
            b"set" => Key::Set,
            b"mask" => Key::Mask,
            b"flags" => Key::Flags,
            b"decision" => Key::Decision,
            b"pass" => Key::Pass,
            _ => return None,
        })
    }
}

#[derive(Clone, Copy)]
enum Op {
    Spawn,
    Ptrace,
    Wait,
    Kill,
    Sigaction,
    List,
    Install,
    Handle,
    Turn,
}

impl Op {
    fn of(name: &[u8]) -> Option<Op> {
        Some(match name {
            b"spawn" => Op::Spawn,
            b"ptrace" => Op::Ptrace,
            b"wait4" => Op::Wait,
            b"kill" => Op::Kill,
            b"sigaction" => Op::Sigaction,
            b"list" => Op::List,
            b"install" => Op::Install,
            b"handle" => Op::Handle,
            b"turn" => Op::Turn,
            _ => return None,
        })
    }
}

#[derive(Clone, Copy)]
enum ActKind {
    Compute,
    Raise,
    Block,
    Enter,
    Leave,
}

impl ActKind {
    fn of(name: &[u8]) -> Option<ActKind> {
        Some(match name {
            b"compute" => ActKind::Compute,
            b"raise" => ActKind::Raise,
            b"block" => ActKind::Block,
            b"enter" => ActKind::Enter,
            b"leave" => ActKind::Leave,
            _ => return None,
        })
    }
}

/// The members of a step or a rule. Of a key that comes twice the last value counts.
struct Members {
    /// The keys that are there, and not yet used.
    left: u32,
    /// The keys whose last value is none that they may have.
    wrong: u32,
    user: i64,
    caller: i64,
    lwp: i64,
    which: i64,
    target: i64,
    data: i64,
    code: i64,
    signal: i64,
    pass: i64,
    op: Op,
    act: ActKind,
    request: Request,
    call: Call,
    action: Action,
    decision: Decision,
    /// The options, events, flags or signals of a step's only array.
    bits: u32,
    rules: (u32, u32),
}

const NO_MEMBERS: Members = Members {
    left: 0,
    wrong: 0,
    user: 0,
    caller: 0,
    lwp: 0,
    which: 0,
    target: 0,
    data: 0,
    code: 0,
    signal: 0,
    pass: 0,
    op: Op::Spawn,
    act: ActKind::Compute,
    request: Request::TraceMe,
    call: Call::Fork,
    action: Action::Default,
    decision: Decision::Decline,
    bits: 0,
    rules: (0, 0),
};

fn word(value: i64) -> Option<u32> {
    u32::try_from(value).ok()
}

impl Members {
    /// Reads the value of a key.
    #[inline]
    fn value(&mut self, key: Key, text: &mut Scanner<'_>, rules: Option<&mut Vec<Rule>>, depth: usize) -> Option<()> {
        match key {
            Key::User => self.user = text.number()?,
            Key::Op => self.op = Op::of(text.name()?.bytes())?,
            Key::Caller => self.caller = text.number()?,
            Key::Lwp => self.lwp = text.number()?,
            Key::Act => self.act = ActKind::of(text.name()?.bytes())?,
            Key::Which => self.which = text.number()?,
            Key::Request => self.request = Request::of(text.name()?.bytes())?,
            Key::Target => self.target = text.number()?,
            Key::Data => self.data = text.number()?,
            Key::Call => self.call = Call::of(text.name()?.bytes())?,
            Key::Code => self.code = text.number()?,
            Key::Signal => self.signal = text.number()?,
            Key::Options => self.bits = bits::<Options>(text)?,
            Key::Action => self.action = Action::of(text.name()?.bytes())?,
            Key::Rules => self.rules = policy(text, rules?, depth + 2)?,
            Key::Set => self.bits = signals(text)?,
            Key::Mask => self.bits = bits::<Events>(text)?,
            Key::Flags => self.bits = bits::<Flags>(text)?,
            Key::Decision => self.decision = Decision::of(text.name()?.bytes())?,
            Key::Pass => self.pass = text.number()?,
        }
        Some(())
    }

    fn has(&mut self, key: Key) -> bool {
        let was = self.left;
        self.left &= !(1 << key as u8);
        was != self.left
    }

    fn need(&mut self, key: Key) -> Option<()> {
        self.has(key).then_some(())
    }

    fn caller(&mut self) -> Option<u32> {
        self.need(Key::Caller)?;
        word(self.caller)
    }

    fn signal(&mut self) -> Option<u32> {
        self.need(Key::Signal)?;
        word(self.signal)
    }

    /// All numbers that are no process's are alike to wait4(2) and kill(2), if they have one sign.
    fn which(&mut self) -> Option<Which> {
        self.need(Key::Which)?;
        Some(self.which.clamp(Which::MIN.into(), Which::MAX.into()) as Which)
    }

    fn step(&mut self) -> Option<(u8, Step)> {
        self.need(Key::User)?;
        self.need(Key::Op)?;
        let user = user_place(word(self.user)?)?;
        let step = match self.op {
            Op::Spawn => Step::Spawn,
            Op::Turn => self.turn()?,
            Op::Ptrace => self.ptrace()?,
            op => self.call(op)?,
        };
        (self.left == 0).then_some((user, step))
    }

    fn call(&mut self, op: Op) -> Option<Step> {
        let caller = self.caller()?;
        Some(match op {
            Op::Wait => {
                let which = self.which()?;
                let options = if self.has(Key::Options) { self.bits as u8 } else { 0 };
                Step::Wait { caller, which, options }
            }
            Op::Kill => {
                let which = self.which()?;
                let signal = self.signal()?;
                Step::Kill { caller, which, signal }
            }
            Op::Sigaction => {
                let signal = self.signal()?;
                self.need(Key::Action)?;
                let action = self.action;
                Step::Sigaction { caller, signal, action }
            }
            Op::Install => {
                self.need(Key::Rules)?;
                let (first, end) = self.rules;
                Step::Install { caller, first, end }
            }
            Op::List => Step::List { caller },
            Op::Handle => Step::Handle { caller },
            Op::Spawn | Op::Ptrace | Op::Turn => return None,
        })
    }

    fn ptrace(&mut self) -> Option<Step> {
        let caller = self.caller()?;
        self.need(Key::Request)?;
        let request = self.request;
        let (mut target, mut data) = (0, 0);
        if request != Request::TraceMe {
            self.need(Key::Target)?;
            target = word(self.target)?;
        }
        if request == Request::SetEventMask {
            self.need(Key::Mask)?;
            data = self.bits;
        } else if request != Request::TraceMe && self.has(Key::Data) {
            data = word(self.data)?;
        }
        Some(Step::Ptrace {
            caller,
            request,
            target,
            data,
        })
    }

    fn turn(&mut self) -> Option<Step> {
        self.need(Key::Lwp)?;
        self.need(Key::Act)?;
        let lwp = word(self.lwp)?;
        let act = match self.act {
            ActKind::Compute => Act::Compute,
            ActKind::Leave => Act::Leave,
            ActKind::Raise => Act::Raise(self.signal()?),
            ActKind::Block => {
                self.need(Key::Set)?;
                Act::Block(self.bits)
            }
            ActKind::Enter => {
                self.need(Key::Call)?;
                Act::Enter(self.entered()?)
            }
        };
        Some(Step::Turn { lwp, act })
    }

    fn entered(&mut self) -> Option<Call> {
        if !matches!(self.call, Call::Exit(_) | Call::Other(_)) {
            return Some(self.call);
        }
        self.need(Key::Code)?;
        self.call.with_code(word(self.code)?)
    }

    fn rule(&mut self) -> Option<Rule> {
        let signal = if self.has(Key::Signal) {
            a_signal(word(self.signal)?)?
        } else {
            0
        };
        let flags = if self.has(Key::Flags) { self.bits as u16 } else { 0 };
        self.need(Key::Decision)?;
        let passes = matches!(self.decision, Decision::Continue | Decision::Detach);
        let pass = if passes && self.has(Key::Pass) {
            u8::try_from(self.pass).ok().filter(|pass| *pass <= 31)?
        } else {
            0
        };
        (self.left == 0).then_some(Rule {
            signal,
            flags,
            decision: self.decision,
            pass,
        })
    }
}

/// Reads an array of names into the bits that they name.
fn bits<B: Bits>(text: &mut Scanner<'_>) -> Option<u32> {
    let mut set = 0;
    let mut goes_on = text.opens(b'[', b']')?;
    while goes_on {
        set |= B::of(text.name()?.bytes())?.bits();
        goes_on = text.goes_on(b']')?;
    }
    Some(set)
}

fn signals(text: &mut Scanner<'_>) -> Option<Signals> {
    let mut set = 0;
    let mut goes_on = text.opens(b'[', b']')?;
    while goes_on {
        set |= bit(a_signal(word(text.number()?)?)?);
        goes_on = text.goes_on(b']')?;
    }
    Some(set)
}

fn policy(text: &mut Scanner<'_>, rules: &mut Vec<Rule>, depth: usize) -> Option<(u32, u32)> {
    let first = rules.len();
    let mut goes_on = text.opens(b'[', b']')?;
    while goes_on {
        rules.push(members(text, None, depth)?.rule()?);
        goes_on = text.goes_on(b']')?;
    }
    (rules.len() - first <= MOST_RULES).then_some((first as u32, rules.len() as u32))
}

/// Reads an object of a step, or of a rule, which has no rules itself.
fn members(text: &mut Scanner<'_>, mut rules: Option<&mut Vec<Rule>>, depth: usize) -> Option<Members> {
    let mut read = NO_MEMBERS;
    let mut goes_on = text.opens(b'{', b'}')?;
    while goes_on {
        let key = Key::of(text.name()?.bytes())?;
        text.expect(b':')?;
        let start = text.place();
        read.left |= 1 << key as u8;
        read.wrong &= !(1 << key as u8);
        if read.value(key, text, rules.as_deref_mut(), depth).is_none() {
            read.wrong |= 1 << key as u8;
            text.back_to(start);
            text.skip_value(depth)?;
        }
        goes_on = text.goes_on(b'}')?;
    }
    (read.wrong == 0).then_some(read)
}

/// A step that isn't written as programs write it.
#[cold]
fn any_step(text: &mut Scanner<'_>, rules: &mut Vec<Rule>, depth: usize) -> Option<(u8, Step)> {
    members(text, Some(rules), depth)?.step()
}

/// Reads the array of steps. As a function of its own it keeps its place in registers.
#[inline(never)]
fn steps(text: &mut Scanner<'_>, scenario: &mut Scenario) -> Option<()> {
    let Scenario { steps, rules, .. } = scenario;
    steps.clear();
    let mut goes_on = text.opens(b'[', b']')?;
    while goes_on {
        // a scanner that isn't passed to others
        let mut ahead = text.clone();
        let count = rules.len();
        match plain::step(&mut ahead, rules, |user, step| steps.push((user, step))) {
            Some(()) => *text = ahead,
            None => {
                rules.truncate(count);
                steps.push(any_step(text, rules, STEP_DEPTH)?);
            }
        }
        goes_on = text.goes_on(b']')?;
    }
    (steps.len() <= MOST_STEPS).then_some(())
}

/// The step that a line is.
#[inline(always)]
pub fn line_step(line: &Padded, rules: &mut Vec<Rule>) -> Option<(u8, Step)> {
    let count = rules.len();
    let mut text = Scanner::new(line);
    let mut found = None;
    if plain::step(&mut text, rules, |user, step| found = Some((user, step))).is_none() {
        text.back_to(0);
        rules.truncate(count);
        found = any_step(&mut text, rules, LINE_DEPTH);
    }
    if found.is_none() || !text.is_at_end() {
        rules.truncate(count);
        return None;
    }
    found
}

fn setting(text: &mut Scanner<'_>, scenario: &mut Scenario) -> Option<()> {
    scenario.kills_tracees = match text.number()? {
        0 => false,
        1 => true,
        _ => return None,
    };
    Some(())
}

#[inline(never)]
pub fn read(text: &Padded) -> Option<Scenario> {
    if text.length() > LONGEST_TEXT {
        return None;
    }
    let mut scenario = Scenario {
        kills_tracees: true,
        steps: Vec::with_capacity(text.length() / SHORTEST_STEP),
        rules: Vec::new(),
    };
    let mut text = Scanner::new(text);
    let (mut has_steps, mut has_wrong_steps, mut has_wrong_setting) = (false, false, false);
    let mut goes_on = text.opens(b'{', b'}')?;
    while goes_on {
        let key = text.name()?;
        text.expect(b':')?;
        let start = text.place();
        let is_wrong = match key.bytes() {
            b"steps" => {
                has_steps = true;
                has_wrong_steps = steps(&mut text, &mut scenario).is_none();
                has_wrong_steps
            }
            b"kill_on_debugger_exit" => {
                has_wrong_setting = setting(&mut text, &mut scenario).is_none();
                has_wrong_setting
            }
            _ => return None,
        };
        if is_wrong {
            text.back_to(start);
            text.skip_value(1)?;
        }
        goes_on = text.goes_on(b'}')?;
    }
    let is_right = has_steps && !has_wrong_steps && !has_wrong_setting;
    (is_right && text.is_at_end()).then_some(scenario)
}
