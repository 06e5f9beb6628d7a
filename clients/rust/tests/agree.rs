//! Random steps: each by a typed call in one session and by its line in another. What the typed call returns has to be
//! what the line says.

mod answers;

use answers::{words_of, Answer};
use std::collections::BTreeSet;
use tracehost::{
    Act, Call, Caller, Decision, Disposition, Error, EventMask, Request, Rule, Session, Settings, Signal, SignalSet,
    StopFlags, WaitOptions, Which,
};

/// xorshift64
struct Random(u64);

impl Random {
    fn below(&mut self, limit: u32) -> u32 {
        self.0 ^= self.0 << 13;
        self.0 ^= self.0 >> 7;
        self.0 ^= self.0 << 17;
        (self.0 >> 32) as u32 % limit
    }

    fn one_in(&mut self, limit: u32) -> bool {
        self.below(limit) == 0
    }

    fn of<T: Copy>(&mut self, items: &[T]) -> T {
        items[self.below(items.len() as u32) as usize]
    }

    fn user(&mut self) -> u32 {
        1001 + self.below(2)
    }

    /// A process of the user, mostly.
    fn pid(&mut self, user: u32) -> u32 {
        let user = if self.one_in(20) { 2003 - user } else { user };
        1000 * (user - 1000) + self.below(5)
    }

    /// An LWP of the user, mostly.
    fn lwp(&mut self, user: u32) -> u32 {
        let user = if self.one_in(20) { 2003 - user } else { user };
        100_000 + 4000 * (user - 1001) + self.below(6)
    }

    fn signal(&mut self) -> Signal {
        use Signal::*;
        self.of(&[
            SIGHUP, SIGTRAP, SIGKILL, SIGURG, SIGSTOP, SIGTSTP, SIGCONT, SIGCHLD, SIGUSR1, SIGUSR2,
        ])
    }

    fn pass(&mut self) -> Option<Signal> {
        self.one_in(3).then(|| self.signal())
    }

    fn which(&mut self, user: u32) -> Which {
        if self.one_in(2) {
            Which::Any
        } else {
            Which::Process(self.pid(user))
        }
    }
}

/// A step: what is sent as a line, and the typed call.
struct Step {
    line: String,
    call: Box<dyn Fn(&mut Session) -> Answer>,
}

fn step<T: Words + 'static>(
    user: u32,
    rest: String,
    call: impl Fn(&mut Session) -> Result<T, Error> + 'static,
) -> Step {
    Step {
        line: format!(r#"{{"user":{user},{rest}}}"#),
        call: Box::new(move |session| call(session).map(|reply| reply.words())),
    }
}

/// A reply in the words of a line.
trait Words {
    fn words(&self) -> String;
}

impl Words for () {
    fn words(&self) -> String {
        "ok".to_string()
    }
}

impl Words for tracehost::New {
    fn words(&self) -> String {
        self.to_string()
    }
}

impl Words for tracehost::Reply {
    fn words(&self) -> String {
        self.to_string()
    }
}

impl Words for Vec<u32> {
    fn words(&self) -> String {
        self.iter()
            .fold("pids".to_string(), |line, pid| format!("{line} {pid}"))
    }
}

/// Names in an array of JSON.
fn names(text: &str) -> String {
    if text == "none" {
        return "[]".to_string();
    }
    format!("[\"{}\"]", text.replace('+', "\",\""))
}

fn number(signal: Option<Signal>) -> u32 {
    signal.map_or(0, Signal::number)
}

fn which_number(which: Which) -> i64 {
    match which {
        Which::Any => -1,
        Which::Process(pid) => pid.into(),
    }
}

fn ptrace(random: &mut Random, user: u32) -> Step {
    let pid = random.pid(user);
    let caller = Caller { user, pid };
    let target = if random.one_in(6) {
        random.lwp(user)
    } else {
        random.pid(user)
    };
    let pass = random.pass();
    let events: EventMask = (0..6)
        .filter_map(|bit| EventMask::from_bits(random.below(2) << bit))
        .collect();
    let (most, set) = (random.below(4), random.one_in(2));
    let with = |name: &'static str, data: u32| (name, format!(r#","data":{data}"#));
    let (request, (name, data)) = match random.below(22) {
        0 => (Request::TraceMe, ("PT_TRACE_ME", String::new())),
        1..=4 => (Request::Attach, ("PT_ATTACH", String::new())),
        5 => (Request::Step(pass), with("PT_STEP", number(pass))),
        6 => (Request::ToSce(pass), with("PT_TO_SCE", number(pass))),
        7 => (Request::ToScx(pass), with("PT_TO_SCX", number(pass))),
        8 => (Request::Syscall(pass), with("PT_SYSCALL", number(pass))),
        9 => (Request::Detach(pass), with("PT_DETACH", number(pass))),
        10 => (Request::Kill, ("PT_KILL", String::new())),
        11 => (Request::Suspend, ("PT_SUSPEND", String::new())),
        12 => (Request::Resume, ("PT_RESUME", String::new())),
        13 => (
            Request::SetEventMask(events),
            (
                "PT_SET_EVENT_MASK",
                format!(r#","mask":{}"#, names(&events.to_string())),
            ),
        ),
        14 => (Request::GetEventMask, ("PT_GET_EVENT_MASK", String::new())),
        15 => (Request::FollowFork(set), with("PT_FOLLOW_FORK", set.into())),
        16 => (Request::LwpEvents(set), with("PT_LWP_EVENTS", set.into())),
        17 => (Request::LwpInfo, ("PT_LWPINFO", String::new())),
        18 => (Request::GetNumLwps, ("PT_GETNUMLWPS", String::new())),
        19 => (Request::GetLwpList(most), with("PT_GETLWPLIST", most)),
        _ => (Request::Continue(pass), with("PT_CONTINUE", number(pass))),
    };
    let to = if request == Request::TraceMe {
        String::new()
    } else {
        format!(r#","target":{target}"#)
    };
    let rest = format!(r#""op":"ptrace","caller":{pid},"request":"{name}"{to}{data}"#);
    step(user, rest, move |session| session.ptrace(caller, request, target))
}

fn turn(random: &mut Random, user: u32) -> Step {
    let (lwp, signal) = (random.lwp(user), random.signal());
    let set: SignalSet = (0..random.below(3)).map(|_| random.signal()).collect();
    let (code, number) = (random.below(256) as u8, random.below(600));
    let calls = [
        (Call::Exit(code), "exit", format!(r#","code":{code}"#)),
        (Call::Other(number), "other", format!(r#","code":{number}"#)),
        (Call::Exec, "exec", String::new()),
        (Call::ThrNew, "thr_new", String::new()),
        (Call::ThrExit, "thr_exit", String::new()),
        (Call::Fork, "fork", String::new()),
        (Call::Vfork, "vfork", String::new()),
    ];
    let (call, name, more) = &calls[random.below(7) as usize];
    let (act, rest) = match random.below(10) {
        0..=1 => (Act::Compute, r#""compute""#.to_string()),
        2 => (Act::Raise(signal), format!(r#""raise","signal":{}"#, signal.number())),
        3 if set.is_empty() => (Act::Block(set), r#""block","set":[]"#.to_string()),
        3 => (Act::Block(set), format!(r#""block","set":[{set}]"#)),
        4..=6 => (Act::Enter(*call), format!(r#""enter","call":"{name}"{more}"#)),
        _ => (Act::Leave, r#""leave""#.to_string()),
    };
    step(
        user,
        format!(r#""op":"turn","lwp":{lwp},"act":{rest}"#),
        move |session| session.turn(user, lwp, act),
    )
}

fn rule(random: &mut Random) -> (Rule, String) {
    let signal = random.one_in(2).then(|| random.signal());
    let flags = random.of(&[StopFlags::empty(), StopFlags::PL_FLAG_SCE, StopFlags::PL_FLAG_SCX]);
    let pass = random.pass();
    let (decision, name) = match random.below(5) {
        0 => (Decision::Decline, "decline"),
        1 => (Decision::Leave, "leave"),
        2 => (Decision::Continue(pass), "continue"),
        3 => (Decision::Detach(pass), "detach"),
        _ => (Decision::Kill, "kill"),
    };
    let passes = matches!(decision, Decision::Continue(_) | Decision::Detach(_));
    let fits = signal.map_or(String::new(), |signal| format!(r#""signal":{},"#, signal.number()));
    let passed = if passes {
        format!(r#","pass":{}"#, number(pass))
    } else {
        String::new()
    };
    let flag_names = names(&flags.to_string());
    (
        Rule {
            signal,
            flags,
            decision,
        },
        format!(r#"{{{fits}"flags":{flag_names},"decision":"{name}"{passed}}}"#),
    )
}

fn wait(random: &mut Random, caller: Caller) -> Step {
    let which = random.which(caller.user);
    let options = random.of(&[
        WaitOptions::empty(),
        WaitOptions::WNOHANG,
        WaitOptions::WUNTRACED,
        WaitOptions::WUNTRACED | WaitOptions::WCONTINUED,
    ]);
    let (pid, number, option_names) = (caller.pid, which_number(which), names(&options.to_string()));
    let rest = format!(r#""op":"wait4","caller":{pid},"which":{number},"options":{option_names}"#);
    step(caller.user, rest, move |session| session.wait4(caller, which, options))
}

fn any(random: &mut Random) -> Step {
    let user = random.user();
    let pid = random.pid(user);
    let caller = Caller { user, pid };
    let (signal, which) = (random.signal(), random.which(user));
    match random.below(24) {
        0..=1 => step(user, r#""op":"spawn""#.to_string(), move |session| session.spawn(user)),
        2 => step(user, format!(r#""op":"list","caller":{pid}"#), move |session| {
            session.list(caller)
        }),
        3 => {
            let (disposition, name) = random.of(&[
                (Disposition::Default, "default"),
                (Disposition::Ignore, "ignore"),
                (Disposition::Catch, "catch"),
                (Disposition::Catch, "catch"),
            ]);
            let number = signal.number();
            let rest = format!(r#""op":"sigaction","caller":{pid},"signal":{number},"action":"{name}""#);
            step(user, rest, move |session| {
                session.sigaction(caller, signal, disposition)
            })
        }
        4 => {
            let posted = (!random.one_in(8)).then_some(signal);
            let numbers = (which_number(which), number(posted));
            let rest = format!(
                r#""op":"kill","caller":{pid},"which":{},"signal":{}"#,
                numbers.0, numbers.1
            );
            step(user, rest, move |session| session.kill(caller, which, posted))
        }
        5..=8 => wait(random, caller),
        9 => {
            let (rules, texts): (Vec<Rule>, Vec<String>) = (0..random.below(4)).map(|_| rule(random)).unzip();
            let rest = format!(r#""op":"install","caller":{pid},"rules":[{}]"#, texts.join(","));
            step(user, rest, move |session| session.install(caller, &rules))
        }
        10 => step(user, format!(r#""op":"handle","caller":{pid}"#), move |session| {
            session.handle(caller)
        }),
        11..=16 => ptrace(random, user),
        _ => turn(random, user),
    }
}

/// The words of a line after its user and number.
fn words_after(line: &str) -> &str {
    line.splitn(3, ' ').nth(2).unwrap_or("")
}

#[test]
fn typed_calls_and_lines() {
    let mut kinds = BTreeSet::new();
    for seed in 1..=300 {
        let mut random = Random(0x9e37_79b9_7f4a_7c15_u64.wrapping_mul(seed));
        let settings = Settings {
            kill_on_debugger_exit: seed % 2 == 0,
        };
        let mut typed = Session::with_settings(settings).unwrap();
        let mut text = Session::with_settings(settings).unwrap();
        for made in 0..300 {
            let step = any(&mut random);
            let line = text.line(&step.line).unwrap();
            let words = words_of((step.call)(&mut typed));
            assert_eq!(words, words_after(&line), "seed {seed}, step {made}: {}", step.line);
            assert_eq!(typed.last_line().unwrap(), line);
            kinds.insert(words.split(' ').next().unwrap_or("").to_string());
            if made == 150 {
                typed = typed.try_clone().unwrap();
            }
        }
    }
    let wanted = "caught ended error handled held info lwps mask new nothing number ok pids status stopped";
    assert_eq!(kinds.into_iter().collect::<Vec<_>>().join(" "), wanted);
}
