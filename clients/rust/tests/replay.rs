//! The scenarios whose steps clients/c/tests/words.py has written as words: each by typed calls. tests/python/test_rust.py
//! runs it.
//!
//!     TRACEHOST_WORDS=FOLDER cargo test --test replay -- --ignored

mod answers;

use answers::{words_of, Answer};
use std::collections::HashMap;
use std::path::Path;
use std::str::SplitAsciiWhitespace;
use std::{env, fs};
use tracehost::{
    Act, Call, Caller, Decision, Disposition, Error, EventMask, Request, Rule, Session, Settings, Signal, SignalSet,
    StopFlags, WaitOptions, Which,
};

/// The words of a step.
struct Words<'a>(SplitAsciiWhitespace<'a>);

impl<'a> Words<'a> {
    fn word(&mut self) -> &'a str {
        self.0.next().unwrap_or("0")
    }

    fn signed(&mut self) -> i64 {
        self.word().parse().expect("a number")
    }

    fn number(&mut self) -> u32 {
        self.word().parse().expect("a word of 32 bits")
    }

    /// A signal, 0 for none; `None` if the types of the crate don't have it.
    fn pass(&mut self) -> Option<Option<Signal>> {
        match self.number() {
            0 => Some(None),
            number => Signal::from_number(number).map(Some),
        }
    }

    fn signal(&mut self) -> Option<Signal> {
        self.pass()?
    }

    fn which(&mut self) -> Option<Which> {
        match self.signed() {
            -1 => Some(Which::Any),
            number => number.try_into().ok().map(Which::Process),
        }
    }
}

fn request(words: &mut Words) -> Option<(Request, u32)> {
    let (number, target) = (words.number(), words.number());
    let request = match number {
        0 => Request::TraceMe,
        7 => Request::Continue(words.pass()?),
        8 => Request::Kill,
        9 => Request::Step(words.pass()?),
        10 => Request::Attach,
        11 => Request::Detach(words.pass()?),
        13 => Request::LwpInfo,
        14 => Request::GetNumLwps,
        15 => Request::GetLwpList(words.number()),
        18 => Request::Suspend,
        19 => Request::Resume,
        20 => Request::ToSce(words.pass()?),
        21 => Request::ToScx(words.pass()?),
        22 => Request::Syscall(words.pass()?),
        23 => Request::FollowFork(words.number() != 0),
        24 => Request::LwpEvents(words.number() != 0),
        25 => Request::GetEventMask,
        26 => Request::SetEventMask(EventMask::from_bits(words.number())?),
        _ => return None,
    };
    Some((request, target))
}

fn act(words: &mut Words) -> Option<Act> {
    Some(match words.word() {
        "compute" => Act::Compute,
        "raise" => Act::Raise(words.signal()?),
        "block" => {
            let bits = words.number();
            let blocked = |signal: &Signal| bits >> (signal.number() - 1) & 1 == 1;
            Act::Block(Signal::ALL.iter().copied().filter(blocked).collect::<SignalSet>())
        }
        "enter" => Act::Enter(match words.number() {
            0 => Call::Exit(words.number().try_into().ok()?),
            1 => Call::Fork,
            2 => Call::Vfork,
            3 => Call::Exec,
            4 => Call::ThrNew,
            5 => Call::ThrExit,
            _ => Call::Other(words.number()),
        }),
        _ => Act::Leave,
    })
}

fn rules(words: &mut Words) -> Option<Vec<Rule>> {
    let count = words.number();
    (0..count)
        .map(|_| {
            let (signal, flags) = (words.pass()?, StopFlags::from_pl_flags(words.number())?);
            let (decision, pass) = (words.number(), words.pass()?);
            let decision = match decision {
                0 => Decision::Decline,
                1 => Decision::Leave,
                2 => Decision::Continue(pass),
                3 => Decision::Detach(pass),
                _ => Decision::Kill,
            };
            Some(Rule {
                signal,
                flags,
                decision,
            })
        })
        .collect()
}

fn options(words: &mut Words) -> WaitOptions {
    let bits = words.number();
    let options = [WaitOptions::WNOHANG, WaitOptions::WUNTRACED, WaitOptions::WCONTINUED];
    options
        .into_iter()
        .enumerate()
        .filter(|(place, _)| bits >> place & 1 == 1)
        .map(|(_, option)| option)
        .collect()
}

fn disposition(words: &mut Words) -> Disposition {
    match words.number() {
        0 => Disposition::Default,
        1 => Disposition::Ignore,
        _ => Disposition::Catch,
    }
}

/// Makes the step by a typed call; `None` if the types of the crate don't have it.
fn typed(session: &mut Session, line: &str) -> Option<Answer> {
    let mut words = Words(line.split_ascii_whitespace());
    let (op, user) = (words.word(), words.number());
    let done = |result: Result<(), Error>| result.map(|()| "ok".to_string());
    let printed = |result: Result<tracehost::Reply, Error>| result.map(|reply| reply.to_string());
    if op == "spawn" {
        return Some(session.spawn(user).map(|new| new.to_string()));
    }
    if op == "turn" {
        let lwp = words.number();
        return Some(printed(session.turn(user, lwp, act(&mut words)?)));
    }
    let caller = Caller {
        user,
        pid: words.number(),
    };
    Some(match op {
        "ptrace" => {
            let (request, target) = request(&mut words)?;
            printed(session.ptrace(caller, request, target))
        }
        "wait4" => {
            let which = words.which()?;
            printed(session.wait4(caller, which, options(&mut words)))
        }
        "kill" => {
            let which = words.which()?;
            done(session.kill(caller, which, words.pass()?))
        }
        "sigaction" => {
            let signal = words.signal()?;
            done(session.sigaction(caller, signal, disposition(&mut words)))
        }
        "list" => session.list(caller).map(|pids| {
            pids.iter()
                .fold("pids".to_string(), |line, pid| format!("{line} {pid}"))
        }),
        "install" => done(session.install(caller, &rules(&mut words)?)),
        "handle" => printed(session.handle(caller)),
        _ => return None,
    })
}

/// Makes the steps of a scenario, and returns their lines. Counts the typed calls.
fn replay(folder: &Path, name: &str, calls: &mut usize) -> String {
    let read = |kind: &str| fs::read_to_string(folder.join(format!("{name}.{kind}"))).expect(name);
    let kill_on_debugger_exit = read("setting") == "1";
    let mut session = Session::with_settings(Settings { kill_on_debugger_exit }).expect("memory");
    let mut counts: HashMap<String, u64> = HashMap::new();
    let mut lines = String::new();
    for (call, text) in read("calls").lines().zip(read("text").lines()) {
        let answer = if call.starts_with('{') {
            None
        } else {
            typed(&mut session, call)
        };
        let last = match &answer {
            Some(_) => session.last_line().expect("memory"),
            None => session.line(text).expect("memory"),
        };
        let user = last.split(' ').next().unwrap_or("").to_string();
        let count = counts.entry(user.clone()).or_default();
        *count += 1;
        *calls += usize::from(answer.is_some());
        lines += &answer.map_or(last, |answer| format!("{user} {count} {}", words_of(answer)));
        lines.push('\n');
    }
    lines
}

#[test]
#[ignore = "tests/python/test_rust.py names the folder"]
fn scenarios() {
    let folder = env::var_os("TRACEHOST_WORDS").expect("TRACEHOST_WORDS");
    let folder = Path::new(&folder);
    let (mut scenarios, mut calls) = (0, 0);
    for entry in fs::read_dir(folder).expect("the folder") {
        let path = entry.expect("an entry").path();
        let Some(name) = path.file_name().and_then(|name| name.to_str()?.strip_suffix(".calls")) else {
            continue;
        };
        let wanted = fs::read_to_string(folder.join(format!("{name}.out"))).expect(name);
        assert_eq!(replay(folder, name, &mut calls), wanted, "{name}");
        scenarios += 1;
    }
    println!("{scenarios} scenarios, {calls} typed calls");
    assert!(scenarios > 0 && calls > 0);
}
