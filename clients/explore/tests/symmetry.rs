//! Equal processes: fewer states, and the verdict of the search without exchanges.

mod common;

use common::Random;
use std::fs;
use std::time::Duration;
use tracehost::{
    Act, Call, Caller, Disposition, Error, Mode, New, Reply, Request, Session, Signal, State, View, WaitOptions,
    WaitStatus, Which,
};
use tracehost_explore::models::TRACEES;
use tracehost_explore::{deadlock, explore, Error as Why, Found, Go, Model, Options, Process, Property, Script, Step};

const USER: u32 = 1001;
const AT_HAND: usize = 0;

fn search(model: &Model, symmetric: bool, threads: usize) -> Found<'_> {
    let options = Options {
        threads,
        symmetric,
        ..Options::default()
    };
    explore(model, &options).expect("a search")
}

fn choose(from: u64, count: u64) -> u64 {
    (1..=count).fold(1, |product, n| product * (from + 1 - n) / n)
}

/// A target is in one of 12 states, or in one of 2 while the debugger has it at hand, which is one target at most. So many
/// states there are in order, and so many without.
#[test]
fn equal_targets_are_counted_once() {
    for count in 1..=5u64 {
        let model = TRACEES.model(true, 1, count as u8);
        let without = choose(11 + count, count) + 2 * choose(10 + count, count - 1);
        for threads in [1, 3] {
            let found = search(&model, true, threads);
            assert!(found.passed());
            assert_eq!(found.states, without, "{count} targets, {threads} threads");
        }
        if count <= 4 {
            let found = search(&model, false, 1);
            assert!(found.passed());
            assert_eq!(found.states, 12u64.pow(count as u32 - 1) * (12 + 2 * count));
        }
    }
}

fn fork(host: &mut Session, parent: New) -> Result<New, Error> {
    host.turn(USER, parent.lwp, Act::Enter(Call::Fork))?;
    match host.turn(USER, parent.lwp, Act::Leave)? {
        Reply::New(child) => Ok(child),
        reply => unreachable!("{reply}"),
    }
}

/// A debugger, and so many children, which it traces if they are to be traced.
fn family(host: &mut Session, count: u32, traced: bool) -> Result<(New, Vec<New>), Error> {
    let debugger = host.spawn(USER)?;
    let mut children = Vec::new();
    for _ in 0..count {
        let child = fork(host, debugger)?;
        if traced {
            let caller = Caller {
                user: USER,
                pid: child.pid,
            };
            host.ptrace(caller, Request::TraceMe, 0)?;
        }
        children.push(child);
    }
    Ok((debugger, children))
}

/// The children raise SIGUSR1 and exit. The debugger waits for any, so often, and continues those that have stopped, if it
/// should.
fn model(count: u32, waits: u8, continues: bool) -> Model {
    Model::new(format!("{count} targets, {waits} waits"), move |host| {
        let (own, children) = family(host, count, true)?;
        let mut debugger = Script::new("debugger", USER, own);
        debugger.remember(0, waits);
        debugger.label("wait");
        debugger.jump_if(0, 0, "end");
        debugger.wait_for(Which::Any, WaitOptions::empty(), move |place, answer| {
            place.bytes[0] -= 1;
            match answer {
                Ok(Reply::Status {
                    pid,
                    status: WaitStatus::Stopped(_),
                }) if continues => {
                    place.numbers[AT_HAND] = *pid;
                    Ok(Go::On)
                }
                Ok(Reply::Status { .. }) => Ok(Go::To("wait")),
                answer => Err(format!("{answer:?}")),
            }
        });
        debugger.ptrace_then(
            Request::Continue(None),
            |place| place.numbers[AT_HAND],
            |place, _| {
                place.numbers[AT_HAND] = 0;
                Ok(Go::To("wait"))
            },
        );
        debugger.label("end");
        let mut processes: Vec<Box<dyn Process>> = vec![Box::new(debugger)];
        for child in children {
            let mut target = Script::new(format!("target {}", child.pid), USER, child);
            target.raise(Signal::SIGUSR1);
            target.call(Call::Exit(0));
            target.exchange(1);
            processes.push(Box::new(target));
        }
        Ok(processes)
    })
}

fn few_stopped(most: usize) -> Property {
    Property::always("few stopped", move |view| {
        let is_stopped = |state| matches!(state, State::TraceStop { told: true, .. });
        match view.processes.iter().filter(|row| is_stopped(row.state)).count() {
            count if count <= most => Ok(()),
            count => Err(format!("{count} have stopped")),
        }
    })
}

/// The same verdict, and if it is a failure, the same property after as many steps, in a trace of steps that replays.
#[test]
fn the_verdict_is_that_without_exchanges() {
    let folder = std::env::temp_dir().join(format!("tracehost-explore-symmetry-{}", std::process::id()));
    fs::create_dir_all(&folder).expect("a folder");
    let (mut passed, mut failed) = (0, 0);
    for count in 2..=4 {
        let models = [
            model(count, 2 * count as u8, true),
            model(count, 2 * count as u8 - 1, true), // one target is not collected, which is no failure
            model(count, count as u8 + 1, true),     // one stays stopped, perhaps
            model(count, 2 * count as u8 + 1, true), // a wait for nobody
            model(count, count as u8, false),
            model(count, count as u8, false).properties([few_stopped(count as usize - 1)]),
            model(count, 2 * count as u8, true).properties([deadlock(), few_stopped(1)]),
        ];
        for model in models {
            let plain = search(&model, false, 1);
            let first = search(&model, true, 1);
            assert_eq!(first.passed(), plain.passed(), "{plain}\n{first}");
            assert_eq!(first.trace.len(), plain.trace.len(), "{plain}\n{first}");
            let property = |found: &Found| found.failure.as_ref().map(|failure| failure.property.clone());
            assert_eq!(property(&first), property(&plain));
            assert!(first.states < plain.states);
            let third = search(&model, true, 3);
            assert_eq!((third.states, third.transitions), (first.states, first.transitions));
            assert_eq!((&third.trace, &third.failure), (&first.trace, &first.failure));
            match first.failure {
                Some(_) => drop(first.save(folder.join("race.json")).expect("a trace that replays")),
                None => passed += 1,
            }
            failed += usize::from(first.failure.is_some());
        }
    }
    assert!(passed >= 6 && failed >= 9, "{passed} have passed, {failed} have failed");
    fs::remove_dir_all(folder).expect("removed");
}

#[test]
fn a_search_goes_on() {
    let folder = std::env::temp_dir().join(format!("tracehost-explore-exchange-{}", std::process::id()));
    fs::create_dir_all(&folder).expect("a folder");
    let options = |limit, threads, symmetric| Options {
        limit,
        threads,
        symmetric,
        checkpoint: Some(folder.join("search")),
        every: Duration::ZERO,
        resume: true,
        ..Options::default()
    };
    for model in [
        TRACEES.model(true, 1, 4),
        model(4, 4, false).properties([few_stopped(3)]),
    ] {
        let _ = fs::remove_file(folder.join("search.1001"));
        let whole = search(&model, true, 1);
        let part = explore(&model, &options(whole.states / 2, 2, true)).expect("a search");
        assert!(!part.is_finished);
        let found = explore(&model, &options(u64::MAX, 3, true)).expect("a search");
        assert_eq!((found.states, found.transitions), (whole.states, whole.transitions));
        assert_eq!((found.trace, found.failure), (whole.trace, whole.failure));
        let other = explore(&model, &options(u64::MAX, 1, false))
            .err()
            .map(|why| why.to_string());
        assert!(other
            .expect("another search")
            .contains("it is of another search: the start is "));
    }
    fs::remove_dir_all(folder).expect("removed");
}

fn pair(change: impl Fn(&mut Session, &[New], &mut [Script]) + Send + Sync + 'static) -> Model {
    Model::new("pair", move |host| {
        let (_, children) = family(host, 2, false)?;
        let mut scripts: Vec<Script> = children
            .iter()
            .map(|child| Script::new(format!("child {}", child.pid), USER, *child))
            .collect();
        for script in &mut scripts {
            script.exchange(0);
            script.act(Act::Compute);
        }
        change(host, &children, &mut scripts);
        Ok(scripts
            .into_iter()
            .map(|script| Box::new(script) as Box<dyn Process>)
            .collect())
    })
}

#[test]
fn what_cannot_be_exchanged() {
    let options = Options {
        symmetric: true,
        ..Options::default()
    };
    let refusal = |model: &Model| match explore(model, &options) {
        Err(Why::Model(why)) => why,
        Err(why) => panic!("{why}"),
        Ok(found) => panic!("{found}"),
    };
    let unlike = "child 1001 and child 1002 aren't alike at the start";
    assert_eq!(refusal(&pair(|_, _, scripts| scripts[1].remember(0, 1))), unlike);
    let raised = pair(|host, children, _| {
        host.turn(USER, children[0].lwp, Act::Raise(Signal::SIGUSR1))
            .expect("a turn");
    });
    assert_eq!(refusal(&raised), unlike);
    assert!(explore(&pair(|_, _, _| ()), &options).expect("a search").passed());
    let handling = pair(|_, _, scripts| {
        for script in scripts {
            let caller = script.caller();
            script.step(
                move |_, _| tracehost_explore::Next::Step(Step::Handle(caller), tracehost_explore::When::Runs),
                |_, _, _| Ok(Go::On),
            );
        }
    });
    let ordered = "child 1001: 1001 handle() depends on the order of numbers";
    assert_eq!(refusal(&handling), ordered);
}

/// The numbers of two of the children, exchanged.
fn other(number: u32, pair: [New; 2]) -> u32 {
    let [a, b] = pair;
    let numbers = [(a.pid, b.pid), (b.pid, a.pid), (a.lwp, b.lwp), (b.lwp, a.lwp)];
    numbers
        .iter()
        .find(|(from, _)| *from == number)
        .map_or(number, |(_, to)| *to)
}

/// The user's rows after the exchange, by rising number.
fn exchanged(mut view: View, pair: [New; 2]) -> View {
    let other = |number| other(number, pair);
    for row in &mut view.processes {
        (row.pid, row.parent, row.tracer) = (other(row.pid), other(row.parent), row.tracer.map(other));
        if let State::TraceStop { lwp, .. } = &mut row.state {
            *lwp = other(*lwp);
        }
    }
    for row in &mut view.lwps {
        (row.lwp, row.pid, row.child) = (other(row.lwp), other(row.pid), other(row.child));
        if let Mode::Vfork { child } = &mut row.mode {
            *child = other(*child);
        }
    }
    view.processes.sort_by_key(|row| row.pid);
    view.lwps.sort_by_key(|row| row.lwp);
    view
}

fn exchanged_answer(answer: Result<Reply, Error>, pair: [New; 2]) -> Result<Reply, Error> {
    answer.map(|reply| match reply {
        Reply::Status { pid, status } => Reply::Status {
            pid: other(pid, pair),
            status,
        },
        Reply::New(New { pid, lwp }) => Reply::New(New {
            pid: other(pid, pair),
            lwp,
        }),
        Reply::Stopped { lwp, signal, flags } => Reply::Stopped {
            lwp: other(lwp, pair),
            signal,
            flags,
        },
        reply => reply,
    })
}

const SIGNALS: [Signal; 4] = [Signal::SIGUSR1, Signal::SIGSTOP, Signal::SIGCONT, Signal::SIGKILL];

/// A step of a process of the family, or of the LWP of one. Its numbers are given by `of`.
fn step(random: &mut Random, own: New, children: &[New], of: impl Fn(u32) -> u32) -> [Step; 2] {
    let all: Vec<New> = children.iter().copied().chain([own]).collect();
    let (one, target) = (random.one_of(&all), random.one_of(children).pid);
    let (signal, kind) = (random.one_of(&SIGNALS), random.below(10));
    let acts = [
        Act::Compute,
        Act::Raise(signal),
        Act::Enter(random.one_of(&[Call::Fork, Call::Exit(3), Call::Exec, Call::ThrNew, Call::Vfork])),
        Act::Leave,
        Act::Leave,
    ];
    let (act, caller) = (
        random.one_of(&acts),
        if random.below(3) > 0 { own.pid } else { one.pid },
    );
    let request = random.one_of(&[
        Request::Attach,
        Request::Continue(None),
        Request::Continue(Some(signal)),
        Request::Detach(None),
        Request::FollowFork(true),
        Request::Kill,
    ]);
    let make = |of: &dyn Fn(u32) -> u32| {
        let caller = Caller {
            user: USER,
            pid: of(caller),
        };
        match kind {
            0..=4 => Step::Turn(USER, of(one.lwp), act),
            5..=6 => Step::Ptrace(caller, request, of(target)),
            7 => Step::Wait4(
                caller,
                Which::Process(of(target)),
                WaitOptions::WUNTRACED | WaitOptions::WCONTINUED,
            ),
            8 => match signal {
                Signal::SIGUSR1 => Step::Kill(caller, Which::Any, Some(signal)),
                signal => Step::Kill(caller, Which::Process(of(target)), Some(signal)),
            },
            _ => Step::Sigaction(caller, Signal::SIGUSR1, Disposition::Catch),
        }
    };
    [make(&|number| number), make(&of)]
}

/// What a search with exchanges trusts in, tried: a walk, and the same with two children exchanged, have answers and rows that
/// differ by the exchange.
#[test]
fn children_may_be_exchanged() {
    let mut random = Random(0x5eed);
    let mut changed = 0;
    for walk in 0..1000 {
        let mut sessions = [Session::new().expect("memory"), Session::new().expect("memory")];
        let (own, children) = family(&mut sessions[0], 3, walk % 2 == 0).expect("a family");
        family(&mut sessions[1], 3, walk % 2 == 0).expect("a family");
        let pair = [children[walk / 2 % 2], children[2]];
        for _ in 0..30 {
            let steps = step(&mut random, own, &children, |number| other(number, pair));
            let [first, second] = &mut sessions;
            let before = first.view(USER).expect("memory");
            let answer = steps[0].make(first);
            let same = exchanged_answer(steps[1].make(second), pair);
            assert_eq!(answer, same, "{steps:?}");
            let view = first.view(USER).expect("memory");
            changed += usize::from(view != before);
            let plain = exchanged(view, [own, own]);
            assert_eq!(plain, exchanged(second.view(USER).expect("memory"), pair), "{steps:?}");
        }
    }
    assert!(changed > 5_000, "{changed} steps have changed rows");
}
