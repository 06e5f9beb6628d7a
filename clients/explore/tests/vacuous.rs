//! What a pass says nothing of, since no interleaving has done it.

use std::fs;
use std::time::Duration;
use tracehost::{Act, Call, Error, New, Reply, Request, Session, Signal, State, WaitOptions, WaitStatus, Which};
use tracehost_explore::{explore, unreported_stop, Found, Go, Model, Options, Process, Property, Script, Vacuous};

const USER: u32 = 1001;

fn script(name: &str, own: New, calls: impl Fn(&mut Script)) -> Box<dyn Process> {
    let mut script = Script::new(name, USER, own);
    calls(&mut script);
    Box::new(script)
}

/// One process.
fn alone(calls: fn(&mut Script)) -> Model {
    Model::new("alone", move |host| {
        Ok(vec![script("debugger", host.spawn(USER)?, calls)])
    })
}

fn search(model: &Model) -> Found<'_> {
    let options = Options {
        threads: 1,
        ..Options::default()
    };
    let found = explore(model, &options).expect("a search");
    assert!(found.passed(), "{found}");
    found
}

/// The lines after the first one.
fn told(model: &Model) -> Vec<String> {
    let found = search(model);
    let lines: Vec<String> = found.to_string().lines().skip(1).map(str::to_owned).collect();
    let vacuous: Vec<String> = found.vacuous.iter().map(Vacuous::to_string).collect();
    assert_eq!(lines, vacuous);
    lines
}

#[test]
fn lines_that_no_interleaving_reaches() {
    let model = alone(|script| {
        script.poll(Which::Any, |_, answer| match answer {
            Ok(Reply::Status { .. }) => Ok(Go::On),
            _ => Ok(Go::To("nobody")),
        });
        script.act(Act::Compute); // line 2
        script.call(Call::Other(20));
        script.label("stopped");
        script.raise(Signal::SIGCONT);
        script.label("nobody");
        script.act(Act::Compute);
        script.end();
        script.jump("stopped"); // line 7
        script.label("end");
    });
    let lines = [
        "no interleaving reaches lines 2 to 3 of debugger",
        "no interleaving reaches line 4 of debugger, from \"stopped\" on",
        "no interleaving reaches line 7 of debugger",
        "no interleaving reaches \"end\" of debugger",
    ];
    assert_eq!(told(&model), lines);
    let first = Vacuous::Lines {
        process: "debugger".to_owned(),
        first: 2,
        last: 3,
        label: None,
    };
    assert_eq!(search(&model).vacuous[0], first);
    let reached = alone(|script| {
        script.label("begin");
        script.pause();
        script.label("end");
    });
    let reached = reached.properties([]);
    assert_eq!(
        told(&reached),
        ["no interleaving reaches \"end\" of debugger"],
        "it sleeps for ever"
    );
}

/// Some interleaving is enough: one process is late for the other's end, or isn't.
#[test]
fn lines_that_some_interleaving_reaches() {
    let model = |exits: bool| {
        Model::new("late", move |host| {
            let own = host.spawn(USER)?;
            host.turn(USER, own.lwp, Act::Enter(Call::Fork))?;
            let Reply::New(child) = host.turn(USER, own.lwp, Act::Leave)? else {
                unreachable!("a fork")
            };
            Ok(vec![
                script("parent", own, |script| {
                    script.poll(Which::Any, |_, answer| match answer {
                        Ok(Reply::Nothing) => Ok(Go::To("early")),
                        _ => Ok(Go::On),
                    });
                    script.act(Act::Compute);
                    script.end();
                    script.label("early");
                    script.act(Act::Compute);
                }),
                script("child", child, |script| match exits {
                    true => script.call(Call::Exit(0)),
                    false => script.act(Act::Compute),
                }),
            ])
        })
    };
    assert_eq!(told(&model(true)), [""; 0]);
    assert_eq!(told(&model(false)), ["no interleaving reaches lines 2 to 3 of parent"]);
}

/// Nobody is born with these numbers.
#[test]
fn a_process_that_is_never_born() {
    let model = Model::new("unborn", |_| {
        let nobody = New {
            pid: 1500,
            lwp: 101_000,
        };
        Ok(vec![script("nobody", nobody, |script| script.call(Call::Exit(0)))])
    });
    assert_eq!(told(&model), ["no interleaving reaches line 1 of nobody"]);
}

/// A debugger that attaches to a target, which may have ended before, or always has.
fn attaching(ended: bool) -> Model {
    Model::new("attaching", move |host| {
        let (own, target) = (host.spawn(USER)?, host.spawn(USER)?);
        if ended {
            host.turn(USER, target.lwp, Act::Enter(Call::Exit(0)))?;
            host.turn(USER, target.lwp, Act::Leave)?;
        }
        let on = |answer: &Result<Reply, Error>| if answer.is_ok() { Go::On } else { Go::End };
        Ok(vec![
            script("debugger", own, move |script| {
                script.poll(Which::Any, |_, _| Ok(Go::On)); // ECHILD, which doesn't end it
                script.ptrace_then(Request::Attach, move |_| target.pid, move |_, answer| Ok(on(answer)));
                script.wait_for(Which::Any, WaitOptions::empty(), move |_, answer| Ok(on(answer)));
                script.ptrace_then(Request::Detach(None), move |_| target.pid, |_, _| Ok(Go::On));
            }),
            script("target", target, |script| script.call(Call::Exit(0))),
        ])
    })
}

#[test]
fn a_process_that_always_ends_at_an_errno() {
    let lines = [
        "no interleaving reaches lines 3 to 4 of debugger",
        "debugger ends at an errno whenever it ends",
        "no interleaving reaches line 1 of target",
    ];
    assert_eq!(told(&attaching(true)), lines);
    assert_eq!(told(&attaching(false)), [""; 0]);
}

#[test]
fn properties_that_are_never_asked_for() {
    let stopped = |view: &tracehost::View| {
        let is_stopped = |state| matches!(state, State::TraceStop { .. });
        view.processes.iter().any(|row| is_stopped(row.state))
    };
    let model =
        |ended: bool| attaching(ended).property(Property::leads_to("goes on", stopped, move |view| !stopped(view)));
    assert_eq!(
        told(&model(true)).last().expect("a line"),
        "goes on was asked for in no state"
    );
    assert_eq!(told(&model(false)), [""; 0]);
    let reach = attaching(false).property(Property::can_reach("goes on", move |view| !stopped(view)));
    assert_eq!(told(&reach), [""; 0]);
    let endless = |endless: bool| {
        let model = Model::new("endless", move |host| {
            Ok(vec![script("ticker", host.spawn(USER)?, |script| {
                script.label("tick");
                script.act(Act::Compute);
                if endless {
                    script.jump("tick");
                }
            })])
        });
        model.property(unreported_stop())
    };
    assert_eq!(told(&endless(true)), ["unreported_stop was asked for in no state"]);
    assert_eq!(told(&endless(false)), [""; 0]);
}

/// Equal processes do together what each of them does, and users by themselves what both do.
#[test]
fn what_one_does_for_others() {
    let model = Model::new("equal", |host| {
        let own = host.spawn(USER)?;
        let mut processes = vec![script("parent", own, |script| {
            script.wait_for(Which::Any, WaitOptions::empty(), |place, answer| match answer {
                Ok(Reply::Status { pid, .. }) => {
                    place.numbers[0] = *pid;
                    Ok(Go::On)
                }
                answer => Err(format!("{answer:?}")),
            });
            script.ptrace_then(Request::Continue(None), |place| place.numbers[0], |_, _| Ok(Go::End));
        })];
        for _ in 0..3 {
            host.turn(USER, own.lwp, Act::Enter(Call::Fork))?;
            let Reply::New(child) = host.turn(USER, own.lwp, Act::Leave)? else {
                unreachable!("a fork")
            };
            let caller = tracehost::Caller {
                user: USER,
                pid: child.pid,
            };
            host.ptrace(caller, Request::TraceMe, 0)?;
            let mut target = Script::new("target", USER, child);
            target.raise(Signal::SIGUSR1);
            target.act(Act::Compute);
            target.exchange(1);
            processes.push(Box::new(target));
        }
        Ok(processes)
    });
    let model = model.properties([]);
    for symmetric in [false, true] {
        let options = Options {
            symmetric,
            ..Options::default()
        };
        let found = explore(&model, &options).expect("a search");
        assert!(found.passed() && found.vacuous.is_empty(), "{symmetric}: {found}");
    }
}

fn both(host: &mut Session) -> Result<Vec<Box<dyn Process>>, Error> {
    let mut processes: Vec<Box<dyn Process>> = Vec::new();
    for user in [1001, 1002] {
        let mut script = Script::new(format!("process of {user}"), user, host.spawn(user)?);
        for _ in 0..20 {
            script.act(Act::Compute);
        }
        if user == 1002 {
            script.end();
        }
        script.act(Act::Compute);
        processes.push(Box::new(script));
    }
    Ok(processes)
}

/// Also of a search that goes on, of users at once, and of threads; and nothing of one that isn't finished.
#[test]
fn the_same_however_it_is_searched() {
    let folder = std::env::temp_dir().join(format!("tracehost-explore-vacuous-{}", std::process::id()));
    fs::create_dir_all(&folder).expect("a folder");
    let asked = || Property::leads_to("exits", |view| view.processes.is_empty(), |_| true);
    let running = || {
        Property::always("runs", |view| match view.processes[..] {
            [row] if row.state == State::Zombie(WaitStatus::Exited(0)) => Err("it has ended".to_owned()),
            _ => Ok(()),
        })
    };
    let model = Model::new("both", both).property(asked()).property(running());
    let lines = [
        "no interleaving reaches line 22 of process of 1002",
        "exits was asked for in no state",
    ];
    assert_eq!(told(&model), lines);
    for (threads, together) in [(3, false), (1, true), (3, true)] {
        let saved = Options {
            threads,
            together,
            checkpoint: Some(folder.join(format!("search {threads} {together}"))),
            every: Duration::ZERO,
            resume: true,
            ..Options::default()
        };
        let cut = explore(
            &model,
            &Options {
                limit: 30,
                ..saved.clone()
            },
        )
        .expect("a search");
        assert!(!cut.passed() && cut.vacuous.is_empty());
        let found = explore(&model, &saved).expect("a search");
        let told: Vec<String> = found.vacuous.iter().map(Vacuous::to_string).collect();
        assert_eq!(told, lines, "{threads} threads");
    }
    fs::remove_dir_all(folder).expect("removed");
}
