//! Properties, orders of waits, and what models may do wrong.

use tracehost::{
    Act, Call, Errno, Error, New, Reply, Request, Session, Settings, Signal, State, WaitOptions, WaitStatus, Which,
};
use tracehost_explore::{
    deadlock, ended_by_signal, explore, unreported_stop, Error as Why, Found, Go, Model, Next, Options, Process,
    Property, Script, Step, When,
};

const USER: u32 = 1001;

fn two(host: &mut Session) -> Result<[New; 2], Error> {
    Ok([host.spawn(USER)?, host.spawn(USER)?])
}

fn script(name: &str, own: New, calls: impl Fn(&mut Script)) -> Box<dyn Process> {
    let mut script = Script::new(name, USER, own);
    calls(&mut script);
    Box::new(script)
}

fn search(model: &Model) -> Found<'_> {
    let options = Options {
        threads: 1,
        ..Options::default()
    };
    explore(model, &options).expect("a search")
}

/// The property that fails, what is wrong, and after how many steps.
fn failure(model: &Model) -> Option<(String, String, usize)> {
    let found = search(model);
    assert!(found.is_finished);
    found
        .failure
        .map(|failure| (failure.property, failure.why, found.trace.len()))
}

fn told(property: &str, why: &str, steps: usize) -> Option<(String, String, usize)> {
    Some((property.to_owned(), why.to_owned(), steps))
}

#[test]
fn a_stop_that_nobody_asks_for() {
    let attaching = |waits: bool| {
        let model = Model::new("attaching", move |host| {
            let [debugger, target] = two(host)?;
            Ok(vec![script("debugger", debugger, |script| {
                script.ptrace(Request::Attach, target.pid);
                if waits {
                    script.wait(target.pid, |_, _| Ok(Go::On));
                }
            })])
        });
        model.property(unreported_stop())
    };
    let why = "no wait has reported the stop of 1001 by SIGSTOP, and none will";
    assert_eq!(failure(&attaching(false)), told("unreported_stop", why, 1));
    assert_eq!(failure(&attaching(true)), None);
}

/// Also processes that process 1 collects at once.
#[test]
fn processes_that_signals_end() {
    let ending = |calls: fn(&mut Script, New)| {
        let model = Model::new("ending", move |host| {
            let [first, second] = two(host)?;
            Ok(vec![script("first", first, |script| calls(script, second))])
        });
        model.property(ended_by_signal())
    };
    let by = |calls| failure(&ending(calls));
    let first = told("ended_by_signal", "1000 was ended by a signal", 2);
    assert_eq!(by(|script, _| script.raise(Signal::SIGTERM)), first);
    let second = told("ended_by_signal", "1001 was ended by a signal", 1);
    assert_eq!(by(|script, second| script.kill(second.pid, Signal::SIGKILL)), second);
    // the end of a tracer
    let tracee = by(|script, second| {
        script.ptrace(Request::Attach, second.pid);
        script.call(Call::Exit(0));
    });
    assert_eq!(
        tracee.map(|(property, _, steps)| (property, steps)),
        Some(("ended_by_signal".to_owned(), 3))
    );
    assert_eq!(by(|script, _| script.call(Call::Exit(0))), None);
}

#[test]
fn a_child_that_a_signal_ends() {
    let model = Model::new("child", |host| {
        let parent = host.spawn(USER)?;
        host.turn(USER, parent.lwp, Act::Enter(Call::Fork))?;
        host.turn(USER, parent.lwp, Act::Leave)?;
        Ok(vec![script("parent", parent, |script| {
            script.kill(1001, Signal::SIGKILL)
        })])
    });
    assert_eq!(failure(&model), None);
    let model = model.properties([ended_by_signal()]);
    assert_eq!(failure(&model), told("ended_by_signal", "1001 was ended by SIGKILL", 1));
}

#[test]
fn properties_of_ones_own() {
    let forking = || {
        Model::new("forking", |host| {
            let own = host.spawn(USER)?;
            Ok(vec![script("parent", own, |script| {
                script.call(Call::Fork);
                script.call(Call::Fork);
            })])
        })
    };
    let few = |most: usize| {
        move |view: &tracehost::View| match view.processes.len() {
            count if count <= most => Ok(()),
            count => Err(format!("{count} processes")),
        }
    };
    assert_eq!(
        failure(&forking().property(Property::always("few", few(2)))),
        told("few", "3 processes", 4)
    );
    assert_eq!(
        failure(&forking().property(Property::always("few", few(0)))),
        told("few", "1 processes", 0)
    );
    assert_eq!(failure(&forking().property(Property::always("few", few(3)))), None);
    assert_eq!(
        failure(&forking().property(Property::at_end("few", few(2)))),
        told("few", "3 processes", 4)
    );
    assert_eq!(failure(&forking().property(Property::at_end("few", few(3)))), None);
    assert_eq!(failure(&forking().properties([])), None);
}

/// A wait for any child reports each that has news, in either order.
#[test]
fn a_wait_for_any_has_no_order() {
    for unlucky in 0..2 {
        let model = Model::new("waiting", move |host| {
            let [debugger, first] = two(host)?;
            let targets = [first, host.spawn(USER)?];
            let caller = tracehost::Caller {
                user: USER,
                pid: debugger.pid,
            };
            for target in targets {
                host.ptrace(caller, Request::Attach, target.pid)?;
            }
            Ok(vec![script("debugger", debugger, |script| {
                let pid = targets[unlucky].pid;
                script.wait_for(Which::Any, WaitOptions::empty(), move |_, answer| match answer {
                    Ok(Reply::Status { pid: got, .. }) if *got == pid => Err(format!("{pid} first")),
                    _ => Ok(Go::On),
                });
            })])
        });
        let pid = 1001 + unlucky;
        assert_eq!(failure(&model), told("assertion", &format!("debugger: {pid} first"), 1));
    }
}

/// A debugger blocks in a wait for a process that runs, which is a deadlock, and not with WNOHANG or without a child.
#[test]
fn what_a_wait_comes_to() {
    let waiting = |calls: fn(&mut Script)| {
        Model::new("waiting", move |host| {
            let parent = host.spawn(USER)?;
            host.turn(USER, parent.lwp, Act::Enter(Call::Fork))?;
            host.turn(USER, parent.lwp, Act::Leave)?;
            Ok(vec![script("parent", parent, calls)])
        })
    };
    let wait = waiting(|script| script.wait(1001, |_, _| Ok(Go::On)));
    assert_eq!(failure(&wait), told("deadlock", "parent waits: 1000 wait4(1001)", 0));
    let any = waiting(|script| script.wait_for(Which::Any, WaitOptions::empty(), |_, _| Ok(Go::On)));
    assert_eq!(failure(&any), told("deadlock", "parent waits: 1000 wait4(-1)", 0));
    let nothing = |script: &mut Script| {
        script.poll(Which::Any, |_, answer| match answer {
            Ok(Reply::Nothing) => Ok(Go::On),
            answer => Err(format!("{answer:?}")),
        });
    };
    assert_eq!(failure(&waiting(nothing)), None);
    let nobody = |script: &mut Script| {
        script.wait_for(Which::Process(1000), WaitOptions::empty(), |_, answer| match answer {
            Err(Error::Errno(Errno::ECHILD)) => Ok(Go::On),
            answer => Err(format!("{answer:?}")),
        });
    };
    assert_eq!(failure(&waiting(nobody)), None);
}

/// A process that another has killed has ended, and one that is never born never goes on: neither is a deadlock.
#[test]
fn who_is_not_there_is_not_waited_for() {
    let model = Model::new("gone", |host| {
        let [first, second] = two(host)?;
        let never = New {
            pid: 1500,
            lwp: 101_000,
        };
        Ok(vec![
            script("first", first, |script| script.kill(second.pid, Signal::SIGKILL)),
            script("second", second, |script| {
                script.pause();
                script.wait_for(Which::Any, WaitOptions::empty(), |_, _| {
                    Err("it has come back".to_owned())
                });
            }),
            script("never", never, |script| script.call(Call::Exit(0))),
        ])
    });
    assert_eq!(failure(&model), None);
}

#[test]
fn memory_that_processes_share() {
    let model = |writes: bool| {
        Model::new("memory", move |host| {
            let [first, second] = two(host)?;
            Ok(vec![
                script("first", first, |script| {
                    script.act(Act::Compute);
                    if writes {
                        script.also(|memory| memory[0] = 1);
                    }
                }),
                script("second", second, |script| {
                    script.poll(Which::Any, |_, _| Ok(Go::On));
                    script.once(0, 1);
                }),
            ])
        })
    };
    assert_eq!(failure(&model(true)), None);
    assert_eq!(failure(&model(false)), told("deadlock", "second waits for memory", 1));
}

#[test]
fn settings_are_those_of_the_model() {
    let model = |kills: bool| {
        let model = Model::new("settings", |host| {
            let [tracer, target] = two(host)?;
            Ok(vec![script("tracer", tracer, |script| {
                script.ptrace(Request::Attach, target.pid);
                script.call(Call::Exit(0));
            })])
        });
        model.settings(Settings {
            kill_on_debugger_exit: kills,
        })
    };
    let lives = |model: Model| {
        let property = Property::at_end("lives", |view| match view.process(1001).map(|row| row.state) {
            Some(State::Running) => Ok(()),
            state => Err(format!("{state:?}")),
        });
        failure(&model.property(property)).is_none()
    };
    assert!(lives(model(false)));
    assert!(!lives(model(true)));
}

#[test]
fn a_world_that_cannot_be_set_up() {
    let model = Model::new("none", |host| {
        host.list(tracehost::Caller { user: USER, pid: 9 }).map(|_| Vec::new())
    });
    assert!(matches!(
        explore(&model, &Options::default()),
        Err(Why::Session(Error::Errno(Errno::ESRCH)))
    ));
}

#[test]
fn a_script_of_256_processes() {
    let model = Model::new("many", |host| {
        let own = host.spawn(USER)?;
        Ok((0..256).map(|_| script("one", own, |_| ())).collect())
    });
    let refused = explore(&model, &Options::default()).err().map(|why| why.to_string());
    assert_eq!(refused.as_deref(), Some("a model has at most 255 processes"));
}

/// A property that panics ends the search, whichever thread has asked it.
#[test]
fn a_model_without_processes() {
    let model = Model::new("nobody", |_| Ok(Vec::new()));
    let refused = explore(&model, &Options::default()).err().map(|why| why.to_string());
    assert_eq!(refused.as_deref(), Some("a model has a process at least"));
}

/// A search looks at the rows of its processes' user, which a step of another user doesn't change.
#[test]
fn a_step_of_another_user() {
    const OTHER: u32 = 1002;
    for together in [false, true] {
        let model = Model::new("foreign", |host| {
            let (own, foreign) = (host.spawn(USER)?, host.spawn(OTHER)?);
            let turn = move |act| Next::Step(Step::Turn(OTHER, foreign.lwp, act), When::Runs);
            let other = Script::new("other", OTHER, foreign);
            let first = script("first", own, |script| {
                script.step(move |_, _| turn(Act::Raise(Signal::SIGUSR1)), |_, _, _| Ok(Go::On));
                script.step(
                    move |_, _| turn(Act::Compute),
                    |_, _, answer| match answer {
                        Ok(Reply::Ended(_)) => Err("it has ended".to_owned()),
                        _ => Ok(Go::On),
                    },
                );
            });
            Ok(vec![first, Box::new(other)])
        });
        for threads in [1, 2] {
            let options = Options {
                together,
                threads,
                ..Options::default()
            };
            let refused = explore(&model, &options).err().map(|why| why.to_string());
            let why = "first: 104000 Raise(SIGUSR1) is a step of user 1002, and it is a process of 1001";
            assert_eq!(refused.as_deref(), Some(why));
        }
    }
}

#[test]
fn a_panic_ends_the_search() {
    let race = tracehost_explore::models::Race::named("stop_lost_at_detach").expect("a race");
    let panics = Property::always("panics", |view| {
        assert!(
            view.processes
                .iter()
                .all(|row| !matches!(row.state, State::Zombie(WaitStatus::Exited(_)))),
            "an end"
        );
        Ok(())
    });
    let model = race.model(true, 1, 4).properties([deadlock(), panics]);
    let options = Options {
        threads: 4,
        ..Options::default()
    };
    let ended = std::panic::catch_unwind(std::panic::AssertUnwindSafe(|| explore(&model, &options).is_ok()));
    assert!(ended.is_err());
}
