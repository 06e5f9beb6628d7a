//! Processes that never go on although others do, and processes that go round and change nothing.

use std::fs;
use std::time::Duration;
use tracehost::{Act, Call, Error, New, Reply, Session, Which};
use tracehost_explore::models::{Race, ALL, TRACEES};
use tracehost_explore::{deadlock, explore, Found, Go, Model, Options, Process, Script};

const USER: u32 = 1001;

fn script(name: &str, own: New, calls: impl Fn(&mut Script)) -> Box<dyn Process> {
    let mut script = Script::new(name, USER, own);
    calls(&mut script);
    Box::new(script)
}

/// A process that goes round for ever.
fn round(host: &mut Session, calls: fn(&mut Script)) -> Result<Box<dyn Process>, Error> {
    Ok(script("ticker", host.spawn(USER)?, |script| {
        script.label("tick");
        calls(script);
        script.jump("tick");
    }))
}

fn compute(script: &mut Script) {
    script.act(Act::Compute);
}

/// It changes what the user sees.
fn call(script: &mut Script) {
    script.call(Call::Other(20));
}

fn poll(script: &mut Script, which: Which) {
    script.label("poll");
    script.poll(which, |_, answer| match answer {
        Ok(Reply::Status { .. }) => Ok(Go::End),
        _ => Ok(Go::On),
    });
}

fn options() -> Options {
    Options {
        threads: 1,
        ..Options::default()
    }
}

fn search(model: &Model) -> Found<'_> {
    explore(model, &options()).expect("a search")
}

/// What is found, in the first line.
fn told(model: &Model) -> String {
    search(model).to_string().lines().next().expect("a line").to_owned()
}

#[test]
fn a_pause_that_nobody_ends_beside_a_loop() {
    for calls in [compute, call] {
        let model = Model::new("pause", move |host| {
            let own = host.spawn(USER)?;
            Ok(vec![script("debugger", own, Script::pause), round(host, calls)?])
        });
        let found = search(&model);
        let lines = [
            "stuck: debugger waits for ever, while others go on: 100000 Leave, after 1 steps",
            "   1 debugger: 100000 Enter(Other(29)) -> ok",
        ];
        assert_eq!(found.to_string(), lines.join("\n"));
        assert!(
            search(&model.properties([deadlock()])).passed(),
            "only that is asked for"
        );
    }
}

/// Also beside others, and with a turn in the loop.
#[test]
fn a_poll_that_never_gets_anything() {
    let polling = |own: New, computes: bool| {
        script("debugger", own, move |script| {
            poll(script, Which::Any);
            if computes {
                script.act(Act::Compute);
            }
            script.jump("poll");
        })
    };
    for computes in [false, true] {
        let polls = Model::new("poll", move |host| Ok(vec![polling(host.spawn(USER)?, computes)]));
        let why = "no_progress: debugger goes round for ever, and its calls change nothing: 1000 wait4(-1, WNOHANG)";
        assert_eq!(told(&polls), format!("{why}, after 0 steps"));
        for calls in [compute, call] {
            let beside = Model::new("poll", move |host| {
                Ok(vec![polling(host.spawn(USER)?, computes), round(host, calls)?])
            });
            assert_eq!(told(&beside), format!("{why}, after 0 steps"));
        }
    }
}

/// A process, and its child.
fn parent(host: &mut Session) -> Result<(New, New), Error> {
    let own = host.spawn(USER)?;
    host.turn(USER, own.lwp, Act::Enter(Call::Fork))?;
    match host.turn(USER, own.lwp, Act::Leave)? {
        Reply::New(child) => Ok((own, child)),
        reply => unreachable!("{reply}"),
    }
}

/// A poll gets on if some interleaving satisfies it, and so does a wait: if the child ends some time, but not if it never does.
#[test]
fn who_waits_for_a_child() {
    let waiting = |waits: fn(&mut Script, Which), ends: bool| {
        Model::new("child", move |host| {
            let (own, child) = parent(host)?;
            Ok(vec![
                script("parent", own, |script| {
                    waits(script, Which::Process(child.pid));
                    script.jump("poll");
                }),
                script("child", child, |script| {
                    script.label("again");
                    script.act(Act::Compute);
                    if ends {
                        script.call(Call::Exit(0));
                    }
                    script.jump("again");
                }),
                round(host, compute)?,
            ])
        })
    };
    fn wait(script: &mut Script, which: Which) {
        script.label("poll");
        script.wait_for(which, tracehost::WaitOptions::empty(), |_, _| Ok(Go::End));
    }
    for waits in [poll, wait] {
        assert!(told(&waiting(waits, true)).starts_with("all interleavings passed: "));
    }
    let why = "no_progress: parent goes round for ever, and its calls change nothing: 1000 wait4(1001, WNOHANG)";
    assert_eq!(told(&waiting(poll, false)), format!("{why}, after 0 steps"));
    let why = "stuck: parent waits for ever, while others go on: 1000 wait4(1001)";
    assert_eq!(told(&waiting(wait, false)), format!("{why}, after 0 steps"));
}

/// Nor is one that polls once in vain, and then computes.
#[test]
fn an_endless_process_is_no_failure() {
    let all: [fn(&mut Script); 2] = [compute, call];
    for calls in all {
        let alone = Model::new("ticker", move |host| Ok(vec![round(host, calls)?]));
        assert!(search(&alone).passed());
        let after = Model::new("ticker", move |host| {
            let own = host.spawn(USER)?;
            Ok(vec![script("ticker", own, |script| {
                poll(script, Which::Any);
                script.label("tick");
                calls(script);
                script.jump("tick");
            })])
        });
        assert!(search(&after).passed(), "{}", search(&after));
    }
}

/// A process that waits now and then for another, which answers for ever. In each round the search comes back to where it was.
#[test]
fn endless_processes_that_wait_for_each_other() {
    let serving = |stops: bool| {
        Model::new("server", move |host| {
            let (server, client) = (host.spawn(USER)?, host.spawn(USER)?);
            let turn = |script: &mut Script, from: u8, to: u8| {
                script.act(Act::Compute);
                script.once(0, from);
                script.also(move |memory| memory[0] = to);
            };
            Ok(vec![
                script("server", server, |script| {
                    script.label("serve");
                    turn(script, 1, 0);
                    script.jump("serve");
                }),
                script("client", client, |script| {
                    script.label("ask");
                    turn(script, 0, 1);
                    if stops {
                        script.poll(Which::Any, |_, _| Ok(Go::On));
                        turn(script, 0, 2);
                        script.end();
                    }
                    script.jump("ask");
                }),
                round(host, compute)?,
            ])
        })
    };
    assert!(search(&serving(false)).passed());
    // once the only question is answered
    let why = "stuck: server waits for ever, while others go on: 100000 Compute";
    assert_eq!(told(&serving(true)), format!("{why}, after 2 steps"));
}

/// What is found otherwise is found too, and a remedy still passes, and nothing of it is vacuous.
#[test]
fn races_beside_a_process_that_computes() {
    for race in ALL {
        for users in [1, 2] {
            let found = search(&race.beside(false, users, race.size, true)).failure;
            let property = found.expect(race.name).property;
            let alone = search(&race.model(false, users, race.size))
                .failure
                .expect(race.name)
                .property;
            let expected = if alone == "deadlock" { "stuck" } else { &alone };
            assert_eq!(property, expected, "{}", race.name);
            assert!(
                !search(&race.beside(false, 1, race.size, true).properties([deadlock()])).passed()
                    || alone == "deadlock"
            );
        }
    }
    for race in ALL.iter().chain([&TRACEES]) {
        let remedy = race.beside(true, 1, race.size, true);
        let found = search(&remedy);
        assert!(found.passed() && found.vacuous.is_empty(), "{}: {found}", race.name);
        let alone = race.model(true, 1, race.size);
        let alone = search(&alone);
        assert!(alone.passed() && alone.vacuous.is_empty(), "{}: {alone}", race.name);
        assert_eq!(found.states, alone.states, "{}", race.name);
    }
}

/// However it is searched, the same is found: by threads, with few answers, with all users at once, after a resumption.
#[test]
fn the_same_is_found_however_it_is_searched() {
    let folder = std::env::temp_dir().join(format!("tracehost-explore-stuck-{}", std::process::id()));
    for (name, size) in [("lost_wakeup", 2), ("chld_coalesced", 0), ("group_stop", 0)] {
        let race = Race::named(name).expect("a race");
        for users in [1, 2] {
            let model = race.beside(false, users, size, true);
            let first = search(&model);
            assert_eq!(first.failure.as_ref().map(|failure| &*failure.property), Some("stuck"));
            for (threads, answers, together) in [
                (3, 1 << 16, false),
                (2, 1, false),
                (1, 50, false),
                (1, 1 << 16, true),
                (3, 50, true),
            ] {
                let options = Options {
                    threads,
                    answers,
                    together,
                    ..Options::default()
                };
                let found = explore(&model, &options).expect("a search");
                if together {
                    // of two users either may be told
                    let property = found.failure.map(|failure| failure.property);
                    assert_eq!(
                        (property.as_deref(), found.trace.len()),
                        (Some("stuck"), first.trace.len())
                    );
                } else {
                    assert_eq!((&found.failure, &found.trace), (&first.failure, &first.trace), "{name}");
                }
            }
            for limit in [2, first.states / 2] {
                let _ = fs::remove_dir_all(&folder);
                fs::create_dir_all(&folder).expect("a folder");
                let saved = Options {
                    checkpoint: Some(folder.join("search")),
                    every: Duration::ZERO,
                    resume: true,
                    ..options()
                };
                let cut = explore(&model, &Options { limit, ..saved.clone() }).expect("a search");
                assert!(!cut.passed() && !cut.is_finished, "{cut}");
                assert!(
                    cut.failure.is_none() || users > 1,
                    "one user's states may all be seen: {cut}"
                );
                let found = explore(&model, &saved).expect("a search");
                assert_eq!((&found.failure, &found.trace), (&first.failure, &first.trace), "{name}");
            }
        }
    }
    fs::remove_dir_all(folder).expect("removed");
}

/// The program replays it, as a session does here: lines of a scenario, and answers.
#[test]
fn the_trace_replays() {
    let folder = std::env::temp_dir().join(format!("tracehost-explore-replays-{}", std::process::id()));
    fs::create_dir_all(&folder).expect("a folder");
    for race in ALL {
        let model = race.beside(false, 1, race.size, true);
        let lines = search(&model).save(folder.join("race.json")).expect("files");
        let scenario = fs::read_to_string(folder.join("race.json")).expect("a scenario");
        let steps = scenario
            .lines()
            .filter(|line| line.starts_with('{') && !line.contains("\"steps\""));
        let mut session = Session::new().expect("memory");
        let answers: String = steps
            .map(|step| session.line(step.trim_end_matches(',')).expect("an answer") + "\n")
            .collect();
        assert_eq!(answers, fs::read_to_string(lines).expect("lines"), "{}", race.name);
    }
    fs::remove_dir_all(folder).expect("removed");
}
