//! Models that tell equal processes apart are refused.

#[path = "common/family.rs"]
mod family;

use family::{family, plain, refusal, with_exchanges, AT_HAND, USER};
use tracehost::{Act, Call, Error, New, Reply, Request, Signal, State, View, WaitOptions, Which};
use tracehost_explore::{Go, Model, Place, Process, Property, Script};

type Text = dyn Fn(&mut Script, &[New], usize) + Send + Sync;

/// A worker's end must not be seen before its master's. Of the children one dies: the debugger looks for the worker, and then
/// for the master, by their numbers.
fn worker_and_master(count: usize, before: usize, [worker, master]: [usize; 2], between: bool) -> Model {
    let model = family(count, false, move |script, all, place| {
        if place > 0 {
            (0..before).for_each(|_| script.act(Act::Compute));
            script.act_with(
                |_, memory| (memory[0] == 0).then_some(Act::Raise(Signal::SIGUSR1)),
                |_, memory, _| {
                    memory[0] = 1;
                    Ok(Go::On)
                },
            );
            return script.act(Act::Compute);
        }
        script.poll(Which::Process(all[1 + worker].pid), |_, answer| match answer {
            Ok(Reply::Status { .. }) => Ok(Go::On),
            _ => Ok(Go::End),
        });
        if between {
            script.act(Act::Compute);
        }
        script.poll(Which::Process(all[1 + master].pid), |_, answer| match answer {
            Ok(Reply::Status { .. }) => Ok(Go::End),
            _ => Err("the worker has died before its master".to_owned()),
        });
    });
    model.properties([])
}

#[test]
fn processes_that_a_script_names_are_told_apart() {
    let mut refused = 0;
    for count in 2..4 {
        for (worker, master) in (0..count).flat_map(|worker| (0..count).map(move |master| (worker, master))) {
            for (before, between) in [(0, false), (0, true), (1, false), (1, true), (2, false), (2, true)] {
                if worker != master {
                    let model = worker_and_master(count, before, [worker, master], between);
                    assert!(plain(&model).failure.is_some());
                    let why = refusal(&model);
                    assert!(
                        why.contains(" aren't alike: with the two exchanged debugger makes 1000 wait4("),
                        "{why}"
                    );
                    refused += 1;
                }
            }
        }
    }
    assert_eq!(refused, 48);
}

/// Waits for any child, and remembers it.
fn wait_for_one(script: &mut Script) {
    script.wait_for(Which::Any, WaitOptions::empty(), |place, answer| match answer {
        Ok(Reply::Status { pid, .. }) => {
            place.numbers[AT_HAND] = *pid;
            Ok(Go::On)
        }
        answer => Err(format!("{answer:?}")),
    });
}

/// The debugger minds which child, but only of those that aren't met: which of equal states are kept makes no difference.
#[test]
fn all_exchanges_are_tried() {
    for odd in 1..=5 {
        let model = family(5, false, move |script, all, place| match place {
            0 => {
                let odd = all[odd].pid;
                wait_for_one(script);
                script.local(move |place| if place.numbers[AT_HAND] == odd { Go::On } else { Go::End });
                script.ptrace(Request::Attach, all[0].pid);
            }
            _ => script.call(Call::Exit(3)),
        });
        assert!(plain(&model).failure.is_some());
        let why = refusal(&model);
        assert!(
            why.ends_with("debugger goes on otherwise from the answer to 1000 wait4(-1)"),
            "{why}"
        );
        // the same without a step at which an answer tells them apart
        let model = family(5, false, move |script, all, place| match place {
            0 => {
                let (odd, own) = (all[odd].pid, all[0].pid);
                wait_for_one(script);
                let target = move |place: &Place| if place.numbers[AT_HAND] == odd { own } else { 1999 };
                script.ptrace_then(Request::LwpInfo, target, |_, answer| match answer {
                    Err(Error::Errno(tracehost::Errno::ESRCH)) => Ok(Go::End),
                    answer => Err(format!("{answer:?}")),
                });
            }
            _ => script.call(Call::Exit(3)),
        });
        assert!(plain(&model).failure.is_some());
        let why = refusal(&model);
        assert!(why.contains("debugger makes 1000 ptrace(LwpInfo, "), "{why}");
    }
}

fn is_stopped(view: &View, pid: u32) -> bool {
    view.process(pid)
        .is_some_and(|row| matches!(row.state, State::TraceStop { .. }))
}

fn not_both(first: u32, second: u32) -> impl Fn(&View) -> Result<(), String> + Copy {
    move |view| match is_stopped(view, first) && is_stopped(view, second) {
        true => Err("both have stopped".to_owned()),
        false => Ok(()),
    }
}

/// Two of the children stop.
fn two_stop(count: usize) -> Model {
    family(count, true, |script, _, place| {
        if place > 0 {
            let raise = Act::Raise(Signal::SIGUSR1);
            script.act_with(
                move |_, memory| (memory[0] < 2).then_some(raise),
                |_, memory, _| {
                    memory[0] += 1;
                    Ok(Go::On)
                },
            );
        }
        script.act(Act::Compute);
    })
}

/// The two that it names have stopped in the states that are met, which is a failure, or in equal ones.
#[test]
fn a_property_that_names_processes_is_refused() {
    let mut refused = 0;
    for count in [3, 6] {
        for (first, second) in [(1, 2), (2, 3), (1, 3), (count - 1, count)] {
            let both = not_both(1000 + first, 1000 + second);
            for property in [Property::always("both", both), Property::at_end("both", both)] {
                let model = two_stop(count as usize).properties([property]);
                let plain = plain(&model);
                assert!(plain.failure.is_some());
                match with_exchanges(&model) {
                    Ok(found) => assert_eq!(found.trace.len(), plain.trace.len(), "{found}"),
                    Err(why) => {
                        assert_eq!(why, "the property both tells equal processes apart");
                        refused += 1;
                    }
                }
            }
        }
    }
    assert!(refused >= 10, "{refused}");
}

#[test]
fn a_property_of_all_processes_is_taken() {
    for (count, most) in [(3, 1), (3, 2), (6, 1), (6, 2)] {
        let few = Property::always("few", move |view| {
            let some = view.processes.iter().filter(|row| is_stopped(view, row.pid)).count();
            if some <= most {
                Ok(())
            } else {
                Err(format!("{some} have stopped"))
            }
        });
        let model = two_stop(count).properties([few]);
        let (found, plain) = (with_exchanges(&model).expect("alike"), plain(&model));
        assert_eq!((found.passed(), found.trace.len()), (most == 2, plain.trace.len()));
    }
}

#[test]
fn a_place_in_the_memory_tells_apart() {
    let model = family(3, false, |script, _, place| {
        script.act_with(
            |_, _| Some(Act::Compute),
            move |_, memory, _| {
                memory[place] = 1;
                Ok(Go::On)
            },
        );
    });
    assert!(refusal(&model).contains(" aren't alike: "));
}

#[test]
fn unequal_scripts_are_refused() {
    let differing: [&Text; 5] = [
        &|script, _, place| script.act(if place == 2 { Act::Leave } else { Act::Compute }),
        &|script, all, _| script.kill(all[1].pid, Signal::SIGUSR1),
        &|script, _, place| (0..=place).for_each(|_| script.act(Act::Compute)),
        &|script, _, place| script.label(if place == 1 { "one" } else { "other" }),
        &|script, _, place| {
            script.act(Act::Compute);
            if place == 2 {
                script.once(0, 1);
            }
        },
    ];
    for text in differing {
        let text: &'static Text = Box::leak(Box::new(move |script: &mut Script, all: &[New], place| {
            text(script, all, place)
        }));
        let model = family(2, false, move |script, all, place| {
            script.act(Act::Compute);
            if place > 0 {
                text(script, all, place);
            }
        });
        let why = refusal(&model);
        assert!(
            why.starts_with("child 1001 and child 1002 have different scripts, from line "),
            "{why}"
        );
    }
}

/// A debugger, and two that are said to be equal, by their names and numbers.
fn with_equal(debugger: Script, two: [(String, New); 2]) -> Vec<Box<dyn Process>> {
    let mut processes: Vec<Box<dyn Process>> = vec![Box::new(debugger)];
    for (name, own) in two {
        let mut script = Script::new(name, USER, own);
        script.exchange(1);
        script.act(Act::Compute);
        processes.push(Box::new(script));
    }
    processes
}

/// The first LWP of a process is the one that an attach stops, so its LWPs aren't equal.
#[test]
fn lwps_of_one_process_are_refused() {
    let model = Model::new("threads", |host| {
        let (debugger, target) = (host.spawn(USER)?, host.spawn(USER)?);
        host.turn(USER, target.lwp, Act::Enter(Call::ThrNew))?;
        let Reply::New(second) = host.turn(USER, target.lwp, Act::Leave)? else {
            unreachable!("a new LWP")
        };
        let mut script = Script::new("debugger", USER, debugger);
        script.act(Act::Compute);
        Ok(with_equal(
            script,
            [target, second].map(|own| (format!("LWP {}", own.lwp), own)),
        ))
    });
    assert_eq!(
        refusal(&model),
        "LWP 100001 and LWP 100002 are LWPs of one process, whose first one isn't like others"
    );
}

/// Children that aren't born yet get their numbers by the order of their births.
#[test]
fn processes_that_are_not_there_are_refused() {
    let model = Model::new("unborn", |host| {
        let debugger = host.spawn(USER)?;
        let mut copy = host.try_clone()?;
        let mut script = Script::new("debugger", USER, debugger);
        script.call(Call::Fork);
        let children = [copy.spawn(USER)?, copy.spawn(USER)?];
        Ok(with_equal(script, children.map(|own| ("child".to_owned(), own))))
    });
    assert_eq!(
        refusal(&model),
        "child isn't there at the start, and can't be exchanged"
    );
}
