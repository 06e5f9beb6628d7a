//! A search goes on only from a checkpoint of the same model.

use std::env;
use std::fs;
use std::path::PathBuf;
use std::process::Command;
use tracehost::{Act, Call, New, Request, Session, Which};
use tracehost_explore::{explore, Error, Go, Model, Options, Process, Script};

const USER: u32 = 1001;
const PASSED: usize = 0;

struct Folder(PathBuf);

impl Folder {
    fn new(name: &str) -> Folder {
        let folder = env::temp_dir().join(format!("tracehost-explore-{name}-{}", std::process::id()));
        let _ = fs::remove_dir_all(&folder);
        fs::create_dir_all(&folder).expect("a folder");
        Folder(folder)
    }

    fn options(&self, limit: u64) -> Options {
        Options {
            threads: 1,
            limit,
            checkpoint: Some(self.0.join("search")),
            resume: true,
            ..Options::default()
        }
    }

    /// Begins again.
    fn clear(&self) {
        let _ = fs::remove_file(self.0.join("search.1001"));
    }
}

impl Drop for Folder {
    fn drop(&mut self) {
        let _ = fs::remove_dir_all(&self.0);
    }
}

/// What no line of a script shows.
#[derive(Clone, Copy, Debug)]
struct Hidden {
    /// An attach that finds no target is a failure.
    strict: bool,
    /// How often the debugger looks for an end.
    looks: u8,
    /// One line more.
    careful: bool,
}

const FIRST: Hidden = Hidden {
    strict: false,
    looks: 4,
    careful: false,
};

fn debugger(hidden: Hidden, own: New, targets: &[New]) -> Script {
    let mut script = Script::new("debugger", USER, own);
    for target in targets {
        let pid = target.pid;
        script.ptrace_then(
            Request::Attach,
            move |_| pid,
            move |_, answer| match answer {
                Err(_) if hidden.strict => Err("a target is gone".to_owned()),
                _ => Ok(Go::On),
            },
        );
    }
    if hidden.careful {
        script.local(|_| Go::On);
    }
    script.label("look");
    script.poll(Which::Any, move |place, _| {
        place.bytes[PASSED] += 1;
        Ok(if place.bytes[PASSED] < hidden.looks {
            Go::To("look")
        } else {
            Go::On
        })
    });
    script.poll(Which::Any, move |place, _| match place.bytes[PASSED] {
        looks if looks == hidden.looks => Ok(Go::On),
        looks => Err(format!("{looks} looks")),
    });
    script
}

fn model(hidden: Hidden) -> Model {
    let world = move |host: &mut Session| {
        let (own, targets) = (
            host.spawn(USER)?,
            [host.spawn(USER)?, host.spawn(USER)?, host.spawn(USER)?],
        );
        let mut processes: Vec<Box<dyn Process>> = vec![Box::new(debugger(hidden, own, &targets))];
        for target in targets {
            let mut script = Script::new("target", USER, target);
            script.act(Act::Compute);
            script.call(Call::Exit(0));
            processes.push(Box::new(script));
        }
        Ok(processes)
    };
    Model::new("looking", world).properties([])
}

const WHOLE: &str = "all interleavings passed: ";
const PART: &str = "not all states were seen: ";

/// What is found, or why not.
fn search(model: &Model, options: &Options) -> String {
    match explore(model, options) {
        Ok(found) => found.to_string(),
        Err(why @ Error::Checkpoint(..)) => why.to_string(),
        Err(why) => panic!("{why}"),
    }
}

fn states(model: &Model) -> u64 {
    explore(model, &Options::default()).expect("a search").states
}

/// Models that differ only in what their closures have taken along. Without the check the first search passes, though its model
/// fails; the second fails, though its model passes; and a place of the third is in the midst of its lines.
#[test]
fn another_model_is_refused() {
    let folder = Folder::new("another");
    let others = [
        (
            Hidden { strict: true, ..FIRST },
            "the processes don't come to its states",
        ),
        (Hidden { looks: 2, ..FIRST }, "the processes don't come to its states"),
        (Hidden { careful: true, ..FIRST }, "the scripts is "),
    ];
    let named = |hidden| model(hidden).parameters("looking").parameters(format!("{hidden:?}"));
    let whole = search(&model(FIRST), &Options::default());
    assert!(whole.starts_with(WHOLE), "{whole}");
    let states = states(&model(FIRST));
    for limit in [states / 2, states * 9 / 10, states - 8, states - 2] {
        let begin = |model: &Model| {
            folder.clear();
            assert!(search(model, &folder.options(limit)).starts_with(PART));
        };
        let refused = |model: &Model, why: &str| {
            let said = search(model, &folder.options(u64::MAX));
            assert!(
                said.contains("search.1001: it is of another search: ") && said.contains(why),
                "{said}"
            );
        };
        for (other, why) in others {
            begin(&model(FIRST));
            refused(&model(other), why);
            refused(&named(FIRST), "the parameters is [\"looking\", \"Hidden { ");
            assert_eq!(search(&model(FIRST), &folder.options(u64::MAX)), whole);
            begin(&named(FIRST));
            refused(&named(other), "the parameters is ");
            assert_eq!(search(&named(FIRST), &folder.options(u64::MAX)), whole);
        }
    }
}

/// Processes count to nine. One may remember that it has come to five.
fn counting(odd: bool) -> Model {
    let world = move |host: &mut Session| {
        let mut processes: Vec<Box<dyn Process>> = Vec::new();
        for process in 0..4 {
            let mut script = Script::new("counting", USER, host.spawn(USER)?);
            script.label("count");
            script.act_then(Act::Compute, move |place, _| {
                place.bytes[0] += 1;
                if odd && process == 3 && place.bytes[0] == 5 {
                    place.bytes[1] = 1;
                }
                Ok(if place.bytes[0] < 9 { Go::To("count") } else { Go::On })
            });
            processes.push(Box::new(script));
        }
        Ok(processes)
    };
    Model::new("counting", world)
}

/// Each state of the front is compared: with five steps one of 56 is of the process that has made all.
#[test]
fn what_differs_in_one_state_is_found() {
    let folder = Folder::new("few");
    let ways = |steps: u64| (steps + 1) * (steps + 2) * (steps + 3) / 6;
    let limit = (0..=5).map(ways).sum::<u64>() + 1;
    assert!(search(&counting(false), &folder.options(limit)).starts_with(PART));
    let why = "it is of another search: the processes don't come to its states";
    assert!(search(&counting(true), &folder.options(u64::MAX)).ends_with(why));
    assert!(search(&counting(false), &folder.options(u64::MAX)).starts_with(WHOLE));
}

/// A search that ends at a limit leaves its checkpoint, though none was due.
#[test]
fn a_search_that_is_not_finished_goes_on() {
    let folder = Folder::new("limits");
    let whole = search(&model(FIRST), &Options::default());
    for threads in [1, 3] {
        folder.clear();
        let mut said = search(&model(FIRST), &folder.options(10));
        assert!(
            said.ends_with("no failure among them: the limit of states is reached"),
            "{said}"
        );
        let mut limits = (10..).step_by(100);
        while said.starts_with(PART) {
            let options = Options {
                threads,
                ..folder.options(limits.next().expect("a limit"))
            };
            said = search(&model(FIRST), &options);
        }
        assert_eq!(said, whole);
    }
    folder.clear();
    let little = Options {
        memory: 0,
        ..folder.options(u64::MAX)
    };
    assert!(search(&model(FIRST), &little).ends_with("the limit of memory is reached"));
    assert_eq!(search(&model(FIRST), &folder.options(u64::MAX)), whole);
}

const FILE: &str = "TRACEHOST_EXPLORE_TEST_FILE";

/// Run by the test below, with words of its own on the command line.
#[test]
fn searches() {
    let Some(file) = env::var_os(FILE) else { return };
    let options = Options {
        checkpoint: Some(file.into()),
        resume: true,
        limit: env::var("LIMIT").map_or(u64::MAX, |limit| limit.parse().expect("a number")),
        ..Options::default()
    };
    let model = if env::var_os("NAMED").is_some() {
        model(FIRST).arguments(["4"])
    } else {
        model(FIRST)
    };
    println!("said: {}", search(&model, &options));
}

/// All words on the command line count, except if the model says which.
#[test]
fn arguments_count() {
    let folder = Folder::new("arguments");
    let run = |word: &str, environment: &[(&str, &str)]| {
        let mut command = Command::new(env::current_exe().expect("this program"));
        command.args(["--exact", "searches", "--nocapture", word]);
        command
            .env(FILE, folder.0.join("search"))
            .envs(environment.iter().copied());
        String::from_utf8(command.output().expect("a run").stdout).expect("text")
    };
    let limited = |environment: &[(&'static str, &'static str)]| [environment, &[("LIMIT", "100")]].concat();
    assert!(run("one", &limited(&[])).contains("said: not all states were seen: "));
    let said = run("two", &[]);
    assert!(
        said.contains("it is of another search: the arguments is [") && said.contains("\"two\"]"),
        "{said}"
    );
    assert!(run("one", &[]).contains("said: all interleavings passed: "));
    folder.clear();
    let named = [("NAMED", "1")];
    assert!(run("one", &limited(&named)).contains("said: not all states were seen: "));
    assert!(run("two", &[]).contains("it is of another search: the arguments is ["));
    assert!(run("two", &named).contains("said: all interleavings passed: "));
}
