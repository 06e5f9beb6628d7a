//! SPIN on models of the same scripts, written by hand: the same number of states and steps, and the same verdict. Skipped
//! without spin and cc.

use std::fs;
use std::path::PathBuf;
use std::process::Command;
use std::time::{Duration, Instant};
use tracehost_explore::models::{Race, TRACEES};
use tracehost_explore::{deadlock, explore, Found, Model, Options};

fn is_there(program: &str) -> bool {
    let tried = Command::new("sh")
        .args(["-c", &format!("command -v {program}")])
        .output();
    let is_there = tried.is_ok_and(|output| output.status.success());
    if !is_there {
        println!("skipped: there is no {program}");
    }
    is_there
}

/// A folder that SPIN works in.
struct Spin(PathBuf);

impl Drop for Spin {
    fn drop(&mut self) {
        let _ = fs::remove_dir_all(&self.0);
    }
}

impl Spin {
    fn new(name: &str) -> Option<Spin> {
        if !is_there("spin") || !is_there("cc") {
            return None;
        }
        let folder = std::env::temp_dir().join(format!("tracehost-explore-{name}-{}", std::process::id()));
        fs::create_dir_all(&folder).expect("a folder");
        Some(Spin(folder))
    }

    fn run(&self, program: &str, words: &[&str]) -> String {
        let output = Command::new(program)
            .args(words)
            .current_dir(&self.0)
            .output()
            .expect(program);
        let said = String::from_utf8_lossy(&output.stdout).into_owned();
        assert!(
            output.status.success(),
            "{program}: {said}{}",
            String::from_utf8_lossy(&output.stderr)
        );
        said
    }

    /// Makes SPIN's verifier of a model, for this kind of search. Its partial-order reduction is off.
    fn build(&self, text: &str, words: &[&str]) {
        fs::write(self.0.join("model.pml"), text).expect("a file");
        self.run("spin", &["-a", "model.pml"]);
        let words = [&["-w", "-DNOREDUCE", "-o", "pan", "pan.c"], words].concat();
        self.run("cc", &words);
    }
}

/// The number in front of these words.
fn figure(said: &str, words: &str) -> u64 {
    let line = said
        .lines()
        .find(|line| line.contains(words))
        .unwrap_or_else(|| panic!("no {words:?} in {said}"));
    line.split_whitespace()
        .next()
        .and_then(|word| word.parse().ok())
        .expect(line)
}

struct Searched {
    states: u64,
    transitions: u64,
    took: Duration,
}

fn by_spin(spin: &Spin, targets: u8) -> Searched {
    let each: String = (0..targets).map(|target| format!("\tTARGET({target})\n")).collect();
    let text = include_str!("tracees.pml").replace("\tTARGETS\n", &each);
    let text = format!("#define N {targets}\n{text}");
    spin.build(&text, &["-O2", "-DSAFETY"]);
    let began = Instant::now();
    let said = spin.run("./pan", &["-m1000000", "-w22"]);
    assert_eq!(
        figure(&said, "states, matched") + figure(&said, "states, stored"),
        figure(&said, "transitions (="),
        "{said}"
    );
    assert!(said.contains("errors: 0"), "{said}");
    // the state before all is set up is one more, and so is its step; and SPIN counts each stored state as a step, the first too
    Searched {
        states: figure(&said, "states, stored") - 1,
        transitions: figure(&said, "transitions (=") - 2,
        took: began.elapsed(),
    }
}

fn search(model: &Model) -> Found<'_> {
    let options = Options {
        threads: 1,
        ..Options::default()
    };
    explore(model, &options).expect("a search")
}

#[test]
fn spin_counts_the_same_states() {
    let Some(spin) = Spin::new("spin") else { return };
    for targets in 1..=5 {
        let other = by_spin(&spin, targets);
        let model = TRACEES.model(true, 1, targets);
        let began = Instant::now();
        let found = search(&model);
        assert!(found.passed());
        println!(
            "{targets} targets: {} states, {} transitions; {:.3} s, SPIN {:.3} s",
            found.states,
            found.transitions,
            began.elapsed().as_secs_f64(),
            other.took.as_secs_f64()
        );
        assert_eq!(
            (found.states, found.transitions),
            (other.states, other.transitions),
            "{targets} targets"
        );
    }
}

/// A lost wake-up, and its remedy. SPIN finds it as an invalid end state, but not beside a process that computes for ever. There
/// it is a run without progress, if SPIN is told two things: a process that can always go on does so some time (weak fairness:
/// without it each model has a run in which only the third process goes on), and the third process makes progress if the others
/// have ended. Here no step puts another off for ever, so that from each state some run comes to an end just if each fair one does.
#[test]
fn spin_finds_the_same_lost_wake_up_beside_a_process_that_computes() {
    let Some(spin) = Spin::new("progress") else { return };
    let race = Race::named("lost_wakeup").expect("a race");
    for right in [false, true] {
        let build = |search: &str, defined: &[&str]| {
            let defined: String = defined.iter().map(|name| format!("#define {name}\n")).collect();
            let right = if right { "#define RIGHT\n" } else { "" };
            let text = include_str!("lost_wakeup.pml");
            spin.build(&format!("{right}{defined}#define SIGNALS 3\n{text}"), &[search]);
        };
        let model = |ticker: bool| race.beside(right, 1, 3, ticker);
        build("-DSAFETY", &[]);
        let said = spin.run("./pan", &["-E"]);
        let all = model(false).properties([]);
        let found = search(&all);
        assert_eq!(figure(&said, "states, stored"), found.states, "{said}");
        assert_eq!(figure(&said, "transitions (=") - 1, found.transitions, "{said}");

        for (ticker, defined) in [(false, &["ENDS"][..]), (true, &["ENDS", "TICKER"])] {
            build("-DSAFETY", defined);
            let is_invalid = spin.run("./pan", &[]).contains("invalid end state (at depth");
            let only_deadlock = model(ticker).properties([deadlock()]);
            assert_eq!(is_invalid, !right && !ticker);
            assert_eq!(search(&only_deadlock).passed(), !is_invalid);
        }

        build("-DNP", &["TICKER", "PROGRESS"]);
        let has_cycle = |words: &[&str]| spin.run("./pan", words).contains("non-progress cycle (at depth");
        assert!(has_cycle(&["-l"]));
        assert_eq!(has_cycle(&["-l", "-f"]), !right);
        let failure = search(&model(true)).failure.map(|failure| failure.property);
        assert_eq!(failure.as_deref(), (!right).then_some("stuck"));
    }
}
