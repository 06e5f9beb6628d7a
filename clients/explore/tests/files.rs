//! Traces and checkpoints on disk.

use std::fs;
use std::io::ErrorKind;
use std::path::{Path, PathBuf};
use std::time::Duration;
use tracehost::Session;
use tracehost_explore::models::Race;
use tracehost_explore::{explore, Error, Model, Options};

struct Folder(PathBuf);

impl Folder {
    fn new(name: &str) -> Folder {
        let folder = std::env::temp_dir().join(format!("tracehost-explore-{name}-{}", std::process::id()));
        let _ = fs::remove_dir_all(&folder);
        fs::create_dir_all(&folder).expect("a folder");
        Folder(folder)
    }

    fn names(&self) -> Vec<String> {
        let names = fs::read_dir(&self.0).expect("the folder");
        let mut names: Vec<_> = names
            .map(|entry| entry.expect("a name").file_name().into_string().expect("text"))
            .collect();
        names.sort();
        names
    }
}

impl Drop for Folder {
    fn drop(&mut self) {
        let _ = fs::remove_dir_all(&self.0);
    }
}

fn model(name: &str, right: bool, size: u8) -> Model {
    Race::named(name).expect("a race").model(right, 1, size)
}

/// The steps of a scenario, one a line.
fn steps(scenario: &Path) -> Vec<String> {
    let text = fs::read_to_string(scenario).expect("a scenario");
    let inner = text
        .trim()
        .trim_start_matches("{\"kill_on_debugger_exit\":1,\"steps\":[")
        .trim_end_matches("]}");
    inner
        .lines()
        .map(|line| line.trim_end_matches(',').to_owned())
        .filter(|line| !line.is_empty())
        .collect()
}

/// A session that is asked the steps of the scenario answers its lines. The last ones are those of the trace.
#[test]
fn a_trace_replays() {
    let folder = Folder::new("trace");
    for race in tracehost_explore::models::ALL {
        let model = race.model(false, 2, race.size);
        let found = explore(&model, &Options::default()).expect("a search");
        let scenario = folder.0.join(format!("{}.json", race.name));
        let lines = found.save(&scenario).expect("files");
        let mut session = Session::new().expect("memory");
        let answers: Vec<String> = steps(&scenario)
            .iter()
            .map(|step| session.line(step).expect("an answer"))
            .collect();
        let expected = fs::read_to_string(&lines).expect("lines");
        assert_eq!(answers.join("\n") + "\n", expected, "{}", race.name);
        assert!(answers.len() > found.trace.len(), "the world is set up first");
    }
    assert_eq!(folder.names().len(), 2 * tracehost_explore::models::ALL.len());
}

#[test]
fn a_trace_that_cannot_be_written() {
    let model = model("lost_wakeup", false, 2);
    let found = explore(&model, &Options::default()).expect("a search");
    let folder = Folder::new("unwritten");
    assert!(found.save(folder.0.join("no/race.json")).is_err());
    assert_eq!(
        found.save(folder.0.join("race.out")).expect_err("one name").kind(),
        ErrorKind::InvalidInput
    );
    fs::create_dir(folder.0.join("race.out")).expect("a folder");
    assert!(
        found.save(folder.0.join("race.json")).is_err(),
        "a folder has the name of the lines"
    );
    assert_eq!(folder.names(), ["race.out"]);
}

#[test]
fn there_is_no_trace_of_a_pass() {
    let model = model("lost_wakeup", true, 2);
    let found = explore(&model, &Options::default()).expect("a search");
    let folder = Folder::new("pass");
    assert_eq!(
        found.save(folder.0.join("race.json")).expect_err("no trace").kind(),
        ErrorKind::InvalidInput
    );
    assert!(folder.names().is_empty());
}

fn checkpointing(folder: &Folder) -> Options {
    Options {
        threads: 2,
        checkpoint: Some(folder.0.join("search")),
        every: Duration::ZERO,
        resume: true,
        ..Options::default()
    }
}

/// A search that stops at its limit, and goes on with other threads from its checkpoint, comes to the same.
#[test]
fn a_search_goes_on() {
    let folder = Folder::new("resume");
    for (right, fails) in [(true, false), (false, true)] {
        let model = model("stop_lost_at_detach", right, 4);
        let whole = explore(&model, &Options::default()).expect("a search");
        assert_eq!(whole.failure.is_some(), fails);
        for limit in [100, whole.states / 2] {
            let _ = fs::remove_file(folder.0.join("search.1001"));
            let first = Options {
                limit,
                ..checkpointing(&folder)
            };
            assert!(!explore(&model, &first).expect("a search").is_finished);
            assert_eq!(folder.names(), ["search.1001"]);
            for threads in [1, 3] {
                let rest = Options {
                    threads,
                    ..checkpointing(&folder)
                };
                let found = explore(&model, &rest).expect("a search");
                assert_eq!((found.states, found.transitions), (whole.states, whole.transitions));
                assert_eq!((&found.trace, &found.failure), (&whole.trace, &whole.failure));
            }
        }
    }
}

fn refusal(model: &Model, options: &Options) -> String {
    match explore(model, options) {
        Err(error @ Error::Checkpoint(..)) => error.to_string(),
        Err(error) => panic!("{error}"),
        Ok(found) => panic!("{found}"),
    }
}

#[test]
fn another_search_is_refused() {
    let folder = Folder::new("refused");
    let options = checkpointing(&folder);
    let file = folder.0.join("search.1001");
    explore(&model("lost_wakeup", true, 2), &options).expect("a search");
    let other = refusal(&model("group_stop", true, 2), &options);
    assert!(other
        .ends_with("search.1001: it is of another search: the model is group_stop, right, and was lost_wakeup, right"));
    let larger = refusal(&model("lost_wakeup", true, 3), &options);
    assert!(larger.contains("it is of another search: the start is "), "{larger}");
    let property = model("lost_wakeup", true, 2).property(tracehost_explore::unreported_stop());
    let default = "deadlock, stuck, no_progress";
    let properties = format!("the properties is {default}, unreported_stop, and was {default}");
    assert!(
        refusal(&property, &options).ends_with(&properties),
        "{}",
        refusal(&property, &options)
    );
    let bytes = fs::read(&file).expect("a checkpoint");
    fs::write(&file, &bytes[..bytes.len() - 1]).expect("written");
    let message = refusal(&model("lost_wakeup", true, 2), &options);
    assert!(message.contains("search.1001: "), "{message}");
    fs::write(&file, "{}").expect("written");
    assert!(refusal(&model("lost_wakeup", true, 2), &options).ends_with("search.1001: it is no checkpoint"));
}

#[test]
fn a_checkpoint_that_cannot_be_written() {
    let options = Options {
        checkpoint: Some("/nonexistent/search".into()),
        every: Duration::ZERO,
        ..Options::default()
    };
    let message = refusal(&model("lost_wakeup", true, 2), &options);
    assert!(message.starts_with("/nonexistent/search.1001: "), "{message}");
}
