//! Makes the steps of each file NAME.steps in a folder, a line each, and writes their answers to NAME.rust: the line of one
//! that was refused is followed by a line that says why. tests/python/test_refusals_agree.py runs it.
//!
//!     TRACEHOST_STEPS=FOLDER cargo test --test explain -- --ignored

use std::path::Path;
use std::{env, fs};
use tracehost::{Error, Session, Settings};

fn answers(steps: &str, kill_on_debugger_exit: bool) -> Result<String, Error> {
    let mut session = Session::with_settings(Settings { kill_on_debugger_exit })?;
    let mut lines = String::new();
    for step in steps.lines() {
        lines += &session.line(step)?;
        lines += "\n";
        if let Some(why) = session.explain()? {
            lines += &format!("  {why}\n");
        }
    }
    Ok(lines)
}

#[test]
#[ignore = "tests/python/test_refusals_agree.py names the folder"]
fn explanations() {
    let folder = env::var_os("TRACEHOST_STEPS").expect("the folder of the steps");
    for entry in fs::read_dir(folder).expect("the folder") {
        let path = entry.expect("a file").path();
        if path.extension().is_some_and(|end| end == "steps") {
            let kills = fs::read_to_string(path.with_extension("setting")).expect("a setting") == "1";
            let steps = fs::read_to_string(Path::new(&path)).expect("steps");
            let lines = answers(&steps, kills).expect("answers");
            fs::write(path.with_extension("rust"), lines).expect("answers are written");
        }
    }
}
