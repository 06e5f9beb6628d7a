//! The page of a test that has failed, which the program and the viewer make, and its story, which `tracehost-debug` tells.

use std::ffi::{OsStr, OsString};
use std::io::{self, Error, ErrorKind, Read, Write};
use std::path::Path;
use std::process::{Child, Command, ExitStatus, Output, Stdio};
use std::thread::{self, JoinHandle};
use std::time::{Duration, Instant};
use std::{env, iter};

const TIME_FOR_A_PAGE: Duration = Duration::from_secs(300);
const TIME_FOR_A_STORY: Duration = Duration::from_secs(60);

/// Makes the page of a test that failed after so many steps of this scenario. Else says why there is none.
pub fn make_page(scenario: &Path, page: &Path, test: &str, message: &str, step: usize) -> Result<(), String> {
    if step == 0 {
        return Err("no step was made".to_owned());
    }
    let program = env::var_os("TRACEHOST").unwrap_or_else(|| "tracehost".into());
    let viewer = env::var_os("TRACEHOST_VIEW").unwrap_or_else(|| "tracehost-view".into());
    let words = [OsStr::new("--json=trace+rows"), OsStr::new("--"), scenario.as_os_str()];
    let trace = printed(&program, &words, Vec::new(), TIME_FOR_A_PAGE)?;
    let mut output = OsString::from("--output=");
    output.push(page);
    let shown = [
        format!("--title={test}"),
        format!("--failed={test}"),
        format!("--message={message}"),
        format!("--at={step}"),
    ];
    let words: Vec<&OsStr> = iter::once(output.as_os_str())
        .chain(shown.iter().map(OsStr::new))
        .chain([OsStr::new("-")])
        .collect();
    printed(&viewer, &words, trace, TIME_FOR_A_PAGE).map(drop)
}

/// What the session of a test that failed after so many steps comes to, in words, if there is a `tracehost-debug`:
/// `$TRACEHOST_DEBUG` names it, and an empty one is none. The scenario will be `called` so.
pub fn story(scenario: &Path, called: &Path, step: usize) -> Option<String> {
    let program = env::var_os("TRACEHOST_DEBUG").unwrap_or_else(|| "tracehost-debug".into());
    if step == 0 || program.is_empty() {
        return None;
    }
    let mut name = OsString::from("--called=");
    name.push(called);
    let at = format!("--at={step}");
    let words = [
        OsStr::new("--story"),
        &name,
        OsStr::new(&at),
        OsStr::new("--"),
        scenario.as_os_str(),
    ];
    let said = printed(&program, &words, Vec::new(), TIME_FOR_A_STORY).ok()?;
    Some(String::from_utf8_lossy(&said).trim_end().to_owned())
}

/// What a program prints that gets this input; else why it didn't. One that doesn't end in time is killed.
fn printed(program: &OsStr, words: &[&OsStr], given: Vec<u8>, time: Duration) -> Result<Vec<u8>, String> {
    let fault = |error: &Error| match error.kind() {
        ErrorKind::NotFound => format!("there is no {}", program.to_string_lossy()),
        _ => format!("{}: {error}", program.to_string_lossy()),
    };
    let run = || -> io::Result<Option<Output>> {
        let mut child = Command::new(program)
            .args(words)
            .stdin(Stdio::piped())
            .stdout(Stdio::piped())
            .stderr(Stdio::piped())
            .spawn()?;
        let (input, output, errors) = (child.stdin.take(), child.stdout.take(), child.stderr.take());
        let writer = apart(move || input.map_or(Ok(()), |mut pipe| pipe.write_all(&given)));
        let (output, errors) = (apart(move || all_of(output)), apart(move || all_of(errors)));
        let Some(status) = status_in_time(&mut child, time)? else {
            return Ok(None); // the threads end with their pipes
        };
        let (stdout, stderr) = (joined(output?)?, joined(errors?)?);
        let written = joined(writer?);
        if status.success() {
            written?;
        }
        Ok(Some(Output { status, stdout, stderr }))
    };
    match run().map_err(|error| fault(&error))? {
        None => Err(format!("{} doesn't end", program.to_string_lossy())),
        Some(output) if output.status.success() => Ok(output.stdout),
        Some(output) => Err(String::from_utf8_lossy(&output.stderr).trim_end().to_owned()),
    }
}

fn apart<T: Send + 'static>(
    work: impl FnOnce() -> io::Result<T> + Send + 'static,
) -> io::Result<JoinHandle<io::Result<T>>> {
    thread::Builder::new().spawn(work)
}

fn joined<T>(handle: JoinHandle<io::Result<T>>) -> io::Result<T> {
    handle
        .join()
        .unwrap_or_else(|_| Err(Error::other("a thread has panicked")))
}

fn all_of(pipe: Option<impl Read>) -> io::Result<Vec<u8>> {
    let mut bytes = Vec::new();
    pipe.map_or(Ok(0), |mut pipe| pipe.read_to_end(&mut bytes))?;
    Ok(bytes)
}

/// How the program ended; None if it had to be killed.
fn status_in_time(child: &mut Child, time: Duration) -> io::Result<Option<ExitStatus>> {
    let began = Instant::now();
    while began.elapsed() < time {
        if let Some(status) = child.try_wait()? {
            return Ok(Some(status));
        }
        thread::sleep(Duration::from_millis(5));
    }
    child.kill()?;
    child.wait()?;
    Ok(None)
}

#[cfg(test)]
mod tests {
    use super::printed;
    use std::ffi::OsStr;
    use std::time::{Duration, Instant};

    fn by_shell(script: &str, given: Vec<u8>, time: u64) -> Result<Vec<u8>, String> {
        let words = [OsStr::new("-c"), OsStr::new(script)];
        printed(OsStr::new("sh"), &words, given, Duration::from_secs(time))
    }

    #[test]
    fn programs_for_a_page() {
        let much = vec![b'x'; 1_000_000];
        assert_eq!(by_shell("cat; cat >&2 <<e\ny\ne", much.clone(), 300), Ok(much.clone()));
        assert_eq!(
            by_shell("head -c 1000000 /dev/zero >&2; cat", much.clone(), 300),
            Ok(much.clone())
        );
        assert_eq!(
            by_shell("echo why >&2; exit 3", much.clone(), 300),
            Err("why".to_owned())
        );
        assert!(by_shell("exit 0", vec![b'x'; 10_000_000], 300).is_err());
        let began = Instant::now();
        assert_eq!(by_shell("exec sleep 1000", much, 1), Err("sh doesn't end".to_owned()));
        assert!(began.elapsed() < Duration::from_secs(500));
    }
}
