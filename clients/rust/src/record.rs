//! A recording: a scenario that has the steps of a session, and its lines.

use crate::artifacts::named;
use crate::sys;
use std::fs::File;
use std::io::{self, Error, ErrorKind};
use std::os::unix::fs::FileExt;
use std::path::{Path, PathBuf};

/// What closes a scenario.
const END: &[u8] = b"\n]}\n";

/// A file whose end is written anew.
#[derive(Debug)]
struct Output {
    file: File,
    /// The bytes that stay.
    kept: u64,
}

impl Output {
    fn create(path: &Path) -> io::Result<Output> {
        let file = File::create(path).map_err(|error| named(path, &error))?;
        Ok(Output::of(file))
    }

    fn of(file: File) -> Output {
        Output { file, kept: 0 }
    }

    /// Writes `added`, which stays, and `end` after the bytes that stay. After an error the file ends as before.
    fn add(&mut self, added: &[u8], end: &[u8]) -> io::Result<()> {
        let text = [added, end].concat();
        // SIGXFSZ would end the program
        if self.kept + text.len() as u64 > sys::file_size_limit() {
            return Err(Error::from_raw_os_error(sys::EFBIG));
        }
        if let Err(error) = self.file.write_all_at(&text, self.kept) {
            // the first error is the one to tell
            let _ = self.restore(end);
            return Err(error);
        }
        self.kept += added.len() as u64;
        Ok(())
    }

    /// Ends the file with `end` after the bytes that stay.
    fn restore(&self, end: &[u8]) -> io::Result<()> {
        let end = if self.kept == 0 { b"" } else { end };
        self.file.write_all_at(end, self.kept)?;
        self.file.set_len(self.kept + end.len() as u64)
    }
}

/// The files of a recording. The scenario is whole after each step, and the lines are those of its steps.
#[derive(Debug)]
pub struct Recording {
    scenario: Output,
    lines: Option<Output>,
    path: PathBuf,
    steps: usize,
    process: u32,
}

impl Recording {
    /// Makes the files, or empties them.
    pub fn create(path: &Path, lines: Option<&Path>, kill_on_debugger_exit: bool) -> io::Result<Recording> {
        let scenario = Output::create(path)?;
        let lines = lines.map(Output::create).transpose()?;
        Recording::begin(path, scenario, lines, kill_on_debugger_exit)
    }

    /// Begins in files that are empty; `path` is the scenario's.
    pub fn of_files(path: &Path, scenario: File, lines: Option<File>, kills: bool) -> io::Result<Recording> {
        Recording::begin(path, Output::of(scenario), lines.map(Output::of), kills)
    }

    fn begin(path: &Path, mut scenario: Output, lines: Option<Output>, kills: bool) -> io::Result<Recording> {
        let head = format!("{{\"kill_on_debugger_exit\":{},\"steps\":[", u8::from(kills));
        scenario
            .add(head.as_bytes(), END)
            .map_err(|error| named(path, &error))?;
        Ok(Recording {
            scenario,
            lines,
            path: path.to_owned(),
            steps: 0,
            process: std::process::id(),
        })
    }

    /// How many steps it has.
    pub fn steps(&self) -> usize {
        self.steps
    }

    pub fn path(&self) -> &Path {
        &self.path
    }

    /// Adds a step and the line of its answer. A step that was answered ENOMEM isn't part of a scenario, and the steps
    /// of a forked child aren't its parent's.
    pub fn add(&mut self, step: &str, line: &str) -> io::Result<()> {
        if line.contains(" error ENOMEM ") || self.process != std::process::id() {
            return Ok(());
        }
        // the line comes first: a program that is killed between both has one line too many, and no step without a line
        let before = self.lines.as_ref().map_or(0, |lines| lines.kept);
        if let Some(lines) = &mut self.lines {
            lines.add(format!("{line}\n").as_bytes(), b"")?;
        }
        let between = if self.steps > 0 { ",\n" } else { "\n" };
        if let Err(error) = self.scenario.add(format!("{between}{step}").as_bytes(), END) {
            if let Some(lines) = &mut self.lines {
                lines.kept = before;
                let _ = lines.restore(b"");
            }
            return Err(error);
        }
        self.steps += 1;
        Ok(())
    }
}

/// The error of a session that has made steps already, or is recorded.
pub fn too_late() -> Error {
    Error::new(ErrorKind::AlreadyExists, "the session has made steps, or is recorded")
}
