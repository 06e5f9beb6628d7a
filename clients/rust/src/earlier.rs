//! What earlier runs of a program have left in a folder.

use crate::sys;
use std::fs::{self, File, Metadata};
use std::io::{self, Write};
use std::os::unix::fs::{DirEntryExt, MetadataExt};
use std::path::{Path, PathBuf};

/// The files of the program, as they were before its first test.
pub struct Earlier {
    folder: PathBuf,
    files: Vec<(String, u64)>,
    began: (i64, i64),
}

impl Earlier {
    /// Those whose names begin so.
    pub fn new(folder: &Path, program: &str) -> Earlier {
        let began = sys::time_of_files();
        let entries = fs::read_dir(folder).into_iter().flatten().flatten();
        let named = entries.filter_map(|entry| Some((entry.file_name().into_string().ok()?, entry.ino())));
        let is_ours = |name: &str| name.starts_with(program) && (is_whole(name) || running(name).is_some());
        Earlier {
            folder: folder.to_owned(),
            files: named.filter(|(name, _)| is_ours(name)).collect(),
            began,
        }
    }

    pub fn folder(&self) -> &Path {
        &self.folder
    }

    /// Whether there are some of this test.
    pub fn has(&self, stem: &str) -> bool {
        self.files.iter().any(|(name, _)| is_of(name, stem))
    }

    /// Tells of what the test left when its process died.
    pub fn tell(&self, stem: &str) {
        for (name, inode) in &self.files {
            if is_of(name, stem) && scenario_of(name) == *name && running(name).is_some() && self.is_to_go(name, *inode)
            {
                let path = self.folder.join(name);
                let _ = writeln!(
                    io::stderr(),
                    "tracehost: left by a test that ended its process: {}",
                    path.display()
                );
            }
        }
    }

    /// Removes those of the test.
    pub fn remove(&self, stem: &str) {
        for (name, inode) in &self.files {
            if is_of(name, stem) && self.is_to_go(name, *inode) {
                let _ = fs::remove_file(self.folder.join(name));
            }
        }
    }

    /// Whether it is the same file, from before this program's first test, and no process makes it.
    fn is_to_go(&self, name: &str, inode: u64) -> bool {
        let is_older = |status: &Metadata| (status.ctime(), status.ctime_nsec()) < self.began;
        fs::symlink_metadata(self.folder.join(name)).is_ok_and(|status| status.ino() == inode && is_older(&status))
            && !(running(name).is_some() && is_in_use(&self.folder.join(scenario_of(name))))
    }
}

/// Its process has locked the scenario.
fn is_in_use(scenario: &Path) -> bool {
    match File::open(scenario) {
        Ok(file) => !sys::lock(&file).unwrap_or(false),
        Err(error) => error.kind() != io::ErrorKind::NotFound,
    }
}

fn is_whole(name: &str) -> bool {
    [".json", ".out", ".html"].iter().any(|end| name.ends_with(end))
}

/// What the name of a running test's file is in the end, and the process's number.
fn running(name: &str) -> Option<(&str, &str)> {
    let (last, process) = name.rsplit_once('.')?;
    let is_number = !process.is_empty() && process.bytes().all(|byte| byte.is_ascii_digit());
    (is_number && is_whole(last)).then_some((last, process))
}

/// Whether a file's name is that of a test with this stem, or with a number after it.
fn is_of(name: &str, stem: &str) -> bool {
    name.strip_prefix(stem).is_some_and(|rest| rest.starts_with(['.', '-']))
}

/// The scenario's name, of which this may be another file while the test runs.
fn scenario_of(name: &str) -> String {
    let front = |last: &str| last.rsplit_once('.').map(|(front, _)| front.to_owned());
    match running(name) {
        Some((last, process)) => format!("{}.json.{process}", front(last).unwrap_or_default()),
        None => name.to_owned(),
    }
}

#[cfg(test)]
mod tests {
    use super::{is_of, running, scenario_of};

    #[test]
    fn names() {
        assert_eq!(running("a.b-1.out.77"), Some(("a.b-1.out", "77")));
        assert!(running("a.b-1.out").is_none() && running("a.b-1.txt.77").is_none() && running("7").is_none());
        assert_eq!(scenario_of("a.b-1.out.77"), "a.b-1.json.77");
        assert_eq!(scenario_of("a.b-1.out"), "a.b-1.out");
        assert!(is_of("a.b-1.out", "a.b-1") && is_of("a.b-1-2.out", "a.b-1") && !is_of("a.b-11.out", "a.b-1"));
    }
}
