//! What a test that fails leaves: its files, whose folder programs, tests and processes share.
//!
//! While the test runs, the process's number is at the end of their names. A process that ends in between leaves them so.

use crate::earlier::Earlier;
use crate::sys;
use std::collections::hash_map::RandomState;
use std::collections::BTreeSet;
use std::env;
use std::fmt::Display;
use std::fs::{self, DirBuilder, File, OpenOptions};
use std::hash::{BuildHasher, Hasher};
use std::io::{self, Error, ErrorKind, Write};
use std::os::unix::ffi::OsStrExt;
use std::os::unix::fs::{DirBuilderExt, OpenOptionsExt};
use std::path::{Path, PathBuf};
use std::process;
use std::sync::Mutex;
use std::thread;
use std::time::Duration;

const MOST_OF_A_PROGRAM: usize = 30;
const MOST_OF_A_TEST: usize = 50;
const TRIES: u32 = 1000;

/// The names that tests of this process have, while they run, and if they have failed.
static NAMES: Mutex<BTreeSet<String>> = Mutex::new(BTreeSet::new());
/// What earlier runs have left.
static EARLIER: Mutex<Option<Earlier>> = Mutex::new(None);

/// Three files: their names in the end, or while the test runs.
#[derive(Debug)]
pub struct Names {
    pub scenario: PathBuf,
    pub lines: PathBuf,
    pub page: PathBuf,
}

impl Names {
    fn new(folder: &Path, name: &str, end: &str) -> Names {
        let path = |kind: &str| folder.join(format!("{name}.{kind}{end}"));
        Names {
            scenario: path("json"),
            lines: path("out"),
            page: path("html"),
        }
    }

    /// What a failed test prints, with why there is no page, and with its story, which ends with the command that goes on.
    pub fn told(&self, page: &Result<(), String>, story: Option<String>) -> String {
        let page = match page {
            Ok(()) => self.page.display().to_string(),
            Err(why) => format!("none: {why}"),
        };
        let scenario = self.scenario.display();
        let story = story.unwrap_or_else(|| format!("tracehost: to go on from here: tracehost-debug {scenario}"));
        format!(
            "tracehost: scenario: {scenario}\ntracehost: lines:    {}\ntracehost: page:     {page}\n{story}",
            self.lines.display()
        )
    }

    fn remove(&self) {
        for path in [&self.page, &self.lines, &self.scenario] {
            let _ = fs::remove_file(path);
        }
    }
}

/// The files of a test.
#[derive(Debug)]
pub struct Artifacts {
    /// The names that the files get if the test fails.
    pub last: Names,
    /// Their names while it runs.
    pub now: Names,
    folder: PathBuf,
    /// `$TRACEHOST_TRACES`.
    traces: Option<PathBuf>,
    has_own_folder: bool,
    stem: String,
    name: String,
    /// The scenario. While it is open it is locked, so that others know it from what a dead process has left.
    _locked: File,
}

impl Artifacts {
    /// Makes the files of a test of this name, and opens those of its recording.
    pub fn open(test: &str) -> io::Result<(Artifacts, File, File)> {
        let (program, stem) = stem(test)?;
        let named_folder = env::var_os("TRACEHOST_ARTIFACTS").filter(|named| !named.is_empty());
        let traces = env::var_os("TRACEHOST_TRACES").filter(|named| !named.is_empty());
        let traces = traces
            .map(|named| env::current_dir().map(|here| here.join(named)))
            .transpose()?;
        let has_own_folder = named_folder.is_none();
        let folder = match named_folder {
            Some(named) => env::current_dir()?.join(named),
            None => new_folder(&plain(test.as_bytes(), MOST_OF_A_TEST))?,
        };
        fs::create_dir_all(&folder).map_err(|error| named(&folder, &error))?;
        if !has_own_folder {
            with_earlier(&folder, &program, |earlier| earlier.tell(&stem));
        }
        let name = take_name(&stem);
        let now = Names::new(&folder, &name, &format!(".{}", process::id()));
        let opened = opened(&now.scenario).and_then(|scenario| Ok((scenario, opened(&now.lines)?)));
        let (locked, lines) = opened.map_err(|error| {
            give_back(&name);
            error
        })?;
        let _ = sys::lock(&locked);
        let file = locked.try_clone()?;
        let made = Artifacts {
            last: Names::new(&folder, &name, ""),
            now,
            folder,
            traces,
            has_own_folder,
            stem,
            name,
            _locked: locked,
        };
        Ok((made, file, lines))
    }

    /// Copies the scenario to the folder `$TRACEHOST_TRACES`, if it is set. What goes wrong is told.
    pub fn leave_trace(&self) {
        let Some(folder) = &self.traces else { return };
        if let Err(error) = self.copy_to(folder) {
            let _ = writeln!(
                io::stderr(),
                "tracehost: no trace is left in {}: {error}",
                folder.display()
            );
        }
    }

    /// As `STEM.PROCESS.json`, with a number if there is a file of this name.
    fn copy_to(&self, folder: &Path) -> io::Result<()> {
        fs::create_dir_all(folder)?;
        let mut name = format!("{}.{}", self.stem, process::id());
        for nth in 2.. {
            let path = folder.join(format!("{name}.json"));
            match OpenOptions::new().write(true).create_new(true).open(&path) {
                Err(error) if error.kind() == ErrorKind::AlreadyExists => {
                    name = format!("{}.{}-{nth}", self.stem, process::id())
                }
                Err(error) => return Err(error),
                Ok(mut trace) => {
                    let copied = File::open(&self.now.scenario).and_then(|mut from| io::copy(&mut from, &mut trace));
                    return copied.map(|_| ()).map_err(|error| {
                        let _ = fs::remove_file(&path);
                        error
                    });
                }
            }
        }
        Ok(())
    }

    /// The test has passed.
    pub fn remove(self) {
        self.now.remove();
        give_back(&self.name);
        self.remove_earlier();
        if self.has_own_folder {
            let _ = fs::remove_dir(&self.folder);
        }
    }

    /// The test has failed: its files get their last names. The page may be made before or afterwards.
    pub fn keep(self) -> io::Result<Names> {
        let lock = FolderLock::new(&self.folder)?;
        fs::rename(&self.now.scenario, &self.last.scenario)?;
        let _ = fs::rename(&self.now.lines, &self.last.lines);
        if fs::rename(&self.now.page, &self.last.page).is_err() {
            let _ = fs::remove_file(&self.last.page); // of an earlier run
        }
        drop(lock);
        self.remove_earlier();
        Ok(self.last)
    }

    fn remove_earlier(&self) {
        if !self.has_own_folder {
            with_earlier(&self.folder, "", |earlier| {
                if earlier.has(&self.stem) {
                    let _lock = FolderLock::new(&self.folder);
                    earlier.remove(&self.stem);
                }
            });
        }
    }
}

/// Locks a folder, so that nobody else renames or removes its files.
struct FolderLock(Option<File>);

impl FolderLock {
    /// It goes on without the lock if there is none to be had. An error if somebody has it for a long time.
    fn new(folder: &Path) -> io::Result<FolderLock> {
        let Ok(file) = File::open(folder) else {
            return Ok(FolderLock(None));
        };
        for _ in 0..TRIES {
            match sys::lock(&file) {
                Ok(true) => return Ok(FolderLock(Some(file))),
                Ok(false) => thread::sleep(Duration::from_millis(10)),
                Err(_) => return Ok(FolderLock(None)),
            }
        }
        Err(Error::new(
            ErrorKind::TimedOut,
            "another process has locked the folder for a long time",
        ))
    }
}

impl Drop for FolderLock {
    fn drop(&mut self) {
        if let Some(file) = &self.0 {
            sys::unlock(file); // a child that was forked meanwhile has it too
        }
    }
}

/// What `act` does with what earlier runs of the program have left in a folder. It is looked for before the first test.
fn with_earlier(folder: &Path, program: &str, act: impl FnOnce(&Earlier)) {
    let Ok(mut earlier) = EARLIER.lock() else { return };
    if earlier.as_ref().map_or(true, |earlier| earlier.folder() != folder) {
        *earlier = Some(Earlier::new(folder, program));
    }
    if let Some(earlier) = &*earlier {
        act(earlier);
    }
}

/// The name, with a number if a test has it. It is the caller's from now on.
fn take_name(stem: &str) -> String {
    let Ok(mut names) = NAMES.lock() else {
        return stem.to_owned();
    };
    let mut name = stem.to_owned();
    for nth in 2.. {
        if names.insert(name.clone()) {
            break;
        }
        name = format!("{stem}-{nth}");
    }
    name
}

fn give_back(name: &str) {
    if let Ok(mut names) = NAMES.lock() {
        names.remove(name);
    }
}

/// `PROGRAM.`, and how the names of a test's files begin: `PROGRAM.TEST-DIGEST`.
fn stem(test: &str) -> io::Result<(String, String)> {
    let path = env::current_exe()?;
    let path = without_hash(path.as_os_str().as_bytes());
    let name = path.rsplit(|&byte| byte == b'/').next().unwrap_or_default();
    let mut program = plain(name, MOST_OF_A_PROGRAM);
    if program.starts_with(['.', '-']) {
        program.replace_range(..1, "_");
    }
    let digest = digest(&[path, b"\0", test.as_bytes(), b"\0"]);
    let test = plain(test.as_bytes(), MOST_OF_A_TEST);
    let stem = format!("{program}.{test}-{digest:012x}");
    Ok((program + ".", stem))
}

/// The path of a program without what Cargo adds to its name.
fn without_hash(path: &[u8]) -> &[u8] {
    match path.iter().rposition(|&byte| byte == b'-') {
        Some(at) if path.len() - at == 17 && path[at + 1..].iter().all(u8::is_ascii_hexdigit) => &path[..at],
        _ => path,
    }
}

/// The name, with plain characters only, and at most so many.
fn plain(name: &[u8], most: usize) -> String {
    let is_plain = |byte: u8| byte.is_ascii_alphanumeric() || b"_-.".contains(&byte);
    let kept = |&byte: &u8| if is_plain(byte) { char::from(byte) } else { '_' };
    name.iter().take(most).map(kept).collect()
}

/// 48 bits of an FNV-1a of the parts.
pub(crate) fn digest(parts: &[&[u8]]) -> u64 {
    let digest = parts
        .concat()
        .iter()
        .fold(14_695_981_039_346_656_037_u64, |digest, &byte| {
            (digest ^ u64::from(byte)).wrapping_mul(1_099_511_628_211)
        });
    digest & 0xffff_ffff_ffff
}

/// A new folder below the one for temporary files.
fn new_folder(name: &str) -> io::Result<PathBuf> {
    loop {
        let random = RandomState::new().build_hasher().finish();
        let folder = env::temp_dir().join(format!("tracehost-{name}-{random:016x}"));
        match DirBuilder::new().mode(0o700).create(&folder) {
            Err(error) if error.kind() == ErrorKind::AlreadyExists => continue,
            made => return made.map(|()| folder.clone()).map_err(|error| named(&folder, &error)),
        }
    }
}

/// A new file.
fn opened(path: &Path) -> io::Result<File> {
    OpenOptions::new()
        .read(true)
        .write(true)
        .create(true)
        .truncate(true)
        .custom_flags(sys::O_NOFOLLOW)
        .open(path)
        .map_err(|error| named(path, &error))
}

/// Tells of a test that isn't recorded, on standard error itself: `cargo test` shows what is printed only if a test fails.
pub fn tell_lost(what: impl Display, since: &str, error: &Error) {
    let _ = writeln!(io::stderr(), "tracehost: {what}: not recorded{since}: {error}");
}

/// The error, with the file that it is about.
pub fn named(path: &Path, error: &Error) -> Error {
    Error::new(error.kind(), format!("{}: {error}", path.display()))
}

#[cfg(test)]
mod tests {
    use super::{digest, plain, take_name, without_hash};

    #[test]
    fn names_of_files() {
        assert_eq!(plain(b"attach_stops", 50), "attach_stops");
        assert_eq!(plain("a/b \u{e9}".as_bytes(), 50), "a_b___");
        assert_eq!(plain(&[b'x'; 300], 50).len(), 50);
        assert_eq!(without_hash(b"/deps/one-0123456789abcdef"), b"/deps/one");
        assert_eq!(without_hash(b"/deps/one-0123456789abcde"), b"/deps/one-0123456789abcde");
        assert_eq!(digest(&[b"a"]), 0xdc4c_8601_ec8c); // by the tables of FNV-1a: af63dc4c8601ec8c
        assert_ne!(digest(&[b"a::b"]), digest(&[b"a:_b"]));
    }

    #[test]
    fn a_name_that_is_in_use_gets_a_number() {
        let names: Vec<String> = (0..3).map(|_| take_name("in_use")).collect();
        assert_eq!(names, ["in_use", "in_use-2", "in_use-3"]);
        super::give_back("in_use-2");
        assert_eq!(take_name("in_use"), "in_use-2");
    }
}
