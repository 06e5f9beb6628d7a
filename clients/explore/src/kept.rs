//! The file of a search, and what it is of.

use crate::checkpoint::{self, Identity};
use crate::explore::{Error, Options};
use crate::hash::{Hasher, Key};
use crate::levels::Levels;
use crate::memory::room;
use crate::model::Model;
use crate::process::Process;
use crate::search::Search;
use std::env;
use std::ffi::OsString;
use std::fs::File;
use std::io::{self, ErrorKind, Read};
use std::path::PathBuf;
use std::time::{Duration, Instant};
use tracehost::Session;

/// What writing takes, and a little.
const RESERVE: usize = 4 << 20;

/// The file of a search.
pub struct Checkpoints {
    path: Option<PathBuf>,
    identity: Identity,
    resume: bool,
    every: Duration,
    last: Instant,
    /// Memory for the last one.
    reserve: Vec<u8>,
}

impl Checkpoints {
    /// The file that the options ask for. What a killed search hasn't written to its end is removed.
    pub fn new(model: &Model, options: &Options, search: &Search) -> Result<Checkpoints, Error> {
        let path = options.checkpoint.as_ref().map(|path| {
            let mut name = path.clone().into_os_string();
            if !options.together {
                name.push(format!(".{}", search.users[0]));
            }
            PathBuf::from(name)
        });
        let mut checkpoints = Checkpoints {
            path,
            identity: Vec::new(),
            resume: options.resume,
            every: options.every,
            last: Instant::now(),
            reserve: Vec::new(),
        };
        if let Some(path) = &checkpoints.path {
            checkpoint::remove_unfinished(path);
            checkpoints.identity = identity(model, search).map_err(|error| checkpoints.failed(error))?;
            checkpoints.reserve = room(RESERVE).map_err(tracehost::Error::from)?;
        }
        Ok(checkpoints)
    }

    fn failed(&self, error: io::Error) -> Error {
        Error::Checkpoint(self.path.clone().unwrap_or_default(), error)
    }

    /// Goes on from the file, if it is there and the search is to go on from it.
    pub fn restore(&self, levels: &mut Levels, start: &Session) -> Result<bool, Error> {
        let Some(path) = self.path.as_ref().filter(|path| self.resume && path.exists()) else {
            return Ok(false);
        };
        let saved = checkpoint::read(path, &self.identity).map_err(|error| self.failed(error))?;
        levels.restore(saved).map_err(|error| self.failed(error))?;
        if levels.come_to_front(start)? {
            return Ok(true);
        }
        let why = "it is of another search: the processes don't come to its states";
        Err(self.failed(io::Error::new(ErrorKind::InvalidInput, why)))
    }

    pub fn write_if_due(&mut self, levels: &Levels) -> Result<(), Error> {
        if self.path.is_some() && self.last.elapsed() >= self.every {
            self.write(levels)?;
            self.last = Instant::now();
        }
        Ok(())
    }

    /// Writes a search that isn't finished, and won't be.
    pub fn write_last(&mut self, levels: &mut Levels) -> Result<(), Error> {
        self.reserve = Vec::new();
        levels.free();
        self.write(levels)
    }

    fn write(&self, levels: &Levels) -> Result<(), Error> {
        let written = self.path.iter().try_for_each(|path| levels.save(path, &self.identity));
        written.map_err(|error| self.failed(error))
    }
}

/// What a checkpoint is of.
fn identity(model: &Model, search: &Search) -> io::Result<Identity> {
    let Key(first, second) = search.start_key;
    let properties: Vec<&str> = model.properties.iter().map(|property| &*property.name).collect();
    let arguments = model.arguments.clone();
    let arguments: Vec<OsString> = arguments.unwrap_or_else(|| env::args_os().skip(1).collect());
    Ok(vec![
        ("the model", model.name.clone()),
        ("the library's version", env!("CARGO_PKG_VERSION").to_owned()),
        ("the program", program()?),
        ("the start", digits(Key(first, second))),
        ("the users", format!("{:?}", search.users)),
        ("the properties", properties.join(", ")),
        ("the exchange of equal processes", search.symmetry.is_some().to_string()),
        ("the arguments", format!("{arguments:?}")),
        ("the parameters", format!("{:?}", model.parameters)),
        ("the scripts", scripts(search.processes)),
    ])
}

fn digits(Key(first, second): Key) -> String {
    format!("{first:016x}{second:016x}")
}

/// Adds bytes with their count.
fn add(hasher: &mut Hasher, bytes: &[u8]) {
    for chunk in bytes.chunks(8) {
        let mut word = [0; 8];
        word[..chunk.len()].copy_from_slice(chunk);
        hasher.word(u64::from_le_bytes(word));
    }
    hasher.word(bytes.len() as u64);
}

/// A digest of what is fixed of the scripts.
fn scripts(processes: &[&dyn Process]) -> String {
    let mut hasher = Hasher::new();
    for process in processes {
        let text = format!("{} {} {:?}", process.name(), process.user(), process.alike());
        add(&mut hasher, text.as_bytes());
        add(&mut hasher, format!("{:?}", process.outline()).as_bytes());
    }
    digits(hasher.key())
}

/// A digest of the program that runs, whose text is that of its scripts.
fn program() -> io::Result<String> {
    let mut file = File::open("/proc/self/exe").or_else(|_| File::open(env::current_exe()?))?;
    let (mut hasher, mut bytes) = (Hasher::new(), vec![0; 1 << 16]);
    loop {
        let count = file.read(&mut bytes)?;
        if count == 0 {
            return Ok(digits(hasher.key()));
        }
        add(&mut hasher, &bytes[..count]);
    }
}
