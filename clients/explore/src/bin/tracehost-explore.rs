//! Searches a race of `clients/posix/races`, or its remedy.

use std::env;
use std::ffi::OsString;
use std::fmt::Display;
use std::io::{self, Write};
use std::path::PathBuf;
use std::process::ExitCode;
use std::str::FromStr;
use std::time::Duration;
use tracehost_explore::models::{Race, ALL};
use tracehost_explore::{explore, Error, Found, Options};

const HELP: &str = "usage: tracehost-explore [OPTION ..] MODEL

Searches all interleavings of a debugger that has a race.

  --right             its remedy
  --size N            how many signals, threads or targets
  --users N           so many users, each with all of it
  --ticker            beside a process of each user that computes for ever
  --together          searches the users together, and not each by itself
  --symmetric         takes states that differ only by an exchange of equal processes as one
  --threads N         threads; as many as the machine runs at once
  --limit N           the most states (1000000)
  --memory MIB        the most memory for the states (4096)
  --answers N         the most answers that are kept, of 50 bytes each (4194304)
  --progress SECONDS  prints lines to standard error
  --checkpoint FILE   writes the search into the file now and then
  --every SECONDS     how often (60)
  --resume            goes on from that file, if it is there
  --save FILE.json    writes the trace of a failure as a scenario, and its lines as FILE.out
  --list              lists the models
  --help              prints this

status: 0 all interleavings pass, 1 a failure, 2 a mistake on the command line, 3 not finished, or a fault of the host
";

const FAILED: u8 = 1;
const MISTAKE: u8 = 2;
const FAULT: u8 = 3;

/// What the command line asks for.
struct Asked {
    race: &'static Race,
    right: bool,
    size: Option<u8>,
    users: u32,
    ticker: bool,
    save: Option<PathBuf>,
    options: Options,
}

/// Why there is nothing to search.
enum Stop {
    Printed(String),
    Mistake(String),
}

/// The value of an option.
fn value(option: &str, words: &mut impl Iterator<Item = OsString>) -> Result<OsString, Stop> {
    words
        .next()
        .ok_or_else(|| Stop::Mistake(format!("{option} needs a value")))
}

fn number<T: FromStr>(option: &str, words: &mut impl Iterator<Item = OsString>) -> Result<T, Stop>
where
    T::Err: Display,
{
    let word = value(option, words)?;
    let word = word.to_string_lossy();
    word.parse()
        .map_err(|error| Stop::Mistake(format!("{option} {word}: {error}")))
}

/// Takes an option of the search; false if it is none.
fn set(options: &mut Options, option: &str, words: &mut impl Iterator<Item = OsString>) -> Result<bool, Stop> {
    match option {
        "--together" => options.together = true,
        "--symmetric" => options.symmetric = true,
        "--resume" => options.resume = true,
        "--threads" => options.threads = number(option, words)?,
        "--limit" => options.limit = number(option, words)?,
        "--memory" => options.memory = number::<usize>(option, words)?.saturating_mul(1 << 20),
        "--answers" => options.answers = number(option, words)?,
        "--progress" => options.progress = Some(Duration::from_secs(number(option, words)?)),
        "--every" => options.every = Duration::from_secs(number(option, words)?),
        "--checkpoint" => options.checkpoint = Some(value(option, words)?.into()),
        _ => return Ok(false),
    }
    Ok(true)
}

fn list() -> String {
    ALL.iter()
        .map(|race| format!("{:22} {}\n", race.name, race.about))
        .collect()
}

fn asked(mut words: impl Iterator<Item = OsString>) -> Result<Asked, Stop> {
    let (mut race, mut right, mut size, mut users, mut ticker, mut save) = (None, false, None, 1, false, None);
    let mut options = Options::default();
    while let Some(word) = words.next() {
        let word = word.to_string_lossy();
        let (option, words) = (&*word, &mut words);
        match option {
            "--right" => right = true,
            "--ticker" => ticker = true,
            "--size" => size = Some(number(option, words)?),
            "--users" => users = number(option, words)?,
            "--save" => save = Some(value(option, words)?.into()),
            "--help" => return Err(Stop::Printed(HELP.to_owned())),
            "--list" => return Err(Stop::Printed(list())),
            option if set(&mut options, option, words)? => (),
            option if option.starts_with('-') => return Err(Stop::Mistake(format!("there is no option {option}"))),
            name if race.is_some() => return Err(Stop::Mistake(format!("a second model, {name}"))),
            name => race = Some(Race::named(name).ok_or_else(|| Stop::Mistake(format!("there is no model {name}")))?),
        }
    }
    let race = race.ok_or_else(|| Stop::Mistake("a model is missing".to_owned()))?;
    let asked = Asked {
        race,
        right,
        size,
        users,
        ticker,
        save,
        options,
    };
    mistake(&asked).map_or(Ok(asked), |mistake| Err(Stop::Mistake(mistake)))
}

/// What doesn't fit together.
fn mistake(asked: &Asked) -> Option<String> {
    let race = asked.race;
    if !(1..=64).contains(&asked.users) {
        Some("--users is 1 to 64".to_owned())
    } else if asked.size.is_some_and(|size| !race.sizes().contains(&size)) {
        Some(format!("--size of {} is {:?}", race.name, race.sizes()))
    } else if asked.options.resume && asked.options.checkpoint.is_none() {
        Some("--resume needs --checkpoint".to_owned())
    } else {
        None
    }
}

fn tell(found: &Found) -> io::Result<()> {
    let mut out = io::stdout().lock();
    writeln!(out, "{found}")?;
    if found.failure.is_none() {
        writeln!(
            out,
            "a state was taken for another with a probability below {:.0e}",
            found.collision()
        )?;
    }
    out.flush()
}

fn run(asked: &Asked) -> Result<ExitCode, String> {
    let size = asked.size.unwrap_or(asked.race.size);
    let model = asked.race.beside(asked.right, asked.users, size, asked.ticker);
    let found = explore(&model, &asked.options).map_err(|error: Error| error.to_string())?;
    tell(&found).map_err(|error| format!("standard output: {error}"))?;
    if let (Some(path), true) = (&asked.save, found.failure.is_some()) {
        found
            .save(path)
            .map_err(|error| format!("{}: {error}", path.display()))?;
    }
    Ok(match (found.passed(), &found.failure) {
        (true, _) => ExitCode::SUCCESS,
        (_, Some(_)) => FAILED.into(),
        (_, None) => FAULT.into(),
    })
}

fn main() -> ExitCode {
    let told = match asked(env::args_os().skip(1)) {
        Ok(asked) => run(&asked),
        Err(Stop::Mistake(mistake)) => {
            let _ = writeln!(io::stderr(), "tracehost-explore: {mistake}\n\n{HELP}");
            return MISTAKE.into();
        }
        Err(Stop::Printed(text)) => {
            let mut out = io::stdout().lock();
            let written = out.write_all(text.as_bytes()).and_then(|()| out.flush());
            written
                .map(|()| ExitCode::SUCCESS)
                .map_err(|error| format!("standard output: {error}"))
        }
    };
    told.unwrap_or_else(|error| {
        let _ = writeln!(io::stderr(), "tracehost-explore: {error}");
        FAULT.into()
    })
}
