//! What a search lets run: processes that say at each place which step is next.

use crate::coverage::Coverage;
use crate::outline::Outline;
use crate::step::Step;
use tracehost::{Error, New, Reply};

/// What a step was answered.
pub type Answer = Result<Reply, Error>;

/// Where a process is, and what it remembers. It is part of a state, so it should hold nothing that doesn't matter any more.
#[derive(Clone, Copy, Debug, Default, PartialEq, Eq, PartialOrd, Ord, Hash)]
pub struct Place {
    /// A number of the process's own, such as a line.
    pub at: u8,
    /// Small numbers.
    pub bytes: [u8; 7],
    /// Numbers of processes and LWPs, or 0.
    pub numbers: [u32; 2],
}

impl Place {
    pub(crate) fn words(self) -> [u64; 2] {
        let [a, b, c, d, e, f, g] = self.bytes;
        let [low, high] = self.numbers;
        [
            u64::from_le_bytes([self.at, a, b, c, d, e, f, g]),
            u64::from(low) | u64::from(high) << 32,
        ]
    }

    pub(crate) fn of_words(words: [u64; 2]) -> Place {
        let [at, bytes @ ..] = words[0].to_le_bytes();
        Place {
            at,
            bytes,
            numbers: [words[1] as u32, (words[1] >> 32) as u32],
        }
    }
}

/// Memory that the processes of a user share, as threads do. A look at it, and a change of it, comes with a step.
pub type Memory = [u8; 8];

/// When a step can be made. Until then others have to go on.
#[derive(Clone, Copy, Debug, PartialEq, Eq)]
pub enum When {
    /// Once the caller, or the LWP, runs.
    Runs,
    /// Once it is answered by something: a wait.
    News,
    /// Once a signal is pending that this LWP doesn't block: the end of a call that a signal ends.
    Signal(u32),
}

/// What a process does next.
#[derive(Clone, Copy, Debug, PartialEq, Eq)]
pub enum Next {
    /// It makes this step.
    Step(Step, When),
    /// It waits for what another writes into the memory.
    Blocked,
    /// It has come to its end.
    Ended,
}

/// A process, or one LWP of it, in a search. It has ended once a turn finds that its LWP is gone, or a call that its process
/// is; one that isn't there yet begins when it is. All that it knows is its place and the memory: both functions return the same
/// for the same arguments.
///
/// ```
/// use tracehost::{Caller, Request};
/// use tracehost_explore::{explore, Answer, Memory, Model, Next, Options, Place, Process, Step, When};
///
/// /// Attaches to a process, or finds that another has been faster.
/// struct Attaching(Caller, u32);
///
/// impl Process for Attaching {
///     fn name(&self) -> &str {
///         "attaching"
///     }
///
///     fn user(&self) -> u32 {
///         self.0.user
///     }
///
///     fn next(&self, place: &Place, _: &Memory) -> Next {
///         match place.at {
///             0 => Next::Step(Step::Ptrace(self.0, Request::Attach, self.1), When::Runs),
///             _ => Next::Ended,
///         }
///     }
///
///     fn answered(&self, place: &mut Place, memory: &mut Memory, answer: &Answer) -> Result<(), String> {
///         place.at = 1;
///         memory[0] += u8::from(answer.is_ok());
///         if memory[0] > 1 { Err("two have attached".to_owned()) } else { Ok(()) }
///     }
/// }
///
/// # fn main() -> Result<(), tracehost_explore::Error> {
/// let model = Model::new("two debuggers", |host| {
///     let target = host.spawn(1001)?.pid;
///     let mut debugger = || Ok::<_, tracehost::Error>(Caller { user: 1001, pid: host.spawn(1001)?.pid });
///     Ok(vec![Box::new(Attaching(debugger()?, target)), Box::new(Attaching(debugger()?, target))])
/// });
/// let found = explore(&model, &Options::default())?;
/// assert!(found.passed());
/// assert_eq!(found.to_string(), "all interleavings passed: 5 states, 4 transitions");
/// # Ok(())
/// # }
/// ```
pub trait Process: Send + Sync {
    /// Its name in traces.
    fn name(&self) -> &str;

    /// Whose process it is.
    fn user(&self) -> u32;

    /// Where it begins.
    fn begin(&self) -> Place {
        Place::default()
    }

    /// Its numbers, and a number that those equal to it have too: processes of a user with the same script from the same start.
    /// See [`Options::symmetric`](crate::Options::symmetric). The process is there at the start.
    fn alike(&self) -> Option<(u8, New)> {
        None
    }

    /// Where it notes which of its lines were made, so that a pass tells which weren't. It changes nothing that the process does.
    fn coverage(&self) -> Option<&Coverage> {
        None
    }

    /// What is fixed of its text, if that is known.
    fn outline(&self) -> Option<&Outline> {
        None
    }

    /// What it does next.
    fn next(&self, place: &Place, memory: &Memory) -> Next;

    /// Goes on from the answer to its step.
    ///
    /// # Errors
    ///
    /// What is wrong, if something is: the search has found a failure.
    fn answered(&self, place: &mut Place, memory: &mut Memory, answer: &Answer) -> Result<(), String>;
}
