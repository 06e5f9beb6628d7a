//! All interleavings of small scripts on the proved model of FreeBSD's ptrace(2), wait(2), sigaction(2) and kill(2).
//!
//! A [`Model`] sets up a world, and returns its processes: [`Script`]s, or state machines of your own that are a [`Process`].
//! Each of their calls is a step of the model, between which others go on. [`explore`] searches all states that they reach,
//! breadth-first, so that the trace of a failure is a shortest one. [`Found::save`] writes it as a scenario, which `tracehost
//! --expect` replays: a failure needs no trust in the search.
//!
//! That all interleavings pass rests on these:
//!
//! - Proved: two sessions with the same numbers for a user ([`tracehost::Session::state`]) show the user the same (law
//!   `states_tell`), answer the user's next step alike, have the same numbers again, and keep them in another user's step
//!   (law `same_states_answer_alike`). So states may be joined, an answer may be kept and used again, and each user's processes
//!   may be searched by themselves.
//! - Trusted: that the search tries every step; the set of states, whose keys are 128 bits of a hash
//!   ([`Found::collision`]); that scripts return the same for the same place and memory, and share nothing else.

mod ahead;
mod alike;
mod answers;
mod batch;
mod calls;
mod checkpoint;
mod coverage;
mod exchange;
mod explore;
mod found;
mod goals;
mod hash;
mod hosts;
mod kept;
mod layers;
mod levels;
mod list;
mod marks;
mod memory;
mod model;
pub mod models;
mod notes;
mod outline;
mod packed;
mod passes;
mod places;
mod process;
mod progress;
mod rounds;
mod script;
mod search;
mod sessions;
mod set;
mod state;
mod states;
mod step;
mod store;
mod symmetry;
mod worker;

pub use calls::Calls;
pub use coverage::{Coverage, Vacuous};
pub use explore::{explore, Error, Options};
pub use found::{Found, Taken, Unfinished};
pub use model::{deadlock, ended_by_signal, no_progress, stuck, unreported_stop, Model, Property};
pub use outline::Outline;
pub use process::{Answer, Memory, Next, Place, Process, When};
pub use script::{Go, Going, Script};
pub use search::Failure;
pub use step::Step;
