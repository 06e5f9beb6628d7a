//! Mistakes of a model: steps that a process can't make, and equal processes that are told apart.

use super::{Failure, Fault, Search};
use crate::hosts::{At, Hosts};
use crate::process::Process;
use crate::set::Number;
use crate::state::State;
use crate::step::Step;
use tracehost::Error;

impl Fault {
    pub fn mistake(why: String, from: Number, order: u64) -> Fault {
        let property = "model".to_owned();
        Fault {
            failure: Failure { property, why },
            from,
            by: None,
            is_mistake: true,
            order,
        }
    }
}

impl Search<'_> {
    /// Why a process can't make this step, if it can't: one of another user would change what isn't looked at.
    pub fn mistake(&self, process: &dyn Process, step: Step) -> Option<String> {
        let name = process.name();
        match step {
            step if step.user() != process.user() => {
                let [whose, own] = [step.user(), process.user()];
                Some(format!(
                    "{name}: {step} is a step of user {whose}, and it is a process of {own}"
                ))
            }
            Step::Handle(_) if self.symmetry.is_some() => {
                Some(format!("{name}: {step} depends on the order of numbers"))
            }
            _ => None,
        }
    }

    /// What tells equal processes apart in this state, in words: a process that does something else once they are exchanged, or
    /// a property that says something else.
    pub fn tells_apart(&self, hosts: &mut Hosts, at: &At, state: &State) -> Result<Option<String>, Error> {
        let Some(symmetry) = self.symmetry else {
            return Ok(None);
        };
        for (process, place) in state.places.iter().enumerate() {
            let memory = state.memories[self.user_of[process]];
            if let Err(why) = hosts.alike.ask(symmetry, self.processes, (process, *place), memory) {
                return Ok(Some(why));
            }
        }
        let asks = self.watches || !self.goals.all.is_empty();
        for user in self.users.iter().filter(|_| asks) {
            if let Some(why) = hosts.told_apart(at, *user, false)? {
                return Ok(Some(why));
            }
        }
        Ok(None)
    }
}
