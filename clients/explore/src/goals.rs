//! What has to stay reachable.

use crate::hosts::{At, Hosts};
use crate::model::{Kind, Property, Side};
use crate::notes::{Noted, Shape, Sums};
use crate::passes::Lacking;
use crate::places::Places;
use crate::process::Next;
use crate::rounds::{self, Bit};
use crate::search::{Failure, Fault, Search};
use crate::state::State;
use crate::symmetry::Symmetry;
use tracehost::{Error, Session};

/// What has to stay reachable: properties by their places.
#[derive(Debug)]
pub struct Goals {
    pub stuck: Option<usize>,
    pub no_progress: Option<usize>,
    pub all: Vec<Goal>,
}

/// A property's right side for a user, each by its place.
#[derive(Clone, Copy, Debug)]
pub struct Goal {
    pub property: usize,
    pub user: usize,
}

impl Goals {
    pub fn new(properties: &[Property], users: usize) -> Goals {
        let find = |wanted: fn(&Kind) -> bool| properties.iter().position(|property| wanted(&property.kind));
        let reached = properties.iter().enumerate();
        let reached = reached.filter(|(_, known)| matches!(known.kind, Kind::CanReach(_) | Kind::LeadsTo(..)));
        let goals = reached.flat_map(|(property, _)| (0..users).map(move |user| Goal { property, user }));
        Goals {
            stuck: find(|kind| matches!(kind, Kind::Stuck)),
            no_progress: find(|kind| matches!(kind, Kind::NoProgress)),
            all: goals.collect(),
        }
    }
}

impl Search<'_> {
    /// How much is noted of a state.
    pub fn shape(&self) -> Shape {
        let is_needed = self.goals.stuck.or(self.goals.no_progress).is_some();
        Shape {
            processes: if is_needed { self.processes.len() } else { 0 },
            goals: self.goals.all.len(),
        }
    }

    /// What a search has too many of.
    pub fn has_too_many(&self) -> Option<&'static str> {
        let groups = self.symmetry.map_or(Vec::new(), Symmetry::groups);
        if self.goals.all.len() > Places::MOST {
            return Some("a search has at most 256 properties of what has to be reachable, for each of its users one");
        }
        // a process needs two bits of a state
        let is_large = groups.iter().any(|group| 2 * group.len() > rounds::MOST);
        is_large.then_some("at most 32 processes are equal")
    }

    /// Notes which goals hold in a state, and from which they have to be reachable.
    pub fn note_goals(&self, hosts: &mut Hosts, at: &At, noted: &mut Noted) -> Result<(), Error> {
        for (number, goal) in self.goals.all.iter().enumerate() {
            let (user, property) = (self.users[goal.user], goal.property);
            if !hosts.holds(at, user, property, Side::Right)? {
                noted.missing.add(number);
            }
            if hosts.holds(at, user, property, Side::Left)? {
                noted.asked.add(number);
            }
        }
        Ok(())
    }

    /// The properties that were asked for in some state, by their places. A left side has to hold there, and an end to be one.
    pub fn asked(&self, sums: &Sums) -> Vec<usize> {
        let properties = self.properties.iter().enumerate();
        let asked = properties.filter(|(place, property)| match property.kind {
            Kind::AtEnd(_) => sums.has_end,
            Kind::CanReach(_) | Kind::LeadsTo(..) => {
                let mut goals = self.goals.all.iter().enumerate();
                goals.any(|(number, goal)| goal.property == *place && sums.asked.has(number))
            }
            _ => true,
        });
        asked.map(|(place, _)| place).collect()
    }

    /// The property that asks for a bit.
    pub fn property_of(&self, bit: Bit) -> usize {
        let property = match bit {
            Bit::Moves(_) => self.goals.stuck,
            Bit::Calls(_) | Bit::Gains(_) => self.goals.no_progress,
            Bit::Goal(goal) => Some(self.goals.all[goal].property),
        };
        property.expect("it is asked for")
    }

    /// The fault of a state from which something can't be reached.
    pub fn lack(&self, lacking: &Lacking, start: &Session) -> Result<Fault, Error> {
        let state = self.replay(lacking.number, &mut start.try_clone()?, |_, _, _| ())?;
        let failure = Failure {
            property: self.properties[self.property_of(lacking.bit)].name.clone(),
            why: self.lacks(lacking.bit, &state),
        };
        Ok(Fault::new(failure, lacking.number, None, lacking.order))
    }

    /// What can't be reached from a state, in words.
    fn lacks(&self, bit: Bit, state: &State) -> String {
        match bit {
            Bit::Moves(place) => {
                // without a deadlock another process of the user goes on
                let others = self.deadlock.map_or("", |_| ", while others go on");
                let step = self.step_at(state, place);
                let name = self.processes[place].name();
                format!("{name} waits for ever{others}: {}", step.as_deref().unwrap_or("memory"))
            }
            Bit::Calls(place) | Bit::Gains(place) => {
                let step = self.step_at(state, place);
                let step = step.map_or(String::new(), |step| format!(": {step}"));
                let name = self.processes[place].name();
                format!("{name} goes round for ever, and its calls change nothing{step}")
            }
            Bit::Goal(goal) => {
                let Goal { property, user } = self.goals.all[goal];
                let user = self.users[user];
                match self.properties[property].kind {
                    Kind::LeadsTo(..) => format!("user {user} can't reach what has to follow any more"),
                    _ => format!("user {user} can't reach it any more"),
                }
            }
        }
    }

    /// The step that a process asks for.
    fn step_at(&self, state: &State, place: usize) -> Option<String> {
        match self.processes[place].next(&state.places[place], &state.memories[self.user_of[place]]) {
            Next::Step(step, _) => Some(step.to_string()),
            Next::Blocked | Next::Ended => None,
        }
    }
}
