//! All states and steps, one by one, and what can be reached, by definition.

use super::{fate, whole, Fate, State, Whole};
use std::collections::HashMap;
use tracehost::{Session, View};
use tracehost_explore::{Model, Next, Process};

/// What a process does in a state.
#[derive(Clone, Copy, Debug, PartialEq, Eq)]
pub enum Does {
    Ended,
    Waits,
    /// It goes on.
    Goes {
        /// Whether each of its steps is a call that changes nothing but its place.
        calls_in_vain: bool,
        /// Whether a step changes what is seen, or memory.
        changes: bool,
    },
}

/// A state.
pub struct Node {
    /// The steps of a shortest way there.
    pub depth: usize,
    /// Of each process.
    pub does: Vec<Does>,
    /// What the users see.
    pub views: Vec<View>,
    pub next: Vec<usize>,
}

/// All states.
pub struct Graph {
    pub users: Vec<u32>,
    pub processes: Vec<Box<dyn Process>>,
    pub nodes: Vec<Node>,
}

struct Builder {
    users: Vec<u32>,
    numbers: HashMap<Whole, usize>,
    states: Vec<(Session, State, usize)>,
}

impl Builder {
    fn number(&mut self, session: Session, state: State, depth: usize) -> usize {
        let count = self.numbers.len();
        let number = *self
            .numbers
            .entry(whole(&session, &self.users, &state))
            .or_insert(count);
        if number == count {
            self.states.push((session, state, depth));
        }
        number
    }

    /// What a process does in a state, and where that leads.
    fn does(&mut self, state: usize, place: usize, process: &dyn Process) -> (Does, Vec<usize>) {
        let (session, state, depth) = &self.states[state];
        let (depth, before) = (*depth, whole(session, &self.users, state));
        let memory = state.memories[&process.user()];
        let is_call = match process.next(&state.places[place], &memory) {
            Next::Step(step, _) => step.caller().is_some(),
            _ => false,
        };
        match fate(session, state, place, process) {
            Fate::Ended => (Does::Ended, Vec::new()),
            Fate::Waits => (Does::Waits, Vec::new()),
            Fate::Goes(went) => {
                let (mut changes, mut next) = (false, Vec::new());
                for (session, state, fails) in went {
                    assert!(!fails, "only what has no failed assertion is asked for");
                    let (seen, _, memories) = whole(&session, &self.users, &state);
                    changes |= seen != before.0 || memories != before.2;
                    next.push(self.number(session, state, depth + 1));
                }
                let calls_in_vain = is_call && !changes;
                (Does::Goes { calls_in_vain, changes }, next)
            }
        }
    }
}

/// All states, or none if there are more than so many.
pub fn graph(model: &Model, most: usize) -> Option<Graph> {
    let (session, processes) = model.set_up().expect("a world");
    let mut users: Vec<u32> = processes.iter().map(|process| process.user()).collect();
    users.sort_unstable();
    users.dedup();
    let state = State {
        places: processes.iter().map(|process| process.begin()).collect(),
        memories: users.iter().map(|user| (*user, Default::default())).collect(),
    };
    let mut builder = Builder {
        users: users.clone(),
        numbers: HashMap::new(),
        states: Vec::new(),
    };
    builder.number(session, state, 0);
    let mut nodes: Vec<Node> = Vec::new();
    while nodes.len() < builder.states.len() {
        if builder.states.len() > most {
            return None;
        }
        let at = nodes.len();
        let (mut does, mut next) = (Vec::new(), Vec::new());
        for (place, process) in processes.iter().enumerate() {
            let (what, there) = builder.does(at, place, &**process);
            does.push(what);
            next.extend(there);
        }
        let (session, _, depth) = &builder.states[at];
        nodes.push(Node {
            depth: *depth,
            does,
            views: users.iter().map(|user| session.view(*user).expect("memory")).collect(),
            next,
        });
    }
    Some(Graph {
        users,
        processes,
        nodes,
    })
}

impl Graph {
    /// For each state those that can be reached from it, itself too.
    pub fn reached(&self) -> Vec<Vec<usize>> {
        (0..self.nodes.len())
            .map(|start| {
                let (mut met, mut all) = (vec![false; self.nodes.len()], vec![start]);
                met[start] = true;
                let mut at = 0;
                while at < all.len() {
                    for next in &self.nodes[all[at]].next {
                        if !std::mem::replace(&mut met[*next], true) {
                            all.push(*next);
                        }
                    }
                    at += 1;
                }
                all
            })
            .collect()
    }

    /// The fewest steps after which a process waits for ever.
    pub fn stuck(&self, reached: &[Vec<usize>]) -> Option<usize> {
        self.first(|state, process| {
            reached[state]
                .iter()
                .all(|there| self.nodes[*there].does[process] == Does::Waits)
        })
    }

    /// The fewest steps after which a process goes round with calls that change nothing: it never ends, nothing that it does
    /// changes anything, and wherever it comes to it can come to such a call.
    pub fn no_progress(&self, reached: &[Vec<usize>]) -> Option<usize> {
        let does = |state: usize, process: usize| self.nodes[state].does[process];
        let calls = |state: usize, process: usize| {
            let is_vain = |does| {
                matches!(
                    does,
                    Does::Goes {
                        calls_in_vain: true,
                        ..
                    }
                )
            };
            reached[state].iter().any(|there| is_vain(does(*there, process)))
        };
        self.first(|state, process| {
            reached[state].iter().all(|there| {
                !matches!(does(*there, process), Does::Ended | Does::Goes { changes: true, .. })
                    && calls(*there, process)
            })
        })
    }

    /// The fewest steps to a state in which the first holds of a user's rows, and from which the second can't be reached.
    pub fn leads_to(
        &self,
        reached: &[Vec<usize>],
        first: impl Fn(&View) -> bool,
        second: impl Fn(&View) -> bool,
    ) -> Option<usize> {
        let fails = |state: usize, user: usize| {
            let holds = |there: &usize| second(&self.nodes[*there].views[user]);
            first(&self.nodes[state].views[user]) && !reached[state].iter().any(holds)
        };
        let failing = (0..self.nodes.len()).filter(|state| (0..self.users.len()).any(|user| fails(*state, user)));
        failing.map(|state| self.nodes[state].depth).min()
    }

    fn first(&self, fails: impl Fn(usize, usize) -> bool) -> Option<usize> {
        let processes = 0..self.processes.len();
        let failing = (0..self.nodes.len()).filter(|state| processes.clone().any(|process| fails(*state, process)));
        failing.map(|state| self.nodes[state].depth).min()
    }
}
