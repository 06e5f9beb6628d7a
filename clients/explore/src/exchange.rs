//! An exchange of equal processes: what becomes of numbers, places, steps, answers and rows.

use crate::hash::Hasher;
use crate::process::{Answer, Next, Place, Process, When};
use crate::step::Step;
use std::sync::Arc;
use tracehost::{Caller, Mode, New, Reply, State as RowState, View, Which};

/// A process, by its place among those of the search, and its numbers.
#[derive(Clone, Copy, Debug, PartialEq, Eq)]
pub struct Member {
    pub process: usize,
    pub own: New,
}

impl Member {
    pub fn has(&self, number: u32) -> bool {
        number != 0 && (number == self.own.pid || number == self.own.lwp)
    }
}

/// What a user sees, by `tracehost_state`.
pub type UserState = Arc<[u32]>;

/// The words before the rows: a setting and two cursors.
const HEAD: usize = 3;
/// The words of a process, and those of them that are numbers of processes or LWPs: its own, its parent's, its tracer's, and
/// that of the LWP that has stopped.
pub const PROCESS: (usize, &[usize]) = (15, &[0, 2, 4, 6]);
/// The same of an LWP: its own, its process's, and those of the children of its vfork and its last stop.
pub const LWP: (usize, &[usize]) = (14, &[0, 1, 5, 12]);

/// The rows of a state.
pub struct Rows<'w> {
    pub processes: Vec<&'w [u32]>,
    pub lwps: Vec<&'w [u32]>,
    /// Handlers, each after its process's number.
    rest: &'w [u32],
}

fn listed(mut words: &[u32], width: usize) -> (Vec<&[u32]>, &[u32]) {
    let mut rows = Vec::new();
    while let [1, rest @ ..] = words {
        rows.push(&rest[..width]);
        words = &rest[width..];
    }
    (rows, &words[1..])
}

pub fn rows(state: &[u32]) -> Rows<'_> {
    let (processes, rest) = listed(&state[HEAD..], PROCESS.0);
    let (lwps, rest) = listed(rest, LWP.0);
    Rows { processes, lwps, rest }
}

impl Rows<'_> {
    /// Whether the process is there, and the LWP.
    pub fn have(&self, own: New) -> bool {
        self.processes.iter().any(|row| row[0] == own.pid) && self.lwps.iter().any(|row| row[0] == own.lwp)
    }
}

/// Where the handlers' processes are in these words: each is after a 1, and before its rules of five words.
fn owners(rest: &[u32]) -> Vec<usize> {
    let (mut owners, mut at) = (Vec::new(), 0);
    while rest[at] == 1 {
        owners.push(at + 1);
        at += 2;
        while rest[at] == 1 {
            at += 6;
        }
        at += 1;
    }
    owners
}

/// Members, and those whose numbers each has after an exchange.
#[derive(Clone, Debug, PartialEq, Eq)]
pub struct Exchange(pub Vec<(Member, Member)>);

impl Exchange {
    /// Two members exchange their numbers.
    pub fn of(pair: [Member; 2]) -> Exchange {
        let [first, second] = pair;
        Exchange(vec![(first, second), (second, first)])
    }

    /// The names of those that are exchanged.
    pub fn names(&self, processes: &[&dyn Process]) -> String {
        let names: Vec<&str> = self.0.iter().map(|(from, _)| processes[from.process].name()).collect();
        names.join(" and ")
    }

    /// This one, and then another.
    pub fn then(&self, other: &Exchange) -> Exchange {
        let to = |member: Member| {
            let found = other.0.iter().find(|(from, _)| *from == member);
            found.map_or(member, |(_, to)| *to)
        };
        Exchange(self.0.iter().map(|(from, by)| (*from, to(*by))).collect())
    }

    pub fn number(&self, number: u32) -> u32 {
        let found = self.0.iter().find(|(from, _)| from.has(number));
        found.map_or(
            number,
            |(from, to)| {
                if number == from.own.pid {
                    to.own.pid
                } else {
                    to.own.lwp
                }
            },
        )
    }

    pub fn place(&self, place: Place) -> Place {
        Place {
            numbers: place.numbers.map(|number| self.number(number)),
            ..place
        }
    }

    /// The process that does after the exchange what this one does before it.
    pub fn process(&self, process: usize) -> usize {
        let found = self.0.iter().find(|(from, _)| from.process == process);
        found.map_or(process, |(_, to)| to.process)
    }

    fn caller(&self, caller: Caller) -> Caller {
        Caller {
            pid: self.number(caller.pid),
            ..caller
        }
    }

    fn which(&self, which: Which) -> Which {
        match which {
            Which::Any => which,
            Which::Process(pid) => Which::Process(self.number(pid)),
        }
    }

    fn step(&self, step: Step) -> Step {
        match step {
            Step::Turn(user, lwp, act) => Step::Turn(user, self.number(lwp), act),
            Step::Ptrace(caller, request, target) => Step::Ptrace(self.caller(caller), request, self.number(target)),
            Step::Wait4(caller, which, options) => Step::Wait4(self.caller(caller), self.which(which), options),
            Step::Kill(caller, which, signal) => Step::Kill(self.caller(caller), self.which(which), signal),
            Step::Sigaction(caller, signal, action) => Step::Sigaction(self.caller(caller), signal, action),
            Step::Handle(caller) => Step::Handle(self.caller(caller)),
            Step::Install(caller, rules) => Step::Install(self.caller(caller), rules),
            Step::List(caller) => Step::List(self.caller(caller)),
            Step::Spawn(user) => Step::Spawn(user),
        }
    }

    pub fn next(&self, next: Next) -> Next {
        match next {
            Next::Step(step, When::Signal(lwp)) => Next::Step(self.step(step), When::Signal(self.number(lwp))),
            Next::Step(step, when) => Next::Step(self.step(step), when),
            Next::Blocked | Next::Ended => next,
        }
    }

    /// An answer after the exchange. A list of processes is again by rising number.
    pub fn answer(&self, answer: &Answer) -> Answer {
        let mut answer = answer.clone();
        let exchange = |number: &mut u32| *number = self.number(*number);
        match &mut answer {
            Ok(Reply::Status { pid, .. }) => exchange(pid),
            Ok(Reply::Stopped { lwp, .. }) => exchange(lwp),
            Ok(Reply::New(New { pid, lwp })) => [pid, lwp].into_iter().for_each(exchange),
            Ok(Reply::Info(info)) => [&mut info.lwp, &mut info.child].into_iter().for_each(exchange),
            Ok(Reply::Lwps(lwps)) => lwps.iter_mut().for_each(exchange),
            Ok(Reply::Pids(pids)) => {
                pids.iter_mut().for_each(exchange);
                pids.sort_unstable();
            }
            Ok(Reply::Handled(handled)) => {
                let numbers = [&mut handled.pid, &mut handled.lwp, &mut handled.child];
                numbers.into_iter().for_each(exchange);
            }
            Ok(
                Reply::Done | Reply::Number(_) | Reply::Nothing | Reply::Mask(_) | Reply::Caught(_) | Reply::Ended(_),
            )
            | Err(_) => (),
        }
        answer
    }

    fn is_member(&self, lwp: u32) -> bool {
        self.0.iter().any(|(from, _)| from.own.lwp == lwp)
    }

    /// Rows of LWPs as they were born: those of members, where some of them were, by rising number.
    fn in_order<R: Clone>(&self, lwps: &mut [R], number: impl Fn(&R) -> u32) {
        let is_member = |row: &R| self.is_member(number(row));
        let mut equal: Vec<R> = lwps.iter().filter(|row| is_member(row)).cloned().collect();
        equal.sort_unstable_by_key(&number);
        let places = lwps.iter_mut().filter(|row| is_member(row));
        places.zip(equal).for_each(|(place, row)| *place = row);
    }

    fn row<const N: usize>(&self, row: &[u32], numbers: &[usize]) -> [u32; N] {
        let mut row: [u32; N] = row.try_into().expect("as many words");
        numbers.iter().for_each(|place| row[*place] = self.number(row[*place]));
        row
    }

    /// What a user sees after the exchange: processes by rising number.
    pub fn state(&self, state: &[u32], hasher: &mut Hasher) {
        let Rows { processes, lwps, rest } = rows(state);
        hasher.numbers(&state[..HEAD]);
        let mut processes: Vec<[u32; PROCESS.0]> = processes.iter().map(|row| self.row(row, PROCESS.1)).collect();
        processes.sort_unstable_by_key(|row| row[0]);
        processes.iter().for_each(|row| hasher.numbers(row));
        let mut lwps: Vec<[u32; LWP.0]> = lwps.iter().map(|row| self.row(row, LWP.1)).collect();
        self.in_order(&mut lwps, |row| row[0]);
        lwps.iter().for_each(|row| hasher.numbers(row));
        let mut rest = rest.to_vec();
        for owner in owners(&rest) {
            rest[owner] = self.number(rest[owner]);
        }
        hasher.numbers(&rest);
    }

    /// The same as rows.
    pub fn view(&self, view: &View) -> View {
        let mut view = view.clone();
        for row in &mut view.processes {
            row.pid = self.number(row.pid);
            row.parent = self.number(row.parent);
            row.tracer = row.tracer.map(|tracer| self.number(tracer));
            if let RowState::TraceStop { lwp, .. } = &mut row.state {
                *lwp = self.number(*lwp);
            }
        }
        for row in &mut view.lwps {
            row.lwp = self.number(row.lwp);
            row.pid = self.number(row.pid);
            row.child = self.number(row.child);
            if let Mode::Vfork { child } = &mut row.mode {
                *child = self.number(*child);
            }
        }
        view.processes.sort_unstable_by_key(|row| row.pid);
        self.in_order(&mut view.lwps, |row| row.lwp);
        view
    }
}
