//! What passes look for: a bit for each process or goal that isn't known to be fine.

use crate::notes::{Noted, Sums};
use crate::places::Places;
use crate::search::Search;

/// What can be reached from a state. A process is one by its place in the key, if equal processes are exchanged.
#[derive(Clone, Copy, Debug, PartialEq, Eq)]
pub enum Bit {
    /// The process goes on, or has ended.
    Moves(usize),
    /// The process makes a call that changes nothing.
    Calls(usize),
    /// The process changes something, or has ended, or makes no such call any more.
    Gains(usize),
    /// The goal holds.
    Goal(usize),
}

impl Bit {
    /// The same of another process.
    fn of(self, process: impl Fn(usize) -> usize) -> Bit {
        match self {
            Bit::Moves(own) => Bit::Moves(process(own)),
            Bit::Calls(own) => Bit::Calls(process(own)),
            Bit::Gains(own) => Bit::Gains(process(own)),
            Bit::Goal(goal) => Bit::Goal(goal),
        }
    }
}

/// For each process the one whose place it has in the key of a state. None if each has its own.
#[derive(Debug)]
pub struct Slots(pub Option<Vec<usize>>);

impl Slots {
    /// The bit of a process, as the state's key has it.
    fn to(&self, bit: Bit) -> Bit {
        match &self.0 {
            Some(slots) => bit.of(|process| slots[process]),
            None => bit,
        }
    }

    /// The bit of the process that has this place in the state's key.
    pub fn of(&self, bit: Bit) -> Bit {
        match &self.0 {
            Some(slots) => bit.of(|slot| slots.iter().position(|known| *known == slot).expect("one has it")),
            None => bit,
        }
    }

    /// The bits of another state with other places in its key, as this one has them.
    pub fn translated(&self, other: &Slots, marks: u64, bits: &[Bit]) -> u64 {
        let is_set = |bit: &Bit| has(marks, bits, other.to(self.of(*bit)));
        (0..)
            .zip(bits)
            .fold(0, |all, (place, bit)| all | u64::from(is_set(bit)) << place)
    }

    /// The bits that a state has by itself. Those that it has by others are known, and all calls among them.
    pub fn own(&self, bits: &[Bit], noted: &Noted, known: u64) -> u64 {
        let is_set = |bit: &Bit| match self.of(*bit) {
            Bit::Moves(process) => !noted.waits.has(process),
            Bit::Calls(process) => noted.calls.has(process),
            Bit::Gains(process) => {
                let changes = !noted.waits.has(process) && !noted.idle.has(process);
                changes || !has(known, bits, self.to(Bit::Calls(process)))
            }
            Bit::Goal(goal) => !noted.missing.has(goal),
        };
        (0..)
            .zip(bits)
            .fold(0, |all, (place, bit)| all | u64::from(is_set(bit)) << place)
    }
}

fn has(marks: u64, bits: &[Bit], bit: Bit) -> bool {
    let place = bits
        .iter()
        .position(|known| *known == bit)
        .expect("all of a group are looked for at once");
    marks >> place & 1 == 1
}

/// How many bits one byte for each state has.
const BYTE: usize = 8;
/// The most bits of a round.
pub const MOST: usize = 64;

/// What to look for in each round: a byte for each state, or as many as a group of equal processes needs.
pub fn rounds(search: &Search, sums: &Sums) -> Vec<Vec<Bit>> {
    let mut units: Vec<Vec<Bit>> = Vec::new();
    let groups = groups(search);
    let any = |group: &[usize], places: Places| group.iter().any(|process| places.has(*process));
    let mut gains = sums.waits;
    gains.join(sums.idle);
    for group in &groups {
        if search.goals.stuck.is_some() && any(group, sums.waits) {
            units.push(group.iter().copied().map(Bit::Moves).collect());
        }
    }
    for group in &groups {
        if search.goals.no_progress.is_some() && any(group, gains) && any(group, sums.calls) {
            let both = |process: &usize| [Bit::Calls(*process), Bit::Gains(*process)];
            units.push(group.iter().flat_map(both).collect());
        }
    }
    units.extend(sums.missing.and(sums.asked).iter().map(|goal| vec![Bit::Goal(goal)]));
    let mut rounds: Vec<Vec<Bit>> = Vec::new();
    for unit in units {
        match rounds.last_mut() {
            Some(round) if round.len() + unit.len() <= BYTE => round.extend(unit),
            _ => rounds.push(unit),
        }
    }
    rounds
}

/// Processes that are exchanged are together.
fn groups(search: &Search) -> Vec<Vec<usize>> {
    let mut groups = search
        .symmetry
        .as_ref()
        .map_or(Vec::new(), |symmetry| symmetry.groups());
    let others = (0..search.processes.len()).filter(|process| !groups.iter().any(|group| group.contains(process)));
    let others: Vec<_> = others.map(|process| vec![process]).collect();
    groups.extend(others);
    groups
}
