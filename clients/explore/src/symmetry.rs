//! Equal processes: states that differ only by an exchange of some have one key.
//!
//! The states that are kept, their links and traces are those that were met; only the key is of another, in which equal
//! processes have exchanged their places and numbers. It is any exchange of them, so that two states with one key are the same
//! up to an exchange, whichever was chosen. A good choice only makes such states fewer.

use crate::exchange::{rows, Exchange, Member, Rows, UserState, LWP, PROCESS};
use crate::hash::{mixed, Hasher, Key};
use crate::process::Process;
use crate::state::State;

/// Equal processes of a user.
#[derive(Debug)]
struct Group {
    user: usize,
    members: Vec<Member>,
}

impl Group {
    /// All exchanges of two members.
    fn pairs(&self) -> impl Iterator<Item = [Member; 2]> + '_ {
        let members = self.members.iter().enumerate();
        members.flat_map(|(place, first)| self.members[place + 1..].iter().map(|second| [*first, *second]))
    }

    /// The members, each with another.
    fn shuffled(&self, seed: u64) -> impl Iterator<Item = (Member, Member)> + '_ {
        let mut others = self.members.clone();
        others.sort_by_key(|member| mixed(mixed(seed) ^ member.process as u64));
        self.members.iter().copied().zip(others)
    }
}

/// All equal processes of a search.
#[derive(Debug)]
pub struct Symmetry {
    groups: Vec<Group>,
    /// Exchanges of neighbours, which make all exchanges.
    pub neighbours: Vec<Exchange>,
    /// For each user the exchanges that a property is asked about.
    pub tried: Vec<Vec<Exchange>>,
}

/// The most exchanges that a property is asked about: all of six equal processes.
const MOST: usize = 720;

/// A row, or numbers, as a member sees them: which are its own.
fn seen(member: &Member, row: &[u32], numbers: &[usize], members: &[Member]) -> u64 {
    let mut hasher = Hasher::new();
    for (place, word) in row.iter().enumerate() {
        let word = u64::from(*word);
        hasher.word(match numbers.contains(&place) {
            true if member.has(row[place]) => 1 << 32,
            true if members.iter().any(|other| other.has(row[place])) => 2 << 32,
            _ => word,
        });
    }
    hasher.key().0
}

fn mentions(member: &Member, row: &[u32], numbers: &[usize]) -> bool {
    numbers.iter().any(|place| member.has(row[*place]))
}

impl Group {
    /// What tells a member from others, whatever its numbers are.
    fn mark(&self, member: &Member, state: &State, rows: &Rows) -> u64 {
        let mut mark = 0u64;
        for (rows, numbers) in [(&rows.processes, PROCESS.1), (&rows.lwps, LWP.1)] {
            for row in rows.iter().filter(|row| mentions(member, row, numbers)) {
                mark = mark.wrapping_add(seen(member, row, numbers, &self.members));
            }
        }
        for (process, place) in state.places.iter().enumerate() {
            let who = match self.members.iter().find(|other| other.process == process) {
                Some(_) if process == member.process => 0,
                Some(_) => 1,
                None => 2 + process as u64,
            };
            if who == 0 || mentions(member, &place.numbers, &[0, 1]) {
                let [words, _] = place.words();
                let numbers = seen(member, &place.numbers, &[0, 1], &self.members);
                mark = mark.wrapping_add(mixed(mixed(words ^ mixed(who)) ^ numbers));
            }
        }
        mark
    }

    /// The members, each with the one whose numbers it gets: in the order of their marks.
    fn exchange(&self, state: &State, numbers: &[u32]) -> impl Iterator<Item = (Member, Member)> + '_ {
        let rows = rows(numbers);
        let mut marked: Vec<(u64, Member)> = self
            .members
            .iter()
            .map(|member| (self.mark(member, state, &rows), *member))
            .collect();
        marked.sort_by_key(|(mark, _)| *mark);
        marked
            .into_iter()
            .map(|(_, member)| member)
            .zip(self.members.iter().copied())
    }
}

/// Why two processes that should be equal can't be exchanged, if they can't.
fn unlike(pair: [Member; 2], processes: &[&dyn Process]) -> Option<String> {
    let [first, second] = pair.map(|member| processes[member.process]);
    let names = format!("{} and {}", first.name(), second.name());
    if pair[0].own.pid == pair[1].own.pid {
        return Some(format!(
            "{names} are LWPs of one process, whose first one isn't like others"
        ));
    }
    let line = first
        .outline()
        .zip(second.outline())
        .and_then(|(first, second)| first.differs(second, &Exchange::of(pair)));
    line.map(|line| format!("{names} have different scripts, from line {line} on"))
}

/// Exchanges of the groups of a user: all, or if there are too many, pairs and random ones.
fn tried<'g>(groups: impl Iterator<Item = &'g Group> + Clone) -> Vec<Exchange> {
    let pairs = groups.clone().flat_map(Group::pairs).map(Exchange::of);
    let orders = groups.clone().flat_map(|group| 1..=group.members.len());
    if orders.fold(1, usize::saturating_mul) > MOST {
        let random = (0..).map(|seed| Exchange(groups.clone().flat_map(|group| group.shuffled(seed)).collect()));
        return pairs.take(MOST / 2).chain(random).take(MOST).collect();
    }
    let members = groups.clone().flat_map(|group| &group.members);
    let mut all = vec![Exchange(members.map(|member| (*member, *member)).collect())];
    let (mut at, pairs) = (0, pairs.collect::<Vec<_>>());
    while at < all.len() {
        for pair in &pairs {
            let exchange = all[at].then(pair);
            if !all.contains(&exchange) {
                all.push(exchange);
            }
        }
        at += 1;
    }
    all
}

/// Groups of processes that say that they are equal.
fn grouped(processes: &[&dyn Process], user_of: &[usize], states: &[UserState]) -> Result<Vec<Group>, String> {
    let mut groups: Vec<(u8, Group)> = Vec::new();
    for (process, known) in processes.iter().enumerate() {
        let Some((group, own)) = known.alike() else { continue };
        let (user, member) = (user_of[process], Member { process, own });
        if !rows(&states[user]).have(own) {
            return Err(format!(
                "{} isn't there at the start, and can't be exchanged",
                known.name()
            ));
        }
        match groups
            .iter_mut()
            .find(|(name, known)| (*name, known.user) == (group, user))
        {
            Some((_, known)) => known.members.push(member),
            None => groups.push((
                group,
                Group {
                    user,
                    members: vec![member],
                },
            )),
        }
    }
    Ok(groups.into_iter().map(|(_, group)| group).collect())
}

impl Symmetry {
    /// The groups of at least two equal processes.
    ///
    /// # Errors
    ///
    /// Why processes that should be equal can't be exchanged at the start.
    pub fn new(
        processes: &[&dyn Process],
        user_of: &[usize],
        start: &State,
        states: &[UserState],
    ) -> Result<Symmetry, String> {
        let groups = grouped(processes, user_of, states)?;
        if let Some(why) = groups
            .iter()
            .flat_map(Group::pairs)
            .find_map(|pair| unlike(pair, processes))
        {
            return Err(why);
        }
        let pairs = groups.iter().flat_map(|group| group.members.windows(2));
        let neighbours = pairs.map(|pair| Exchange::of([pair[0], pair[1]])).collect();
        let users = 0..states.len();
        let symmetry = Symmetry {
            tried: users
                .map(|user| tried(groups.iter().filter(|group| group.user == user)))
                .collect(),
            groups,
            neighbours,
        };
        for exchange in &symmetry.neighbours {
            let nothing = Exchange(Vec::new());
            if symmetry.exchanged(exchange, start, states) != symmetry.exchanged(&nothing, start, states) {
                return Err(format!("{} aren't alike at the start", exchange.names(processes)));
            }
        }
        Ok(symmetry)
    }

    /// The key of a state after an exchange.
    fn exchanged(&self, exchange: &Exchange, state: &State, states: &[UserState]) -> Key {
        let mut hasher = Hasher::new();
        states.iter().for_each(|state| exchange.state(state, &mut hasher));
        state
            .memories
            .iter()
            .for_each(|memory| hasher.word(u64::from_le_bytes(*memory)));
        for process in 0..state.places.len() {
            let from = exchange.0.iter().find(|(_, to)| to.process == process);
            let place = state.places[from.map_or(process, |(from, _)| from.process)];
            hasher.words(&exchange.place(place).words());
        }
        hasher.key()
    }

    /// The processes of each group.
    pub fn groups(&self) -> Vec<Vec<usize>> {
        let of = |group: &Group| group.members.iter().map(|member| member.process).collect();
        self.groups.iter().map(of).collect()
    }

    /// For each process the one whose place it has in the key.
    pub fn slots(&self, state: &State, states: &[UserState]) -> Vec<usize> {
        let mut slots: Vec<usize> = (0..state.places.len()).collect();
        for group in &self.groups {
            for (from, to) in group.exchange(state, &states[group.user]) {
                slots[from.process] = to.process;
            }
        }
        slots
    }

    /// The same key for states that differ by an exchange, if their members can be told apart.
    pub fn key(&self, state: &State, states: &[UserState]) -> Key {
        let pairs = self
            .groups
            .iter()
            .flat_map(|group| group.exchange(state, &states[group.user]));
        self.exchanged(&Exchange(pairs.collect()), state, states)
    }
}
