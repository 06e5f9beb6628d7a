//! Whether equal processes are treated alike: what processes do, and properties say, after an exchange is the exchanged.
//!
//! A process knows only its place, the memory and an answer. So all exchanges of these are tried once, and a search is
//! exact as long as none tells equal processes apart.

use crate::exchange::Exchange;
use crate::hash::Hasher;
use crate::model::{Kind, Property, Side};
use crate::process::{Answer, Memory, Next, Place, Process};
use crate::symmetry::Symmetry;
use std::collections::{HashMap, HashSet};
use std::hash::{BuildHasherDefault, Hash};
use tracehost::View;

type Set<T> = HashSet<T, BuildHasherDefault<Hasher>>;

/// A process at a place, with the memory of its user.
type At = (usize, Place, Memory);

/// What all exchanges were tried of.
#[derive(Default)]
pub struct Alike {
    asked: Set<At>,
    answered: HashMap<At, Set<Answer>, BuildHasherDefault<Hasher>>,
}

/// All that exchanges of neighbours make of something, if each is as it should be.
fn all_exchanges<T: Clone + Eq + Hash>(
    symmetry: &Symmetry,
    first: T,
    exchanged: impl Fn(&Exchange, &T) -> T,
    unlike: impl Fn(&Exchange, &T, &T) -> Option<String>,
) -> Result<Vec<T>, String> {
    let (mut all, mut met) = (vec![first.clone()], Set::from_iter([first]));
    let mut at = 0;
    while let Some(one) = all.get(at).cloned() {
        for exchange in &symmetry.neighbours {
            let other = exchanged(exchange, &one);
            if let Some(why) = unlike(exchange, &one, &other) {
                return Err(why);
            }
            if met.insert(other.clone()) {
                all.push(other);
            }
        }
        at += 1;
    }
    Ok(all)
}

fn shown(next: Next) -> String {
    match next {
        Next::Step(step, _) => step.to_string(),
        Next::Blocked => "a wait for memory".to_owned(),
        Next::Ended => "its end".to_owned(),
    }
}

impl Alike {
    /// Whether a process does after each exchange what is exchanged of what it does here.
    ///
    /// # Errors
    ///
    /// What it does otherwise, in words.
    pub fn ask(
        &mut self,
        symmetry: &Symmetry,
        processes: &[&dyn Process],
        (process, place): (usize, Place),
        memory: Memory,
    ) -> Result<(), String> {
        if self.asked.contains(&(process, place, memory)) {
            return Ok(());
        }
        let next = |process: usize, place: &Place| processes[process].next(place, &memory);
        let all = all_exchanges(
            symmetry,
            (process, place),
            |exchange, (process, place)| (exchange.process(*process), exchange.place(*place)),
            |exchange, (process, place), (other, there)| {
                let (right, found) = (exchange.next(next(*process, place)), next(*other, there));
                (found != right).then(|| {
                    let (names, name) = (exchange.names(processes), processes[*other].name());
                    format!(
                        "{names} aren't alike: with the two exchanged {name} makes {} in place of {}",
                        shown(found),
                        shown(right)
                    )
                })
            },
        )?;
        self.asked
            .extend(all.into_iter().map(|(process, place)| (process, place, memory)));
        Ok(())
    }

    /// The same of what it makes of an answer.
    ///
    /// # Errors
    ///
    /// That it makes something else of it, in words.
    pub fn answer(
        &mut self,
        symmetry: &Symmetry,
        processes: &[&dyn Process],
        at: At,
        answer: &Answer,
    ) -> Result<(), String> {
        if self.answered.get(&at).is_some_and(|known| known.contains(answer)) {
            return Ok(());
        }
        let (process, place, memory) = at;
        let after = |process: usize, mut place: Place, answer: &Answer| {
            let mut memory = memory;
            let went = processes[process].answered(&mut place, &mut memory, answer);
            went.ok().map(|()| (place, memory))
        };
        let all = all_exchanges(
            symmetry,
            (process, place, answer.clone()),
            |exchange, (process, place, answer)| {
                (
                    exchange.process(*process),
                    exchange.place(*place),
                    exchange.answer(answer),
                )
            },
            |exchange, (process, place, answer), (other, there, told)| {
                let right = after(*process, *place, answer).map(|(place, memory)| (exchange.place(place), memory));
                (after(*other, *there, told) != right).then(|| {
                    let (names, name) = (exchange.names(processes), processes[*other].name());
                    let next = shown(processes[*other].next(there, &memory));
                    format!("{names} aren't alike: with the two exchanged {name} goes on otherwise from the answer to {next}")
                })
            },
        )?;
        for (process, place, answer) in all {
            self.answered
                .entry((process, place, memory))
                .or_default()
                .insert(answer);
        }
        Ok(())
    }
}

/// What a property of a user's rows says otherwise after an exchange, in words.
pub fn told_apart(
    symmetry: &Symmetry,
    user: usize,
    (properties, at_end): (&[Property], bool),
    view: &View,
) -> Option<String> {
    let says = |property: &Property, view: &View| match &property.kind {
        Kind::Always(check) if !at_end => Some([check(view).is_ok(); 2]),
        Kind::AtEnd(check) if at_end => Some([check(view).is_ok(); 2]),
        Kind::CanReach(_) | Kind::LeadsTo(..) if !at_end => {
            Some([Side::Left, Side::Right].map(|side| property.holds(view, side)))
        }
        _ => None,
    };
    let said = properties.iter().map(|property| (property, says(property, view)));
    let said: Vec<_> = said.filter(|(_, said)| said.is_some()).collect();
    if said.is_empty() {
        return None;
    }
    symmetry.tried[user].iter().find_map(|exchange| {
        let exchanged = exchange.view(view);
        let unlike = said.iter().find(|(property, said)| says(property, &exchanged) != *said);
        unlike.map(|(property, _)| format!("the property {} tells equal processes apart", property.name))
    })
}
