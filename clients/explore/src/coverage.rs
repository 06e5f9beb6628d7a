//! What a search has come by: a pass says nothing of what none of the interleavings has done.

use crate::model::Model;
use crate::process::Process;
use std::collections::BTreeSet;
use std::fmt;
use std::sync::atomic::{AtomicU64, Ordering::Relaxed};

/// What of a pass is vacuous.
#[derive(Clone, Debug, PartialEq, Eq)]
#[non_exhaustive]
pub enum Vacuous {
    /// Lines of a process that no interleaving reaches, so that their steps are made.
    Lines {
        /// The process's name.
        process: String,
        /// The first of them. Lines are counted from 1, and a label is none.
        first: usize,
        /// The last one.
        last: usize,
        /// The label before the first one, if it is right before it.
        label: Option<&'static str>,
    },
    /// A label at the end that no interleaving reaches.
    Label {
        /// The process's name.
        process: String,
        /// The label.
        label: &'static str,
    },
    /// A process that no interleaving lets come to its last line, or to an end other than at an errno.
    EndsAtErrno {
        /// The process's name.
        process: String,
    },
    /// A property that was asked for in no state: its left side never held, or no user came to an end.
    Property {
        /// Its name.
        property: String,
    },
}

impl fmt::Display for Vacuous {
    fn fmt(&self, f: &mut fmt::Formatter<'_>) -> fmt::Result {
        match self {
            Vacuous::Lines {
                process,
                first,
                last,
                label,
            } => {
                let plural = if first == last { "line" } else { "lines" };
                write!(f, "no interleaving reaches {plural} {first}")?;
                if first != last {
                    write!(f, " to {last}")?;
                }
                write!(f, " of {process}")?;
                label.map_or(Ok(()), |label| write!(f, ", from {label:?} on"))
            }
            Vacuous::Label { process, label } => write!(f, "no interleaving reaches {label:?} of {process}"),
            Vacuous::EndsAtErrno { process } => write!(f, "{process} ends at an errno whenever it ends"),
            Vacuous::Property { property } => write!(f, "{property} was asked for in no state"),
        }
    }
}

/// What is vacuous in a pass. Equal processes have done what one of them has, if they are exchanged.
pub fn vacuous(
    model: &Model,
    processes: &[Box<dyn Process>],
    symmetric: bool,
    asked: &BTreeSet<usize>,
) -> Vec<Vacuous> {
    if symmetric {
        for (process, other) in processes
            .iter()
            .flat_map(|process| processes.iter().map(move |other| (process, other)))
        {
            let group = |process: &dyn Process| process.alike().map(|(group, _)| (group, process.user()));
            if let (Some(here), Some(there), Some(_)) = (process.coverage(), other.coverage(), group(&**process)) {
                if group(&**process) == group(&**other) {
                    here.join(there.words());
                }
            }
        }
    }
    let lines = processes
        .iter()
        .filter_map(|process| Some((process.name(), process.coverage()?)));
    let mut all: Vec<Vacuous> = Vec::new();
    for vacuous in lines.flat_map(|(name, coverage)| coverage.vacuous(name)) {
        if !all.contains(&vacuous) {
            all.push(vacuous);
        }
    }
    let properties = model.properties.iter().enumerate();
    let missing = properties.filter(|(place, _)| !asked.contains(place));
    all.extend(missing.map(|(_, property)| Vacuous::Property {
        property: property.name.clone(),
    }));
    all
}

/// Which lines of a process a search has made, and how the process has come to its end.
#[derive(Debug, Default)]
pub struct Coverage {
    made: [AtomicU64; 4],
    ends: AtomicU64,
    /// The lines that should be made.
    lines: Vec<u8>,
    labels: Vec<(&'static str, u8)>,
}

/// Ends: at an errno, and others.
const AT_ERRNO: u64 = 1;
const OTHERWISE: u64 = 2;

/// How many words a coverage has.
pub const WORDS: usize = 5;

fn join(word: &AtomicU64, bits: u64) {
    if word.load(Relaxed) & bits != bits {
        word.fetch_or(bits, Relaxed);
    }
}

impl Coverage {
    /// A line that should be made.
    pub fn expect(&mut self, line: u8) {
        self.lines.push(line);
    }

    /// How many lines should be made.
    pub fn count(&self) -> usize {
        self.lines.len()
    }

    /// Only the first so many should be.
    pub fn expect_only(&mut self, count: usize) {
        self.lines.truncate(count);
    }

    /// A label before a line.
    pub fn label(&mut self, name: &'static str, line: u8) {
        self.labels.push((name, line));
    }

    /// A line is made.
    pub fn make(&self, line: u8) {
        join(&self.made[usize::from(line) / 64], 1 << (line % 64));
    }

    /// The process ends.
    pub fn end(&self, is_errno: bool) {
        join(&self.ends, if is_errno { AT_ERRNO } else { OTHERWISE });
    }

    /// What the search has come by, in words.
    pub(crate) fn words(&self) -> [u64; WORDS] {
        let mut words = [self.ends.load(Relaxed); WORDS];
        words
            .iter_mut()
            .zip(&self.made)
            .for_each(|(word, made)| *word = made.load(Relaxed));
        words
    }

    /// Adds what another search, or an equal process, has come by.
    pub(crate) fn join(&self, words: [u64; WORDS]) {
        let all = self.made.iter().chain([&self.ends]);
        all.zip(words).for_each(|(word, bits)| join(word, bits));
    }

    fn is_made(&self, line: u8) -> bool {
        self.made[usize::from(line) / 64].load(Relaxed) >> (line % 64) & 1 == 1
    }

    /// What is vacuous in a pass.
    pub(crate) fn vacuous(&self, process: &str) -> Vec<Vacuous> {
        let mut vacuous = Vec::new();
        let mut missing = (0..self.lines.len())
            .filter(|index| !self.is_made(self.lines[*index]))
            .peekable();
        while let Some(first) = missing.next() {
            let mut last = first;
            while missing
                .next_if(|index| *index == last + 1 && self.label_at(*index).is_none())
                .is_some()
            {
                last += 1;
            }
            let (process, label) = (process.to_owned(), self.label_at(first));
            vacuous.push(Vacuous::Lines {
                process,
                first: first + 1,
                last: last + 1,
                label,
            });
        }
        let after = self.lines.last().map_or(0, |last| last + 1);
        for (label, line) in &self.labels {
            if *line >= after && !self.is_made(*line) {
                let process = process.to_owned();
                vacuous.push(Vacuous::Label { process, label });
            }
        }
        let ends_at_errno = self.ends.load(Relaxed) == AT_ERRNO;
        if ends_at_errno && self.lines.last().is_some_and(|last| !self.is_made(*last)) {
            let process = process.to_owned();
            vacuous.push(Vacuous::EndsAtErrno { process });
        }
        vacuous
    }

    /// The label right before a line that should be made.
    fn label_at(&self, index: usize) -> Option<&'static str> {
        let found = self.labels.iter().find(|(_, line)| *line == self.lines[index]);
        found.map(|(label, _)| *label)
    }
}
