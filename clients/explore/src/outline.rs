//! What is fixed of a script: its lines and labels, and steps that depend on nothing.

use crate::exchange::Exchange;
use crate::process::{Next, When};
use crate::step::Step;
use std::fmt::Display;

/// What is fixed of a script.
#[derive(Clone, Debug, Default, PartialEq, Eq)]
pub struct Outline {
    lines: Vec<Line>,
}

#[derive(Clone, Debug, PartialEq, Eq)]
struct Line {
    words: String,
    step: Option<(Step, When)>,
}

impl Outline {
    /// Adds a line of this kind, or a label.
    pub(crate) fn add(&mut self, kind: impl Display) {
        self.lines.push(Line {
            words: kind.to_string(),
            step: None,
        });
    }

    /// Adds what is fixed of the last line.
    pub(crate) fn note(&mut self, words: impl Display) {
        if let Some(line) = self.lines.last_mut() {
            line.words.push_str(&format!(" {words}"));
        }
    }

    /// The last line makes this step.
    pub(crate) fn step(&mut self, step: Step, when: When) {
        if let Some(line) = self.lines.last_mut() {
            line.step = Some((step, when));
        }
    }

    /// The first line, from 1 on, that is another after the exchange than that of the other script.
    pub(crate) fn differs(&self, other: &Outline, exchange: &Exchange) -> Option<usize> {
        let next = |line: &Line| line.step.map(|(step, when)| exchange.next(Next::Step(step, when)));
        let step = |line: &Line| line.step.map(|(step, when)| Next::Step(step, when));
        let mut lines = self.lines.iter().zip(&other.lines);
        let unlike = lines.position(|(here, there)| (&here.words, next(here)) != (&there.words, step(there)));
        let (here, there) = (self.lines.len(), other.lines.len());
        unlike
            .or((here != there).then_some(here.min(there)))
            .map(|line| line + 1)
    }
}
