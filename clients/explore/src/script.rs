//! Processes as lists of calls.

mod calls;

use crate::coverage::Coverage;
use crate::outline::Outline;
use crate::process::{Answer, Memory, Next, Place, Process, When};
use crate::step::Step;
use tracehost::{Act, Caller, Error, New, Reply, Signal, StopFlags};

/// Where a script goes on.
#[derive(Clone, Copy, Debug, PartialEq, Eq)]
pub enum Go {
    /// To the next call.
    On,
    /// To the label.
    To(&'static str),
    /// To its end.
    End,
}

/// Where a script goes on; `Err` is a failure, in words.
pub type Going = Result<Go, String>;

type Ask = Box<dyn Fn(&Place, &Memory) -> Next + Send + Sync>;
type Then = Box<dyn Fn(&mut Place, &mut Memory, &Answer) -> Going + Send + Sync>;
type Acting = Box<dyn Fn(&Place, &Memory) -> Option<Act> + Send + Sync>;
type Acted = Box<dyn Fn(&mut Place, &mut Memory, &Reply) -> Going + Send + Sync>;
type Local = Box<dyn Fn(&mut Place) -> Go + Send + Sync>;
type Caught = Box<dyn Fn(&mut Place, Signal) + Send + Sync>;

/// Turns until an act is made.
struct Turns {
    when: When,
    act: Acting,
    then: Acted,
    /// Where a signal that is caught before the act leads; else the act is tried again.
    ends: Option<u8>,
}

enum Line {
    Turns(Turns),
    Step(Ask, Then),
    /// Takes no step, and sees no memory.
    Local(Local),
}

/// Whether the LWP has made its act before this stop.
fn is_made(act: Act, flags: StopFlags) -> bool {
    let exits = [StopFlags::PL_FLAG_SCX, StopFlags::PL_FLAG_EXITED];
    match act {
        Act::Enter(_) => flags.contains(StopFlags::PL_FLAG_SCE),
        Act::Leave => exits.iter().any(|flag| flags.contains(*flag)),
        _ => false,
    }
}

/// A process, or one of its LWPs, as a list of calls and labels. Each call is a step of the model.
///
/// ```
/// use tracehost::{Request, Session, Signal, WaitStatus};
/// use tracehost_explore::{Go, Script};
///
/// # fn main() -> Result<(), tracehost::Error> {
/// let mut host = Session::new()?;
/// let (debugger, target) = (host.spawn(1001)?, host.spawn(1001)?);
/// let mut script = Script::new("debugger", 1001, debugger);
/// script.ptrace(Request::Attach, target.pid);
/// script.wait(target.pid, |_, status| match status {
///     WaitStatus::Stopped(Signal::SIGSTOP) => Ok(Go::On),
///     _ => Err(format!("{status} in place of a stop")),
/// });
/// script.ptrace(Request::Detach(None), target.pid);
/// # Ok(())
/// # }
/// ```
pub struct Script {
    name: String,
    user: u32,
    own: New,
    lines: Vec<Line>,
    labels: Vec<(&'static str, u8)>,
    caught: Option<Caught>,
    start: Place,
    alike: Option<u8>,
    outline: Outline,
    coverage: Coverage,
}

const ENDED: u8 = u8::MAX;

/// Goes on if the answer isn't an error.
pub fn succeeded(answer: &Answer) -> Going {
    match answer {
        Ok(_) => Ok(Go::On),
        Err(Error::Errno(errno)) => Err(errno.name().to_owned()),
        Err(error) => Err(error.to_string()),
    }
}

impl Script {
    /// A script of this process of the user, or of this LWP of it.
    pub fn new(name: impl Into<String>, user: u32, own: New) -> Script {
        Script {
            name: name.into(),
            user,
            own,
            lines: Vec::new(),
            labels: Vec::new(),
            caught: None,
            start: Place::default(),
            alike: None,
            outline: Outline::default(),
            coverage: Coverage::default(),
        }
    }

    /// Who makes its calls.
    pub fn caller(&self) -> Caller {
        Caller {
            user: self.user,
            pid: self.own.pid,
        }
    }

    /// A number that it remembers at the beginning.
    pub fn remember(&mut self, byte: usize, number: u8) {
        self.start.bytes[byte] = number;
    }

    /// It may be exchanged with the user's other scripts that have this number ([`Options::symmetric`](crate::Options::symmetric)).
    pub fn exchange(&mut self, group: u8) {
        self.alike = Some(group);
    }

    /// What the process's signal handler does with a signal that is caught.
    pub fn on_caught(&mut self, handler: impl Fn(&mut Place, Signal) + Send + Sync + 'static) {
        self.caught = Some(Box::new(handler));
        self.outline.add("handler");
    }

    /// Names the place before the next call.
    ///
    /// # Panics
    ///
    /// If the label is there already.
    pub fn label(&mut self, name: &'static str) {
        assert!(
            self.labels.iter().all(|(label, _)| *label != name),
            "two labels {name:?}"
        );
        self.labels.push((name, self.lines.len() as u8));
        self.outline.add(name);
        self.coverage.label(name, self.lines.len() as u8);
    }

    fn line(&mut self, line: Line) {
        assert!(self.lines.len() < usize::from(ENDED), "a script has at most 255 lines");
        self.coverage.expect(self.lines.len() as u8);
        self.outline.add(match &line {
            Line::Local(_) => "local",
            Line::Step(..) => "step",
            Line::Turns(_) => "turns",
        });
        self.lines.push(line);
    }

    /// Adds lines that are told as one.
    fn as_one(&mut self, add: impl FnOnce(&mut Script)) {
        let first = self.coverage.count();
        add(self);
        self.coverage.expect_only(first + 1);
    }

    /// Changes what the process remembers, and goes on from there. It takes no step.
    pub fn local(&mut self, change: impl Fn(&mut Place) -> Go + Send + Sync + 'static) {
        self.line(Line::Local(Box::new(change)));
    }

    /// Goes on at the label.
    pub fn jump(&mut self, label: &'static str) {
        self.local(move |_| Go::To(label));
        self.outline.note(label);
    }

    /// Goes on at the label if the byte is as many.
    pub fn jump_if(&mut self, byte: usize, number: u8, label: &'static str) {
        self.local(move |place| {
            if place.bytes[byte] == number {
                Go::To(label)
            } else {
                Go::On
            }
        });
        self.outline.note(format!("{byte} {number} {label}"));
    }

    /// Sets a byte.
    pub fn set(&mut self, byte: usize, number: u8) {
        self.local(move |place| {
            place.bytes[byte] = number;
            Go::On
        });
        self.outline.note(format!("{byte} {number}"));
    }

    /// Comes to the end.
    pub fn end(&mut self) {
        self.local(|_| Go::End);
        self.outline.note("end");
    }

    /// The last call also changes the memory, in the same step.
    pub fn also(&mut self, change: impl Fn(&mut Memory) + Send + Sync + 'static) {
        let line = match self.lines.pop() {
            Some(Line::Step(ask, then)) => Line::Step(
                ask,
                Box::new(move |place, memory, answer| {
                    let going = then(place, memory, answer);
                    change(memory);
                    going
                }),
            ),
            Some(Line::Turns(turns)) => Line::Turns(Turns {
                then: Box::new(move |place, memory, reply| {
                    let going = (turns.then)(place, memory, reply);
                    change(memory);
                    going
                }),
                ..turns
            }),
            Some(Line::Local(_)) | None => panic!("{}: there is no call before this", self.name),
        };
        self.outline.note("also");
        self.lines.push(line);
    }

    /// The last call isn't made before the byte of the memory is as many. Turns of the LWP sleep until then, and meet signals.
    pub fn once(&mut self, byte: usize, number: u8) {
        let line = match self.lines.pop() {
            Some(Line::Step(ask, then)) => {
                let ask = move |place: &Place, memory: &Memory| match memory[byte] == number {
                    true => ask(place, memory),
                    false => Next::Blocked,
                };
                Line::Step(Box::new(ask), then)
            }
            Some(Line::Turns(turns)) => Line::Turns(Turns {
                act: Box::new(move |place, memory| (memory[byte] == number).then(|| (turns.act)(place, memory))?),
                ..turns
            }),
            Some(Line::Local(_)) | None => panic!("{}: there is no call before this", self.name),
        };
        self.outline.note(format!("once {byte} {number}"));
        self.lines.push(line);
    }

    /// Any step, which may depend on what the process remembers, and on the memory.
    pub fn step(
        &mut self,
        ask: impl Fn(&Place, &Memory) -> Next + Send + Sync + 'static,
        then: impl Fn(&mut Place, &mut Memory, &Answer) -> Going + Send + Sync + 'static,
    ) {
        self.line(Line::Step(Box::new(ask), Box::new(then)));
    }

    /// The place after local lines, which is before a step, or the end.
    fn settle(&self, place: &mut Place) {
        for _ in 0..=usize::from(ENDED) {
            match self.lines.get(usize::from(place.at)) {
                Some(Line::Local(change)) => {
                    self.coverage.make(place.at);
                    let go = change(place);
                    self.go(place, go);
                }
                Some(_) => return,
                None => {
                    self.coverage.make(place.at);
                    *place = Place {
                        at: ENDED,
                        ..Place::default()
                    };
                    return;
                }
            }
        }
        panic!("{}: local lines go round without a step", self.name);
    }

    fn go(&self, place: &mut Place, go: Go) {
        place.at = match go {
            Go::On => place.at + 1,
            Go::To(label) => self.labelled(label),
            Go::End => ENDED,
        };
    }

    fn labelled(&self, name: &'static str) -> u8 {
        let found = self
            .labels
            .iter()
            .find(|(label, _)| std::ptr::eq(*label, name) || *label == name);
        found.unwrap_or_else(|| panic!("{} has no label {name:?}", self.name)).1
    }

    /// Where turns lead; none if the act isn't made yet.
    fn acted(
        &self,
        turns: &Turns,
        place: &mut Place,
        memory: &mut Memory,
        answer: &Answer,
    ) -> Result<Option<Go>, String> {
        match answer {
            Ok(Reply::Ended(_)) => Ok(Some(Go::End)),
            Ok(Reply::Caught(signal)) => {
                if let Some(handler) = &self.caught {
                    handler(place, *signal);
                }
                if let Some(line) = turns.ends {
                    place.at = line - 1;
                    return Ok(Some(Go::On));
                }
                Ok(None)
            }
            Ok(Reply::Stopped { flags, .. }) if !(turns.act)(place, memory).is_some_and(|act| is_made(act, *flags)) => {
                Ok(None)
            }
            Ok(reply) => (turns.then)(place, memory, reply).map(Some),
            answer => succeeded(answer).map(Some),
        }
    }
}

impl Process for Script {
    fn name(&self) -> &str {
        &self.name
    }

    fn user(&self) -> u32 {
        self.user
    }

    fn alike(&self) -> Option<(u8, New)> {
        self.alike.map(|group| (group, self.own))
    }

    fn outline(&self) -> Option<&Outline> {
        Some(&self.outline)
    }

    fn coverage(&self) -> Option<&Coverage> {
        Some(&self.coverage)
    }

    fn begin(&self) -> Place {
        let mut place = self.start;
        self.settle(&mut place);
        place
    }

    fn next(&self, place: &Place, memory: &Memory) -> Next {
        match self.lines.get(usize::from(place.at)) {
            Some(Line::Step(ask, _)) => ask(place, memory),
            Some(Line::Turns(turns)) => match (turns.act)(place, memory) {
                Some(act) => Next::Step(Step::Turn(self.user, self.own.lwp, act), turns.when),
                // while it sleeps it meets signals
                None => Next::Step(
                    Step::Turn(self.user, self.own.lwp, Act::Compute),
                    When::Signal(self.own.lwp),
                ),
            },
            Some(Line::Local(_)) => unreachable!("a place is before a step"),
            None => Next::Ended,
        }
    }

    fn answered(&self, place: &mut Place, memory: &mut Memory, answer: &Answer) -> Result<(), String> {
        self.coverage.make(place.at);
        let go = match &self.lines[usize::from(place.at)] {
            Line::Step(_, then) => Some(then(place, memory, answer)?),
            Line::Turns(turns) => self.acted(turns, place, memory, answer)?,
            Line::Local(_) => unreachable!("a place is before a step"),
        };
        if let Some(go) = go {
            self.go(place, go);
            self.settle(place);
            if place.at == ENDED {
                self.coverage.end(matches!(answer, Err(Error::Errno(_))));
            }
        }
        Ok(())
    }
}
