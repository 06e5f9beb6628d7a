//! Lines of steps and answers, and why a step was refused.

use super::Session;
use crate::refusals::{self, Rows};
use crate::{sys, Error};

impl Session {
    /// Makes the step that the line is (docs/FORMAT.md), and returns the line of its answer in words. A line that is no
    /// step is answered by `refused FAULT`.
    ///
    /// ```
    /// # fn main() -> Result<(), tracehost::Error> {
    /// let mut session = tracehost::Session::new()?;
    /// assert_eq!(session.line(r#"{"user":1001,"op":"spawn"}"#)?, "1001 1 new 1000 100000");
    /// assert_eq!(session.line("spawn")?, "refused BadJson");
    /// # Ok(())
    /// # }
    /// ```
    pub fn line(&mut self, step: &str) -> Result<String, Error> {
        self.answer(step, false)
    }

    /// The same, with the answer as a JSON object (docs/FORMAT.md).
    ///
    /// ```
    /// # fn main() -> Result<(), tracehost::Error> {
    /// let mut session = tracehost::Session::new()?;
    /// let answer = session.json_line(r#"{"user":1001,"op":"spawn"}"#)?;
    /// assert_eq!(answer, r#"{"user":1001,"step":1,"reply":"new","pid":1000,"lwp":100000}"#);
    /// # Ok(())
    /// # }
    /// ```
    pub fn json_line(&mut self, step: &str) -> Result<String, Error> {
        self.answer(step, true)
    }

    /// The line of the last answer in words, also after a typed call. It makes no step. Empty before any answer.
    pub fn last_line(&self) -> Result<String, Error> {
        self.last_answer(false, 0)
    }

    /// The same as a JSON object.
    pub fn last_json_line(&self) -> Result<String, Error> {
        self.last_answer(true, 0)
    }

    /// The line of the step that was answered last, whatever call made it: given to [`line`](Session::line), it is this step.
    /// None before any answer, after a line that was refused, and for a step that no line is: a mask with bits that no event
    /// has.
    ///
    /// ```
    /// # fn main() -> Result<(), tracehost::Error> {
    /// let mut session = tracehost::Session::new()?;
    /// session.spawn(1001)?;
    /// assert_eq!(session.last_step()?.as_deref(), Some(r#"{"user":1001,"op":"spawn"}"#));
    /// # Ok(())
    /// # }
    /// ```
    pub fn last_step(&self) -> Result<Option<String>, Error> {
        match whole(128, |room| self.handle.last_step(room)) {
            Ok(step) => Ok(Some(step)),
            Err(Error::Invalid) => Ok(None),
            Err(error) => Err(error),
        }
    }

    /// Why the last step was answered by an errno, or held: the call, the answer, and the condition that held. None after
    /// another answer; only the errno after a step that no line is ([`last_step`](Session::last_step)).
    ///
    /// ```
    /// # fn main() -> Result<(), tracehost::Error> {
    /// # use tracehost::{Caller, Request, Session};
    /// let mut session = Session::new()?;
    /// let debugger = Caller { user: 1001, pid: session.spawn(1001)?.pid };
    /// let target = session.spawn(1001)?.pid;
    /// session.ptrace(debugger, Request::Attach, target)?;
    /// assert!(session.ptrace(debugger, Request::Continue(None), target).is_err());
    /// let why = "ptrace(PT_CONTINUE, 1001) by 1000: EBUSY, no wait has reported the stop of 1001";
    /// assert_eq!(session.explain()?.as_deref(), Some(why));
    /// # Ok(())
    /// # }
    /// ```
    pub fn explain(&self) -> Result<Option<String>, Error> {
        let line = self.last_line()?;
        let Some(answer) = refusals::refusal(&line) else {
            return Ok(None);
        };
        let Some(step) = self.last_step()? else {
            return Ok(Some(answer.to_owned()));
        };
        let (processes, lwps) = self.rows(refusals::user(&step))?;
        Ok(Some(refusals::explanation(&step, answer, &Rows { processes, lwps })))
    }

    fn answer(&mut self, step: &str, json: bool) -> Result<String, Error> {
        let mut room = vec![0; 128];
        let (code, length) = self.handle.line(json, step.as_bytes(), &mut room);
        if !matches!(code, sys::ANSWERED | sys::NO_TEXT) {
            return Err(Error::of_code(code));
        }
        self.recorded()?;
        if code == sys::NO_TEXT {
            Err(Error::NoText)
        } else if length <= room.len() {
            Ok(text(room, length))
        } else {
            self.last_answer(json, length)
        }
    }

    /// The last answer, with room for so many bytes at first.
    fn last_answer(&self, json: bool, size: usize) -> Result<String, Error> {
        whole(size, |room| self.handle.last_line(json, room))
    }
}

/// The whole text that a call stores, with room for so many bytes at first.
fn whole(size: usize, store: impl Fn(&mut [u8]) -> (u32, usize)) -> Result<String, Error> {
    let mut room = vec![0; size];
    loop {
        let (code, length) = store(&mut room);
        match code {
            sys::ANSWERED if length <= room.len() => return Ok(text(room, length)),
            sys::ANSWERED => room.resize(length, 0),
            _ => return Err(Error::of_code(code)),
        }
    }
}

/// The line of an answer, without its line feed.
fn text(mut room: Vec<u8>, length: usize) -> String {
    room.truncate(length);
    if room.last() == Some(&b'\n') {
        room.pop();
    }
    String::from_utf8(room).expect("an answer is ASCII")
}
