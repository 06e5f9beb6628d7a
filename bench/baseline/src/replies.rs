//! What replies are written to: lines, JSON objects, or a struct of C.

use crate::names::{Decision, Error};
use crate::rows::{LwpSlot, ProcessSlot, Stop};
use crate::tables::Table;

/// A step has one reply, by one call; that of a handler's debugger is by two, `handled` and then `decided`.
pub trait Replies {
    fn ok(&mut self);

    fn held(&mut self);

    fn nothing(&mut self);

    fn error(&mut self, error: Error);

    /// A new LWP, of a new process or of its own.
    fn made(&mut self, table: &Table, l: LwpSlot);

    fn count(&mut self, lwps: u16);

    /// The status of a process, which may just have been removed.
    fn status(&mut self, table: &Table, p: ProcessSlot, word: u16);

    fn caught(&mut self, signal: u8);

    fn ended(&mut self, word: u16);

    fn stopped(&mut self, table: &Table, l: LwpSlot, signal: u8, flags: u16);

    fn mask(&mut self, mask: u8);

    fn info(&mut self, table: &Table, l: LwpSlot);

    fn lwps(&mut self, table: &Table, p: ProcessSlot, most: u32);

    fn pids(&mut self, table: &Table);

    /// What a handler's debugger was told of a stop.
    fn handled(&mut self, table: &Table, p: ProcessSlot, l: LwpSlot, stop: &Stop);

    /// What was decided about it, by the handler of this index or by none.
    fn decided(&mut self, index: Option<usize>, decision: Decision, pass: u8);
}
