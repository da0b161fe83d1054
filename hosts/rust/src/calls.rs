//! Calls found without a walk of their table.

use crate::refusal::accepted;
use crate::{ffi, Refusal};

/// A call table, how many records of it count, and the list of their numbers by action and then state, as [`evaluate`](crate::evaluate)
/// leaves them.
#[derive(Clone, Copy, Debug)]
pub struct Calls<'a> {
    pub words: &'a [u64],
    pub count: usize,
    pub list: &'a [u64],
}

impl Calls<'_> {
    /// The record of a call, if there is one (refusals 40, then 35); the goal is action [`GOAL_ACTION`](crate::GOAL_ACTION).
    ///
    /// It is looked for by halves: at most 17 places of the list are read. Table, count and list may come from anybody. Those that one
    /// run left are never refused, and what a walk of the table finds is found; a list that is not in order may hide a call, and a place
    /// that is not read is not judged.
    pub fn find(&self, action: u64, state: u64) -> Result<Option<usize>, Refusal> {
        let Calls { words, count, list } = *self;
        // SAFETY: the library reads table and list, within the lengths given, writes nothing and keeps neither.
        let r =
            unsafe { ffi::lawhemuri_lookup(words.as_ptr(), words.len(), count as u64, list.as_ptr(), list.len(), action, state) };
        accepted(r.refusal)?;
        Ok((r.found == 1).then_some(r.row as usize))
    }
}
