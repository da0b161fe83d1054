//! Safe functions over the proved library: read a rehearsal sheet, write it as its one fixed text, evaluate its goal, from one start
//! or from a whole class of them, list the path of an answer, find a call; merge two sheets into one; store states by fluent, and
//! restore them; take the figures of a class run; mark what a trainee did; run the goals of two instructors in one pair of tables.
//!
//! [`Rehearsal`] reads, evaluates and lists paths in memory of its own, and gives the steps of each way, held against the library's
//! path:
//!
//! ```
//! let text = b"fluent\topen\naction\tpurge\nrule\tpurge\t+open\nstart\ngoal\t!purge\n";
//! let rehearsal = lawhemuri::Rehearsal::new(text.to_vec()).unwrap();
//! assert_eq!(rehearsal.ends(), [1]);
//! let way = rehearsal.way_to(1).unwrap().expect("1 is an end");
//! assert_eq!((way.states, way.events.len()), (vec![0, 1], 5));
//! ```
//!
//! [`Panel`] is one pair of tables for two instructors, in memory of its own.
//!
//! In the functions below the caller lends all memory as slices. What each slice holds afterwards, for every
//! refusal, is said at each function. As the header's constants say, [`share`] needs 1,792 KiB of stack, [`path`] and [`share_path`] 512 KiB,
//! [`evaluate`], [`class`], [`read`], [`fluent_name`], [`write`], [`merge`], [`merged_fluent`], [`mark`] and [`open`] 64 KiB,
//! [`report`] 8 KiB, [`store`] and [`restore`] 1 KiB: a thread of the standard library has 2 MiB.
//!
//! ```
//! let text = b"fluent\ta\nfluent\tb\naction\tg\nrule\tg\t!g\t?a\t+b\nrule\tg\t+a\nstart\ngoal\t!g\n";
//! let mut rules = [0; 4608];
//! let sheet = lawhemuri::read(text, &mut rules).unwrap();
//! let (mut calls, mut answers, mut ends, mut list) = ([0; 3 * 512], [0; 20 * 256], [0; 256], [0; 512]);
//! let mut buffers = lawhemuri::Buffers { calls: &mut calls, answers: &mut answers, ends: &mut ends, list: &mut list };
//! let run = lawhemuri::evaluate(&sheet.question(&rules), &mut buffers).unwrap();
//! assert_eq!((run.ends, run.calls, run.answers, run.rounds), (2, 2, 4, 4));
//! assert_eq!(&ends[..2], [1, 3]);
//! let calls = lawhemuri::Calls { words: &calls, count: run.calls, list: &list };
//! assert_eq!((calls.find(0, 0), calls.find(0, 1)), (Ok(Some(1)), Ok(None)));
//! ```

use std::error::Error;
use std::fmt;

mod calls;
mod class;
mod ffi;
mod panel;
mod refusal;
mod rehearsal;
mod report;
pub mod unfolding;

pub use calls::Calls;
pub use class::{class, outcomes, Counts, Outcome, Uncounted, MOST_STARTS, START_WORDS};
pub use panel::{open, share, share_path, Kept, Limits, Panel, Party, PartyRun, Shared};
pub use panel::{KEPT_WORDS, SECOND_GOAL_ACTION, SHARED_ANSWER_WORDS, SHARED_CALL_WORDS, STACK_SHARE};
use refusal::accepted;
pub use refusal::Refusal;
pub use rehearsal::{class_of, OfStart, Rehearsal, Trouble, Way, MOST_EVENTS, MOST_RECORDS, STACK_EVALUATE, STACK_PATH};
pub use report::{report, report_of, report_words, Figures, Fraction, Report};

/// Words of one rule: head, step count, 16 step words.
pub const RULE_WORDS: usize = 18;
/// Words of one call record: action, state, round.
pub const CALL_WORDS: usize = 3;
/// Words of one answer record: call record number, final state, rule number, 16 evidence words, round.
pub const ANSWER_WORDS: usize = 20;
/// The highest round that a call record may have where [`path`] shows it.
pub const MOST_CALL_ROUND: u64 = 131_071;
/// Fluents that a book has at most.
pub const MOST_FLUENTS: u64 = 64;
/// Actions that a book has at most.
pub const MOST_ACTIONS: u64 = 64;
/// The goal's number among the actions of call records.
pub const GOAL_ACTION: u64 = 64;
/// The goal's number among the rule numbers of answer records.
pub const GOAL_RULE: u64 = 256;
/// Steps that a record has at most.
pub const MOST_RECORDED: usize = 63;
/// Words of marks: 64 for each of 64 actions.
pub const MARK_WORDS: usize = 4096;
/// Rule words that any sheet fits in.
pub const MOST_RULE_WORDS: usize = 256 * RULE_WORDS;

/// What an accepted sheet says beside its rule words.
#[derive(Clone, Debug, PartialEq, Eq)]
pub struct Sheet {
    pub fluents: u64,
    pub actions: u64,
    /// How many rules stand at the head of the list lent, 18 words each.
    pub rules: usize,
    pub start: u64,
    goal: [u16; 16],
    goal_len: usize,
}

impl Sheet {
    /// The goal's step words, at most 16.
    pub fn goal(&self) -> &[u16] {
        &self.goal[..self.goal_len]
    }

    /// What the sheet asks of [`evaluate`], with the rule words that [`read`] wrote.
    pub fn question<'a>(&'a self, rules: &'a [u16]) -> Question<'a> {
        Question {
            fluents: self.fluents,
            actions: self.actions,
            rules: &rules[..RULE_WORDS * self.rules],
            goal: self.goal(),
            start: self.start,
        }
    }
}

/// A refused sheet: why, and the line from 1 for refusals 13 to 17, else 0.
#[derive(Clone, Copy, Debug, PartialEq, Eq)]
pub struct Unread {
    pub refusal: Refusal,
    pub line: u64,
}

impl fmt::Display for Unread {
    fn fmt(&self, f: &mut fmt::Formatter<'_>) -> fmt::Result {
        match self.line {
            0 => write!(f, "{}", self.refusal),
            line => write!(f, "{}, line {line}", self.refusal),
        }
    }
}

impl Error for Unread {}

/// A refused merge: why, the sheet, 1 or 2, for its own fault, else 0, and that sheet's line from 1 for 13 to 17, else 0.
#[derive(Clone, Copy, Debug, PartialEq, Eq)]
pub struct Unmerged {
    pub refusal: Refusal,
    pub sheet: u64,
    pub line: u64,
}

impl fmt::Display for Unmerged {
    fn fmt(&self, f: &mut fmt::Formatter<'_>) -> fmt::Result {
        let Unmerged { refusal, sheet, line } = *self;
        match (sheet, line) {
            (0, _) => write!(f, "{refusal}"),
            (_, 0) => write!(f, "{refusal}, sheet {sheet}"),
            _ => write!(f, "{refusal}, sheet {sheet}, line {line}"),
        }
    }
}

impl Error for Unmerged {}

/// What is asked of [`evaluate`].
#[derive(Clone, Copy, Debug)]
pub struct Question<'a> {
    pub fluents: u64,
    pub actions: u64,
    pub rules: &'a [u16],
    pub goal: &'a [u16],
    pub start: u64,
}

/// The buffers lent to [`evaluate`]: two tables, the list of ends, and the list of calls, with a place for each record that the call table
/// has room for.
#[derive(Debug)]
pub struct Buffers<'a> {
    pub calls: &'a mut [u64],
    pub answers: &'a mut [u64],
    pub ends: &'a mut [u64],
    pub list: &'a mut [u64],
}

/// The counts of ends, of call records and of answer records, and how many rounds added something.
#[derive(Clone, Copy, Debug, Default, PartialEq, Eq)]
pub struct Run {
    pub ends: usize,
    pub calls: usize,
    pub answers: usize,
    /// Each round walks every body of every call found before with the answers found before; see [`CALL_WORDS`] and [`ANSWER_WORDS`].
    pub rounds: usize,
}

/// A refused run: why, and the counts, which are 0 but for refusal 31.
#[derive(Clone, Copy, Debug, PartialEq, Eq)]
pub struct Unrun {
    pub refusal: Refusal,
    pub run: Run,
}

impl fmt::Display for Unrun {
    fn fmt(&self, f: &mut fmt::Formatter<'_>) -> fmt::Result {
        match self.refusal {
            Refusal::ListShort => write!(f, "{}, {} in all", self.refusal, self.run.ends),
            refusal => write!(f, "{refusal}"),
        }
    }
}

impl Error for Unrun {}

/// The version of the library that is linked: 10,000 times the first number, 100 times the second and the third.
pub fn version() -> u64 {
    // SAFETY: the function takes nothing and touches no memory.
    unsafe { ffi::lawhemuri_version() }
}

/// Reads a sheet (refusals 10 to 19).
///
/// Accepted, the head of `rules` holds 18 words for each rule and the list past them is
/// unchanged; refused, `rules` is unchanged.
pub fn read(sheet: &[u8], rules: &mut [u16]) -> Result<Sheet, Unread> {
    // SAFETY: the library reads `sheet` and writes `rules`, within the lengths given, and keeps neither.
    let r = unsafe { ffi::lawhemuri_read(sheet.as_ptr(), sheet.len(), rules.as_mut_ptr(), rules.len()) };
    accepted(r.refusal).map_err(|refusal| Unread { refusal, line: r.line })?;
    Ok(Sheet {
        fluents: r.fluents,
        actions: r.actions,
        rules: r.rules as usize,
        start: r.start,
        goal: r.goal,
        goal_len: r.goal_len as usize,
    })
}

/// Writes an accepted sheet as its one fixed text (refusals 10 to 18, then 50) and gives the text's length.
///
/// The text has no comments, LF alone at a line's end, and the names of `start` in fluent order. It reads to what the sheet reads to, sheets
/// that read to the same have the same text, and it is never longer than the sheet. Past it `text` is unchanged; refused, all of `text` is.
pub fn write(sheet: &[u8], text: &mut [u8]) -> Result<usize, Unread> {
    // SAFETY: the library reads `sheet` and writes `text`, within the lengths given, and keeps neither.
    let r = unsafe { ffi::lawhemuri_write(sheet.as_ptr(), sheet.len(), text.as_mut_ptr(), text.len()) };
    accepted(r.refusal).map_err(|refusal| Unread { refusal, line: r.line })?;
    Ok(r.length as usize)
}

/// Merges two accepted sheets into one fixed text (the first's refusals 10 to 18, the second's, then 70, 17, 10 and 50) and gives its
/// length.
///
/// The text has the names of the first, then the new names of the second; the rules of the first, then those of the second not already
/// written; both starts together; the first's goal. Past it `text` is unchanged; refused, all of `text` is. 65,536 bytes always do.
pub fn merge(first: &[u8], second: &[u8], text: &mut [u8]) -> Result<usize, Unmerged> {
    // SAFETY: the library reads the two sheets and writes `text`, within the lengths given, and keeps none.
    let r = unsafe {
        ffi::lawhemuri_merge(first.as_ptr(), first.len(), second.as_ptr(), second.len(), text.as_mut_ptr(), text.len())
    };
    accepted(r.refusal).map_err(|refusal| Unmerged { refusal, sheet: r.sheet, line: r.line })?;
    Ok(r.length as usize)
}

/// The very part of whichever sheet brought a merged fluent's name first; empty for a merge refused other than with 50 or a number
/// too high.
///
/// Each call merges the two sheets.
pub fn merged_fluent<'a>(first: &'a [u8], second: &'a [u8], fluent: u64) -> &'a [u8] {
    // SAFETY: the library reads the two sheets within the lengths given; the part lies within the one it names.
    let part = unsafe { ffi::lawhemuri_merged_fluent(first.as_ptr(), first.len(), second.as_ptr(), second.len(), fluent) };
    &(if part.sheet == 2 { second } else { first })[part.at..part.at + part.len]
}

/// The very part of the sheet that defines a fluent; empty for a refused sheet or a number too high.
///
/// Each call reads the whole sheet.
pub fn fluent_name(sheet: &[u8], fluent: u64) -> &[u8] {
    // SAFETY: the library reads `sheet` within the length given; the part lies within it.
    let part = unsafe { ffi::lawhemuri_fluent_name(sheet.as_ptr(), sheet.len(), fluent) };
    &sheet[part.at..part.at + part.len]
}

/// Evaluates a goal from a start (refusals 20 to 24, 34, 30, 31).
///
/// * No refusal: both tables hold the run's calls and answers, each once and with its round, and 0 past
///   them; `ends` begins with the ends in rising order and is unchanged past them; `list` has the numbers of the
///   call records by action and then state, as [`Calls`] takes them, and 0 past them.
/// * 20 to 24, 34: the buffers are unchanged.
/// * 30: both tables and `list` are 0 throughout, `ends` is unchanged.
/// * 31: both tables and `list` as with no refusal, the counts are given, `ends` is unchanged.
pub fn evaluate(question: &Question<'_>, lent: &mut Buffers<'_>) -> Result<Run, Unrun> {
    // SAFETY: the library reads rules and goal and writes the buffers, within the lengths given, and keeps
    // none; the borrows make them disjoint.
    let r = unsafe {
        ffi::lawhemuri_evaluate(
            question.fluents,
            question.actions,
            question.rules.as_ptr(),
            question.rules.len(),
            question.goal.as_ptr(),
            question.goal.len(),
            question.start,
            lent.calls.as_mut_ptr(),
            lent.calls.len(),
            lent.answers.as_mut_ptr(),
            lent.answers.len(),
            lent.ends.as_mut_ptr(),
            lent.ends.len(),
            lent.list.as_mut_ptr(),
            lent.list.len(),
        )
    };
    let run = Run { ends: r.ends as usize, calls: r.calls as usize, answers: r.answers as usize, rounds: r.rounds as usize };
    accepted(r.refusal).map_err(|refusal| Unrun { refusal, run })?;
    Ok(run)
}

/// Filled tables to be shown, and how many records of each count.
#[derive(Clone, Copy, Debug)]
pub struct Records<'a> {
    pub calls: &'a [u64],
    pub call_count: usize,
    pub answers: &'a [u64],
    pub answer_count: usize,
}

/// Lists the path of an answer record (refusals 20 to 23, then 40 to 43) and gives the count of its states.
///
/// The call's state comes first, then one state for each update, also where it changes nothing; queries and denials
/// add none. The list past the states is unchanged; refused, it is unchanged. The tables may come from anybody:
/// every record is checked. The question's start is not used.
pub fn path(question: &Question<'_>, records: &Records<'_>, record: usize, states: &mut [u64]) -> Result<usize, Refusal> {
    // SAFETY: the library reads rules, goal and tables and writes `states`, within the lengths given, and keeps none.
    let r = unsafe {
        ffi::lawhemuri_path(
            question.fluents,
            question.actions,
            question.rules.as_ptr(),
            question.rules.len(),
            question.goal.as_ptr(),
            question.goal.len(),
            records.calls.as_ptr(),
            records.calls.len(),
            records.call_count as u64,
            records.answers.as_ptr(),
            records.answers.len(),
            records.answer_count as u64,
            record as u64,
            states.as_mut_ptr(),
            states.len(),
        )
    };
    accepted(r.refusal)?;
    Ok(r.states as usize)
}

/// Stores states by fluent (refusals 20, 24, 80) and gives the count of the words.
///
/// For each block of 64 states there is one word per fluent, in fluent order; bit i of a fluent's word is set exactly if
/// it holds in state i of the block, and 0 for a state that is missing. The words come first in `words`, which is
/// unchanged past them; refused, it is unchanged.
///
/// ```
/// let mut words = [0; 2];
/// assert_eq!(lawhemuri::store(2, &[0, 1, 3, 2], &mut words), Ok(2));
/// assert_eq!(words, [0b0110, 0b1100]);
/// let mut states = [0; 4];
/// assert_eq!(lawhemuri::restore(2, 4, &words, &mut states), Ok(4));
/// assert_eq!(states, [0, 1, 3, 2]);
/// ```
pub fn store(fluents: u64, states: &[u64], words: &mut [u64]) -> Result<usize, Refusal> {
    // SAFETY: the library reads `states` and writes `words`, within the lengths given, and keeps neither.
    let r = unsafe { ffi::lawhemuri_store(fluents, states.as_ptr(), states.len(), words.as_mut_ptr(), words.len()) };
    accepted(r.refusal)?;
    Ok(r.count as usize)
}

/// Restores `count` states from their words (refusals 20, 81, 82, 80) and gives their count.
///
/// The states come first in `states`, which is unchanged past them; refused, it is unchanged. The words may come from
/// anybody; those that [`store`] wrote, without what stands past them, give back the states that it was lent.
pub fn restore(fluents: u64, count: u64, words: &[u64], states: &mut [u64]) -> Result<usize, Refusal> {
    // SAFETY: the library reads `words` and writes `states`, within the lengths given, and keeps neither.
    let r = unsafe { ffi::lawhemuri_restore(fluents, count, words.as_ptr(), words.len(), states.as_mut_ptr(), states.len()) };
    accepted(r.refusal)?;
    Ok(r.count as usize)
}

/// Marks what a trainee did (refusals 20 to 24, then 60 to 62): whether some complete deduction of the goal from the start
/// carries out the recorded steps, in that order and no others.
///
/// The first 4,096 words of `table` are then the marks: bit j of word 64 a + i is set exactly if some complete deduction of
/// action a, from the state that the steps before i leave, carries out just the steps from i up to but not including j. It is
/// unchanged past them; refused, it is unchanged.
///
/// ```
/// let text = b"fluent\ta\nfluent\tb\naction\tg\nrule\tg\t!g\t?a\t+b\nrule\tg\t+a\nstart\ngoal\t!g\n";
/// let mut rules = [0; 36];
/// let sheet = lawhemuri::read(text, &mut rules).unwrap();
/// let mut table = [0; lawhemuri::MARK_WORDS];
/// assert_eq!(lawhemuri::mark(&sheet.question(&rules), &[256, 0, 257], &mut table), Ok(true));
/// assert_eq!(table[0], 0b1010);
/// ```
pub fn mark(question: &Question<'_>, recorded: &[u16], table: &mut [u64]) -> Result<bool, Refusal> {
    // SAFETY: the library reads the rules, the goal and the record and writes `table`, within the lengths given, and keeps none.
    let r = unsafe {
        ffi::lawhemuri_mark(
            question.fluents,
            question.actions,
            question.rules.as_ptr(),
            question.rules.len(),
            question.goal.as_ptr(),
            question.goal.len(),
            question.start,
            recorded.as_ptr(),
            recorded.len(),
            table.as_mut_ptr(),
            table.len(),
        )
    };
    accepted(r.refusal)?;
    Ok(r.yes == 1)
}
