//! Two instructors on one panel: two parties with one book share a pair of tables.

use crate::refusal::accepted;
use crate::rehearsal::with_stack;
use crate::{ffi, Counts, Question, Refusal, Trouble, Uncounted, GOAL_ACTION, MOST_RECORDS, STACK_PATH};

/// Words of a call record of shared tables: action, state.
pub const SHARED_CALL_WORDS: usize = 2;
/// Words of an answer record of shared tables: call record number, final state, rule number, 16 evidence words.
pub const SHARED_ANSWER_WORDS: usize = 19;
/// Words that are kept beside shared tables.
pub const KEPT_WORDS: usize = 44;
/// The number of the second party's goal among the actions of call records; the first's is [`GOAL_ACTION`].
pub const SECOND_GOAL_ACTION: u64 = 65;
/// Bytes of stack that [`share`] needs, with some to spare.
pub const STACK_SHARE: usize = 1_835_008;

/// Words of each party's account in [`Kept`], and where the counts stand behind both.
const ACCOUNT: usize = 21;
const CALLS: usize = 42;
const ANSWERS: usize = 43;

/// One of two parties with the same book.
#[derive(Clone, Copy, Debug, PartialEq, Eq, Hash)]
pub enum Party {
    First,
    Second,
}

impl Party {
    /// The number of the party's goal among the actions of call records.
    pub fn goal_action(self) -> u64 {
        match self {
            Party::First => GOAL_ACTION,
            Party::Second => SECOND_GOAL_ACTION,
        }
    }
}

/// How many calls and how many answers a party's run may have.
#[derive(Clone, Copy, Debug, Default, PartialEq, Eq)]
pub struct Limits {
    pub calls: usize,
    pub answers: usize,
}

/// What is kept beside shared tables: the limits of both parties, goal and start of each that holds rows, and the counts of records.
///
/// The words may be stored with the tables and taken back; a run judges them (91).
#[derive(Clone, Copy, Debug, PartialEq, Eq)]
pub struct Kept(pub [u64; KEPT_WORDS]);

impl Kept {
    /// The limits of a party.
    pub fn limits(&self, party: Party) -> Limits {
        let account = self.account(party);
        Limits { calls: account[0] as usize, answers: account[1] as usize }
    }

    /// Whether a party holds rows in the tables.
    pub fn holds(&self, party: Party) -> bool {
        self.account(party)[2] != 0
    }

    /// How many call records the tables have.
    pub fn calls(&self) -> usize {
        self.0[CALLS] as usize
    }

    /// How many answer records the tables have.
    pub fn answers(&self) -> usize {
        self.0[ANSWERS] as usize
    }

    fn account(&self, party: Party) -> &[u64] {
        &self.0[if party == Party::Second { ACCOUNT } else { 0 }..][..ACCOUNT]
    }
}

/// The buffers lent to [`share`]: the two tables and the list of ends.
#[derive(Debug)]
pub struct Shared<'a> {
    pub calls: &'a mut [u64],
    pub answers: &'a mut [u64],
    pub ends: &'a mut [u64],
}

/// Opens one pair of tables for two parties (refusal 90) and gives what is kept from then on. Both tables are then 0 throughout;
/// refused, they are unchanged.
pub fn open(first: Limits, second: Limits, calls: &mut [u64], answers: &mut [u64]) -> Result<Kept, Refusal> {
    // SAFETY: the library writes the tables, within the lengths given, and keeps neither; the borrows make them disjoint.
    let r = unsafe {
        ffi::lawhemuri_open(
            first.calls as u64,
            first.answers as u64,
            second.calls as u64,
            second.answers as u64,
            calls.as_mut_ptr(),
            calls.len(),
            answers.as_mut_ptr(),
            answers.len(),
        )
    };
    accepted(r.refusal)?;
    Ok(Kept(r.kept))
}

/// Runs a party's goal from a start in tables that both share (refusals 20 to 22, 91, 23, 24, 30, 31). Refusal, counts and ends are those of
/// a run alone in tables of the party's limits, whatever the other does; only 91 may depend on both.
///
/// * No refusal: both tables hold exactly the calls and answers of the goals that are kept, each once, and 0 past them; `ends` begins with
///   the party's ends in rising order and is unchanged past them; `kept` has what is kept from then on. The counts are the party's own.
/// * 20 to 22, 91: everything is unchanged, `kept` too.
/// * 23, 24, 30: both tables hold the other party's rows alone, `kept` says so, `ends` is unchanged.
/// * 31: both tables and `kept` as with no refusal, the counts are given, `ends` is unchanged.
///
/// ```
/// use lawhemuri::{open, share, Limits, Party, Shared};
///
/// let text = b"fluent\ta\nfluent\tb\naction\tg\nrule\tg\t!g\t?a\t+b\nrule\tg\t+a\nstart\ngoal\t!g\n";
/// let mut rules = [0; 36];
/// let sheet = lawhemuri::read(text, &mut rules).unwrap();
/// let (mut calls, mut answers, mut ends) = ([0; 2 * 4], [0; 19 * 8], [0; 4]);
/// let limits = Limits { calls: 2, answers: 4 };
/// let mut kept = open(limits, limits, &mut calls, &mut answers).unwrap();
/// let mut lent = Shared { calls: &mut calls, answers: &mut answers, ends: &mut ends };
/// let first = share(Party::First, &sheet.question(&rules), &mut kept, &mut lent).unwrap();
/// assert_eq!((first.ends, first.calls, first.answers), (2, 2, 4));
/// let from_b = lawhemuri::Question { start: 2, ..sheet.question(&rules) };
/// let second = share(Party::Second, &from_b, &mut kept, &mut lent).unwrap();
/// assert_eq!((second.ends, lent.ends[0]), (1, 3));
/// assert_eq!((kept.calls(), kept.answers()), (4, 6));
/// ```
pub fn share(party: Party, question: &Question<'_>, kept: &mut Kept, lent: &mut Shared<'_>) -> Result<Counts, Uncounted> {
    // SAFETY: the library reads rules, goal and the words kept and writes the buffers, within the lengths given, and keeps none; the
    // borrows make them disjoint.
    let r = unsafe {
        ffi::lawhemuri_share(
            party == Party::Second,
            question.fluents,
            question.actions,
            question.rules.as_ptr(),
            question.rules.len(),
            question.goal.as_ptr(),
            question.goal.len(),
            question.start,
            kept.0.as_ptr(),
            kept.0.len(),
            lent.calls.as_mut_ptr(),
            lent.calls.len(),
            lent.answers.as_mut_ptr(),
            lent.answers.len(),
            lent.ends.as_mut_ptr(),
            lent.ends.len(),
        )
    };
    kept.0 = r.kept;
    let counts = Counts { ends: r.ends as usize, calls: r.calls as usize, answers: r.answers as usize };
    accepted(r.refusal).map_err(|refusal| Uncounted { refusal, counts })?;
    Ok(counts)
}

/// Lists the path of an answer record of tables that two parties share (refusals 20 to 22, 23 of either goal that is kept, then 40 to 43), as
/// [`path`](crate::path) does, and gives the count of its states. The goals and the counts of records are those kept; the question's goal and
/// start are not used.
pub fn share_path(
    question: &Question<'_>,
    kept: &Kept,
    calls: &[u64],
    answers: &[u64],
    record: usize,
    states: &mut [u64],
) -> Result<usize, Refusal> {
    // SAFETY: the library reads rules, the words kept and the tables and writes `states`, within the lengths given, and keeps none.
    let r = unsafe {
        ffi::lawhemuri_share_path(
            question.fluents,
            question.actions,
            question.rules.as_ptr(),
            question.rules.len(),
            kept.0.as_ptr(),
            kept.0.len(),
            calls.as_ptr(),
            calls.len(),
            answers.as_ptr(),
            answers.len(),
            record as u64,
            states.as_mut_ptr(),
            states.len(),
        )
    };
    accepted(r.refusal)?;
    Ok(r.states as usize)
}

/// What a party's run gave: its own counts, and its ends in rising order.
#[derive(Clone, Debug, PartialEq, Eq)]
pub struct PartyRun {
    pub counts: Counts,
    pub ends: Vec<u64>,
}

/// One pair of tables that two parties share, in memory of its own.
///
/// The fields may be stored and put together again: a run refuses with 91 what no opening and no run under its book left.
///
/// ```
/// use lawhemuri::{Limits, Panel, Party, Question};
///
/// let text = b"fluent\ta\nfluent\tb\naction\tg\nrule\tg\t!g\t?a\t+b\nrule\tg\t+a\nstart\ngoal\t!g\n";
/// let mut rules = [0; 36];
/// let sheet = lawhemuri::read(text, &mut rules).unwrap();
/// let question = sheet.question(&rules);
/// let mut panel = Panel::open(Limits { calls: 2, answers: 4 }, Limits { calls: 8, answers: 8 }).unwrap();
/// assert_eq!(panel.share(Party::First, &question).unwrap().ends, [1, 3]);
/// assert_eq!(panel.share(Party::Second, &Question { start: 2, ..question }).unwrap().ends, [3]);
/// let record = panel.record(Party::First, 3).expect("3 is an end of the first party's");
/// assert_eq!(panel.path(&question, record, 9).unwrap(), Some(vec![0, 1, 3]));
/// ```
#[derive(Clone, Debug, PartialEq, Eq)]
pub struct Panel {
    /// 2 words for each call record, 0 past them.
    pub calls: Vec<u64>,
    /// 19 words for each answer record, 0 past them.
    pub answers: Vec<u64>,
    pub kept: Kept,
}

impl Panel {
    /// Opens tables with just the room for both parties' limits; 90 where they add up to more than [`MOST_RECORDS`].
    pub fn open(first: Limits, second: Limits) -> Result<Panel, Refusal> {
        let room = |one: usize, other: usize| one.saturating_add(other).min(MOST_RECORDS);
        let mut calls = vec![0; SHARED_CALL_WORDS * room(first.calls, second.calls)];
        let mut answers = vec![0; SHARED_ANSWER_WORDS * room(first.answers, second.answers)];
        let kept = open(first, second, &mut calls, &mut answers)?;
        Ok(Panel { calls, answers, kept })
    }

    /// Runs a party's goal from a start, with its limits. Its earlier rows that the other does not need are given up; the other's stay.
    pub fn share(&mut self, party: Party, question: &Question<'_>) -> Result<PartyRun, Trouble> {
        // The ends are at most half of the answers, or one.
        let mut ends = vec![0; self.kept.limits(party).answers.min(MOST_RECORDS) / 2 + 1];
        let mut lent = Shared { calls: &mut self.calls, answers: &mut self.answers, ends: &mut ends };
        let kept = &mut self.kept;
        let counts = with_stack(STACK_SHARE, || share(party, question, kept, &mut lent))?;
        let counts = counts.map_err(|refused| Trouble::Refused(refused.refusal))?;
        ends.truncate(counts.ends);
        Ok(PartyRun { counts, ends })
    }

    /// The answer record for an end of the goal that a party holds rows for.
    pub fn record(&self, party: Party, end: u64) -> Option<usize> {
        let answers = self.answers.chunks_exact(SHARED_ANSWER_WORDS).take(self.kept.answers());
        let action = |call: u64| self.calls.get(SHARED_CALL_WORDS.checked_mul(usize::try_from(call).ok()?)?);
        let goal = |call: u64| action(call) == Some(&party.goal_action());
        answers.into_iter().position(|record| record[1] == end && goal(record[0]))
    }

    /// The path of an answer record; `None` where it has more than `most` states. The question's goal and start are not used.
    pub fn path(&self, question: &Question<'_>, record: usize, most: usize) -> Result<Option<Vec<u64>>, Trouble> {
        let mut states = vec![0; most];
        match with_stack(STACK_PATH, || share_path(question, &self.kept, &self.calls, &self.answers, record, &mut states))? {
            Ok(count) => {
                states.truncate(count);
                Ok(Some(states))
            }
            Err(Refusal::StatesShort) => Ok(None),
            Err(refusal) => Err(Trouble::Refused(refusal)),
        }
    }
}
