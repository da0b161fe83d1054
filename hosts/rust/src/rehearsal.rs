//! A sheet with all that its rehearsal gives, in memory of its own: rooms grow as the run needs them.

use std::collections::HashMap;
use std::{fmt, io, panic, thread};

use crate::unfolding::{hold, hold_structure, replay, unfold, Answer, Difference, Event, Kind, Step, Tables};
use crate::{class, evaluate, fluent_name, outcomes, path, read, Buffers, Calls, Counts, Question, Records, Refusal, Run, Sheet};
use crate::{Uncounted, Unread, ANSWER_WORDS, CALL_WORDS, GOAL_ACTION, MOST_RULE_WORDS, START_WORDS};

/// Records that a table has at most, whatever is lent.
pub const MOST_RECORDS: usize = 65_536;
/// Events of the longest execution that is unfolded.
pub const MOST_EVENTS: u64 = 1 << 20;
/// Bytes of stack that [`evaluate`] needs, with some to spare.
pub const STACK_EVALUATE: usize = 65_536;
/// Bytes of stack that [`path`] needs, with some to spare.
pub const STACK_PATH: usize = 524_288;

/// Records of each table lent first.
const FIRST_ROOM: usize = 512;
/// Bytes of stack for what a thread does beside the library's call.
const STACK_OF_A_THREAD: usize = 65_536;

/// Why there is no rehearsal, or no way.
#[derive(Debug)]
pub enum Trouble {
    /// The sheet is refused.
    Sheet(Unread),
    /// The run has more than [`MOST_RECORDS`] calls or answers: no room helps.
    TooLarge,
    /// The library refuses what was asked, or what was handed on as it came from it.
    Refused(Refusal),
    /// No thread with the stack needed could be started.
    Thread(io::Error),
    /// The steps unfolded are not those of the library's tables and path.
    Difference(Difference),
}

impl fmt::Display for Trouble {
    fn fmt(&self, f: &mut fmt::Formatter<'_>) -> fmt::Result {
        match self {
            Trouble::Sheet(unread) => write!(f, "{unread}"),
            Trouble::TooLarge => {
                write!(f, "{}: more than 65,536 calls or answers, no room helps", Refusal::TablesFull)
            }
            Trouble::Refused(refusal) => write!(f, "{refusal}"),
            Trouble::Thread(error) => write!(f, "no thread could be started: {error}"),
            Trouble::Difference(difference) => write!(f, "{difference}"),
        }
    }
}

impl std::error::Error for Trouble {}

impl From<Difference> for Trouble {
    fn from(difference: Difference) -> Trouble {
        Trouble::Difference(difference)
    }
}

/// One execution: its steps, held against the library's path, and the states of that path.
#[derive(Clone, Debug)]
pub struct Way {
    /// The answer record that is unfolded.
    pub record: usize,
    /// Whether it is the record asked for, and not a part of one that is too long.
    pub whole: bool,
    pub events: Vec<Event>,
    /// As the library lists them: the call's state, then one for each update.
    pub states: Vec<u64>,
}

/// What a start of a class was told, and its ends in rising order; none where it was refused.
pub type OfStart = (Result<Counts, Uncounted>, Vec<u64>);

/// A sheet that is read and evaluated.
#[derive(Debug)]
pub struct Rehearsal {
    text: Vec<u8>,
    sheet: Sheet,
    rules: Vec<u16>,
    names: Vec<String>,
    run: Run,
    calls: Vec<u64>,
    answers: Vec<u64>,
    ends: Vec<u64>,
    /// The numbers of the call records, by action and then state.
    list: Vec<u64>,
    sizes: Vec<u64>,
    /// The goal's answer record for each end.
    records: HashMap<u64, usize>,
}

/// The buffers that a finished run leaves.
struct Finished {
    run: Run,
    calls: Vec<u64>,
    answers: Vec<u64>,
    ends: Vec<u64>,
    list: Vec<u64>,
}

impl Rehearsal {
    /// Reads a sheet and evaluates its goal. Both rooms are doubled on 30, up to [`MOST_RECORDS`].
    pub fn new(text: Vec<u8>) -> Result<Rehearsal, Trouble> {
        let mut rules = vec![0; MOST_RULE_WORDS];
        let sheet = read(&text, &mut rules).map_err(Trouble::Sheet)?;
        let names = (0..sheet.fluents).map(|k| String::from_utf8_lossy(fluent_name(&text, k)).into_owned()).collect();
        let question = sheet.question(&rules);
        let Finished { run, calls, answers, ends, list } = with_stack(STACK_EVALUATE, || grow(&question))??;
        rules.truncate(question.rules.len());
        let mut rehearsal =
            Rehearsal { text, sheet, rules, names, run, calls, answers, ends, list, sizes: Vec::new(), records: HashMap::new() };
        rehearsal.sizes = rehearsal.tables().sizes(run.answers);
        rehearsal.records = rehearsal.goals();
        Ok(rehearsal)
    }

    fn goals(&self) -> HashMap<u64, usize> {
        let tables = self.tables();
        let answers = (0..self.run.answers).map(|record| (record, tables.answer(record)));
        answers.filter(|(_, a)| tables.call(a.call).0 == GOAL_ACTION).map(|(record, a)| (a.state, record)).collect()
    }

    /// The sheet's bytes.
    pub fn text(&self) -> &[u8] {
        &self.text
    }

    /// Counts, start and goal of the sheet.
    pub fn sheet(&self) -> &Sheet {
        &self.sheet
    }

    /// The names of the fluents, in their order.
    pub fn names(&self) -> &[String] {
        &self.names
    }

    /// The counts of ends, calls, answers and rounds.
    pub fn counts(&self) -> Run {
        self.run
    }

    /// The ends, in rising order.
    pub fn ends(&self) -> &[u64] {
        &self.ends
    }

    /// The sheet's goal from many starts, in one go, as [`class_of`] gives it.
    pub fn class(&self, starts: &[u64]) -> Result<Vec<OfStart>, Trouble> {
        class_of(&self.sheet.question(&self.rules), starts)
    }

    /// The finished tables.
    pub fn tables(&self) -> Tables<'_> {
        Tables { rules: &self.rules, goal: self.sheet.goal(), calls: &self.calls, answers: &self.answers }
    }

    /// The record of a call of the run, if there is one; the goal is action [`GOAL_ACTION`].
    pub fn find(&self, action: u64, state: u64) -> Option<usize> {
        let calls = Calls { words: &self.calls, count: self.run.calls, list: &self.list };
        calls.find(action, state).expect("table, count and list are those of one run")
    }

    /// The words of the rules, 18 for each.
    pub fn rules(&self) -> &[u16] {
        &self.rules
    }

    /// The goal's answer record for an end.
    pub fn record(&self, end: u64) -> Option<usize> {
        self.records.get(&end).copied()
    }

    /// How many events an answer record unfolds to.
    pub fn size(&self, record: usize) -> u64 {
        self.sizes[record]
    }

    /// The path of an answer record as the library lists it; `None` where it has more than `most` states.
    pub fn path(&self, record: usize, most: usize) -> Result<Option<Vec<u64>>, Trouble> {
        let mut states = vec![0; most];
        let records =
            Records { calls: &self.calls, call_count: self.run.calls, answers: &self.answers, answer_count: self.run.answers };
        let question = self.sheet.question(&self.rules);
        match with_stack(STACK_PATH, || path(&question, &records, record, &mut states))? {
            Ok(count) => {
                states.truncate(count);
                Ok(Some(states))
            }
            Err(Refusal::StatesShort) => Ok(None),
            Err(refusal) => Err(Trouble::Refused(refusal)),
        }
    }

    /// The execution that an answer record unfolds to, held against the library's tables and path; of one that is too long, a part.
    pub fn way(&self, record: usize) -> Result<Way, Trouble> {
        let part = self.part(record);
        let tables = self.tables();
        let events = unfold(&tables, part);
        hold_structure(&tables, part, &events)?;
        let replayed = replay(tables.call(tables.answer(part).call).1, &events)?;
        // One place more than the steps need: a longer path is then seen to be longer.
        let Some(states) = self.path(part, replayed.len() + 1)? else {
            return Err(Difference::Count { replayed: replayed.len(), listed: None }.into());
        };
        hold(&replayed, &states)?;
        Ok(Way { record: part, whole: part == record, events, states })
    }

    /// The way from the start to an end; `None` for a state that is no end.
    pub fn way_to(&self, end: u64) -> Result<Option<Way>, Trouble> {
        let Some(record) = self.record(end) else { return Ok(None) };
        let way = self.way(record)?;
        let (asked, replayed) = ((self.sheet.start, end), (way.states[0], way.states[way.states.len() - 1]));
        if way.whole && asked != replayed {
            return Err(Difference::Ends { asked, replayed }.into());
        }
        Ok(Some(way))
    }

    /// The record itself if it is short enough, else the longest answer under it that is, from the first call down.
    fn part(&self, record: usize) -> usize {
        let mut record = record;
        while self.sizes[record] > MOST_EVENTS {
            let used = self.used(self.tables().answer(record));
            let short = used.iter().filter(|&&r| self.sizes[r] <= MOST_EVENTS).max_by_key(|&&r| self.sizes[r]);
            record = *short.unwrap_or(&used[0]);
        }
        record
    }

    /// The answers that an answer's call steps used.
    fn used(&self, answer: Answer<'_>) -> Vec<usize> {
        let steps = self.tables().body(answer.rule).iter().zip(answer.evidence);
        steps.filter(|(&word, _)| Step::of(word).kind == Kind::Call).map(|(_, &used)| used as usize).collect()
    }
}

/// A goal from many starts, in one go (refusal 25); the question's own start is not used. Rooms grow until they serve every start or are as
/// large as may be, so of an accepted sheet a start is refused only where no room helps (30) or it has a bit too high (24).
pub fn class_of(question: &Question<'_>, starts: &[u64]) -> Result<Vec<OfStart>, Trouble> {
    with_stack(STACK_EVALUATE, || grow_class(question, starts))?.map_err(Trouble::Refused)
}

/// Evaluates in rooms that grow.
fn grow(question: &Question<'_>) -> Result<Finished, Trouble> {
    let mut room = FIRST_ROOM;
    loop {
        let (mut calls, mut answers) = (vec![0; CALL_WORDS * room], vec![0; ANSWER_WORDS * room]);
        // The ends are at most half of the answers, or one; a place for each call that there is room for.
        let (mut ends, mut list) = (vec![0; room / 2 + 1], vec![0; room]);
        let mut lent = Buffers { calls: &mut calls, answers: &mut answers, ends: &mut ends, list: &mut list };
        match evaluate(question, &mut lent) {
            Ok(run) => {
                ends.truncate(run.ends);
                return Ok(Finished { run, calls, answers, ends, list });
            }
            Err(unrun) if unrun.refusal != Refusal::TablesFull => return Err(Trouble::Refused(unrun.refusal)),
            Err(_) if room == MOST_RECORDS => return Err(Trouble::TooLarge),
            Err(_) => room *= 2,
        }
    }
}

/// Runs a class in rooms that grow.
fn grow_class(question: &Question<'_>, starts: &[u64]) -> Result<Vec<OfStart>, Refusal> {
    let (mut room, mut places) = (FIRST_ROOM, FIRST_ROOM);
    loop {
        let (mut calls, mut answers, mut ends) = (vec![0; CALL_WORDS * room], vec![0; ANSWER_WORDS * room], vec![0; places]);
        let (mut results, mut list) = (vec![0; START_WORDS * starts.len()], vec![0; room]);
        let mut lent = Buffers { calls: &mut calls, answers: &mut answers, ends: &mut ends, list: &mut list };
        class(question, starts, &mut results, &mut lent)?;
        let told: Vec<OfStart> = outcomes(&results, &ends).map(|start| (start.told, start.ends.to_vec())).collect();
        let refused_with = |number| told.iter().any(|(told, _)| told.is_err_and(|refused| refused.refusal == number));
        if refused_with(Refusal::TablesFull) && room < MOST_RECORDS {
            room *= 2;
        } else if refused_with(Refusal::ListShort) {
            // With 31 the ends are counted too.
            places = told.iter().map(|(told, _)| told.map_or_else(|refused| refused.counts.ends, |counts| counts.ends)).sum();
        } else {
            return Ok(told);
        }
    }
}

/// Runs the work in a thread with so many bytes of stack, and some for itself.
pub(crate) fn with_stack<T: Send>(bytes: usize, work: impl FnOnce() -> T + Send) -> Result<T, Trouble> {
    thread::scope(|scope| {
        let builder = thread::Builder::new().stack_size(bytes + STACK_OF_A_THREAD);
        let worker = builder.spawn_scoped(scope, work).map_err(Trouble::Thread)?;
        Ok(worker.join().unwrap_or_else(|fault| panic::resume_unwind(fault)))
    })
}
