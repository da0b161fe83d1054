//! What else could have been done, looked up in the finished tables: they hold every answer of every call of the run.

use std::cell::RefCell;
use std::collections::{BTreeSet, HashMap};
use std::rc::Rc;

use lawhemuri::unfolding::{Kind, Step};
use lawhemuri::GOAL_ACTION;

use crate::drill::{Drill, MOST_NAMED_ENDS};

/// Callers through which the rest of a way is followed at most.
const MOST_CALLERS: usize = 40;
/// Ends named after "can lead to".
pub const MOST_LED_TO: usize = 6;

/// Where the steps of a body lead.
#[derive(Clone, Debug, PartialEq, Eq)]
pub struct Reached {
    pub states: BTreeSet<u64>,
    /// The place of the step that stops every way; `None` where a state is reached.
    pub stopped: Option<usize>,
}

/// What another rule of a call would have led to.
#[derive(Clone, Debug, PartialEq, Eq)]
pub enum Leads {
    /// A step stops it, the one at this place of its body.
    Stopped(usize),
    /// It can be finished, but the steps that are then still to do cannot.
    Shut,
    /// It can lead to these ends, by their numbers.
    Ends(Vec<usize>),
    /// It can be finished; where that leads is not worked out.
    Finishes,
}

/// Another rule of a call, and what it would have led to.
#[derive(Clone, Debug, PartialEq, Eq)]
pub struct Other {
    pub rule: u64,
    pub leads: Leads,
}

/// The answers of a run, by call.
pub struct Answers<'a> {
    drill: &'a Drill,
    finals: HashMap<(u64, u64), Vec<u64>>,
    walks: RefCell<HashMap<(u64, u64), Rc<Reached>>>,
}

impl<'a> Answers<'a> {
    pub fn of(drill: &'a Drill) -> Answers<'a> {
        let (tables, counts) = (drill.tables(), drill.rehearsal.counts());
        let mut finals: HashMap<(u64, u64), Vec<u64>> = (0..counts.calls).map(|call| (tables.call(call), Vec::new())).collect();
        for record in 0..counts.answers {
            let answer = tables.answer(record);
            finals.entry(tables.call(answer.call)).or_default().push(answer.state);
        }
        Answers { drill, finals, walks: RefCell::default() }
    }

    /// The states in which a call can be finished.
    pub fn finals(&self, action: u64, state: u64) -> &[u64] {
        self.finals.get(&(action, state)).map_or(&[], Vec::as_slice)
    }

    /// Walks some steps from some states; `visit` is shown each step with the states in which it is come to.
    pub fn walk(&self, body: &[u16], from: BTreeSet<u64>, mut visit: impl FnMut(Step, &BTreeSet<u64>)) -> Reached {
        let mut states = from;
        for (place, &word) in body.iter().enumerate() {
            let step = Step::of(word);
            visit(step, &states);
            states = if step.kind == Kind::Call {
                states.iter().flat_map(|&state| self.finals(step.index as u64, state)).copied().collect()
            } else {
                states.into_iter().filter_map(|state| step.after(state)).collect()
            };
            if states.is_empty() {
                return Reached { states, stopped: Some(place) };
            }
        }
        Reached { states, stopped: None }
    }

    /// Where the whole body of a rule leads from a state.
    pub fn rule(&self, rule: u64, state: u64) -> Rc<Reached> {
        if let Some(known) = self.walks.borrow().get(&(rule, state)) {
            return Rc::clone(known);
        }
        let reached = Rc::new(self.walk(self.drill.tables().body(rule), BTreeSet::from([state]), |_, _| {}));
        self.walks.borrow_mut().insert((rule, state), Rc::clone(&reached));
        reached
    }

    /// The other rules of a call. `callers` are the bodies that are then gone on with, the innermost last: rule and place;
    /// `None` where they are not known down to the goal.
    pub fn others(&self, action: u64, taken: u64, state: u64, callers: Option<&[(u64, usize)]>) -> Vec<Other> {
        if action == GOAL_ACTION {
            return Vec::new();
        }
        let followed = callers.filter(|c| c.len() <= MOST_CALLERS && self.drill.ends().len() <= MOST_NAMED_ENDS);
        let rules = self.drill.rules_of(action).iter().filter(|&&rule| rule != taken);
        rules.map(|&rule| Other { rule, leads: self.leads(&self.rule(rule, state), followed) }).collect()
    }

    fn leads(&self, reached: &Reached, callers: Option<&[(u64, usize)]>) -> Leads {
        if let Some(place) = reached.stopped {
            return Leads::Stopped(place);
        }
        let Some(callers) = callers else { return Leads::Finishes };
        let tables = self.drill.tables();
        let rest = |states, &(rule, place): &(u64, usize)| self.walk(&tables.body(rule)[place..], states, |_, _| {}).states;
        let ends = callers.iter().rev().fold(reached.states.clone(), rest);
        if ends.is_empty() {
            return Leads::Shut;
        }
        Leads::Ends(ends.iter().filter_map(|&end| self.drill.number(end)).collect())
    }

    /// The calls that have no answer, with the place that stops each of their rules.
    pub fn unanswered(&self) -> Vec<Unanswered> {
        let tables = self.drill.tables();
        let calls = (0..self.drill.rehearsal.counts().calls).map(|call| tables.call(call));
        let without = calls.filter(|&(action, state)| self.finals(action, state).is_empty());
        let stops = |action, state| {
            let rules = self.drill.rules_of(action).iter();
            rules.filter_map(|&rule| Some((rule, self.rule(rule, state).stopped?))).collect()
        };
        without.map(|(action, state)| Unanswered { action, state, stops: stops(action, state) }).collect()
    }
}

/// A call that cannot be finished.
pub struct Unanswered {
    pub action: u64,
    pub state: u64,
    /// For each rule of the action the place of the step that stops it.
    pub stops: Vec<(u64, usize)>,
}

/// Why a step stops a way, in words.
pub fn stops_since(word: u16) -> &'static str {
    match Step::of(word).kind {
        Kind::Query => "does not hold",
        Kind::Deny => "holds",
        Kind::Call => "cannot be finished",
        Kind::Insert | Kind::Delete => "never stops",
    }
}

/// Said of a call of an action in its own rule.
pub fn calls_itself(word: u16, action: u64) -> &'static str {
    let step = Step::of(word);
    if step.kind == Kind::Call && step.index as u64 == action {
        ", it calls itself and no rule gives it a first end"
    } else {
        ""
    }
}

#[cfg(test)]
mod tests {
    use lawhemuri::{evaluate, Buffers, Question, Rehearsal, ANSWER_WORDS, CALL_WORDS};

    use super::*;
    use crate::layout::{Layout, Row};
    use crate::valve::ByValve;

    fn drill(file: &str) -> Drill {
        let text = std::fs::read(format!("{}/{file}.sheet", env!("CARGO_MANIFEST_DIR"))).unwrap();
        Drill::new(file.into(), file.into(), Rehearsal::new(text).unwrap()).unwrap()
    }

    /// What the library says: the states in which a body can be finished from any of some states.
    fn judged(drill: &Drill, body: &[u16], from: &BTreeSet<u64>) -> BTreeSet<u64> {
        const ROOM: usize = 2_048;
        let sheet = drill.rehearsal.sheet();
        let mut reached = BTreeSet::new();
        for &start in from {
            let rules = drill.rehearsal.rules();
            let question = Question { fluents: sheet.fluents, actions: sheet.actions, rules, goal: body, start };
            let (mut calls, mut answers) = (vec![0; CALL_WORDS * ROOM], vec![0; ANSWER_WORDS * ROOM]);
            let (mut ends, mut list) = (vec![0; ROOM], vec![0; ROOM]);
            let mut lent = Buffers { calls: &mut calls, answers: &mut answers, ends: &mut ends, list: &mut list };
            let run = evaluate(&question, &mut lent).unwrap();
            reached.extend(&ends[..run.ends]);
        }
        reached
    }

    /// Every "closed", "shut later" and "can lead to" is what the library gives for the steps that remain.
    #[test]
    fn choices_are_those_of_the_library() {
        let files = ["example", "left_recursion", "light_up", "low_water", "fuel_change"].map(|name| format!("../sheets/{name}"));
        let more = ["notes", "keystrokes", "four_boilers"].map(|name| format!("tests/sheets/{name}"));
        let mut kinds = [0; 3];
        for file in files.iter().chain(&more) {
            let drill = drill(file);
            let answers = Answers::of(&drill);
            for number in (1..=drill.ends().len()).step_by(drill.ends().len().div_ceil(12)) {
                let way = drill.rehearsal.way_to(drill.ends()[number - 1]).unwrap().unwrap();
                let by_valve = ByValve::of(drill.fluents().len(), &way.states).unwrap();
                let layout = Layout::of(&answers, way, by_valve, number, usize::MAX);
                held(&drill, &layout, &mut kinds);
            }
        }
        assert!(kinds.iter().all(|&count| count > 5), "{kinds:?}");
    }

    /// Follows the rows of a way with its own stack of bodies and asks the library about each other rule.
    fn held(drill: &Drill, layout: &Layout, kinds: &mut [usize; 3]) {
        let tables = drill.tables();
        let (mut bodies, mut state): (Vec<(u64, usize)>, u64) = (Vec::new(), drill.start());
        for row in &layout.rows {
            let depth = match row {
                Row::Call { depth, .. } => *depth,
                Row::Step { depth, .. } => depth + 1,
            };
            bodies.truncate(depth);
            if let Some(body) = bodies.last_mut() {
                body.1 += 1;
            }
            match row {
                Row::Step { word, .. } => state = Step::of(*word).after(state).unwrap(),
                Row::Call { rule, others, .. } => {
                    for other in others {
                        let body = tables.body(other.rule);
                        let finished = judged(drill, body, &BTreeSet::from([state]));
                        let rest = |states, &(rule, place): &(u64, usize)| judged(drill, &tables.body(rule)[place..], &states);
                        let ends = bodies.iter().rev().fold(finished.clone(), rest);
                        let numbers: Vec<usize> = ends.iter().map(|&end| drill.number(end).unwrap()).collect();
                        let (leads, kind) = match &other.leads {
                            Leads::Stopped(place) => {
                                let before = judged(drill, &body[..*place], &BTreeSet::from([state]));
                                assert!(
                                    !before.is_empty() && judged(drill, &body[..=*place], &BTreeSet::from([state])).is_empty()
                                );
                                (finished.is_empty(), 0)
                            }
                            Leads::Shut => (!finished.is_empty() && numbers.is_empty(), 1),
                            Leads::Ends(ends) => (*ends == numbers, 2),
                            Leads::Finishes => (false, 2),
                        };
                        assert!(
                            leads,
                            "{}: line {}: {:?}, the library says {numbers:?}",
                            drill.file,
                            drill.line(other.rule),
                            other.leads
                        );
                        kinds[kind] += 1;
                    }
                    bodies.push((*rule, 0));
                }
            }
        }
    }
}
