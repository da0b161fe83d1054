//! What an author should look at in an accepted sheet.

use std::collections::{BTreeSet, HashMap};

use lawhemuri::unfolding::{Kind, Step};
use lawhemuri::{GOAL_RULE, RULE_WORDS};

use crate::choices::Answers;
use crate::drill::Drill;

/// Walks of a body that the notes take at most; past them a note that needs more is left out.
const MOST_WALKS: usize = 20_000;

/// A line to look at, and why.
#[derive(Debug, PartialEq, Eq, PartialOrd, Ord)]
pub struct Note {
    pub line: usize,
    pub words: String,
}

/// The notes on a sheet, by line; and whether some were not looked for, since the run is too large.
pub fn notes(drill: &Drill, answers: &Answers<'_>) -> (Vec<Note>, bool) {
    let mut notes = unused_fluents(drill);
    notes.extend(repeated_rules(drill));
    let reached = reached(drill);
    notes.extend(actions(drill, &reached));
    let walks: usize = reached.iter().map(|(&action, states)| states.len() * drill.rules_of(action).len()).sum();
    if walks <= MOST_WALKS {
        notes.extend(unfinished_rules(drill, answers, &reached));
        notes.extend(pairs(drill, answers, &reached));
    }
    notes.sort();
    (notes, walks > MOST_WALKS)
}

/// The states in which each action is called from the goal at its start.
fn reached(drill: &Drill) -> HashMap<u64, Vec<u64>> {
    let mut reached: HashMap<u64, Vec<u64>> = HashMap::new();
    for call in 0..drill.rehearsal.counts().calls {
        let (action, state) = drill.tables().call(call);
        reached.entry(action).or_default().push(state);
    }
    reached
}

/// The steps of the goal and of all rules, each with the rule's number.
fn steps(drill: &Drill) -> Vec<(u64, Step)> {
    let tables = drill.tables();
    let rules = (0..drill.rehearsal.sheet().rules as u64).chain([GOAL_RULE]);
    rules.flat_map(|rule| tables.body(rule).iter().map(move |&word| (rule, Step::of(word)))).collect()
}

fn line_of(drill: &Drill, name: &str) -> usize {
    drill.places.names.get(name).copied().unwrap_or(0)
}

fn unused_fluents(drill: &Drill) -> Vec<Note> {
    let used: BTreeSet<usize> = steps(drill).iter().filter(|(_, s)| s.kind != Kind::Call).map(|(_, s)| s.index).collect();
    let unused = drill.fluents().iter().enumerate().filter(|(k, _)| !used.contains(k));
    let words = |name: &str| format!("fluent {name} is never asked for and never changed");
    unused.map(|(_, name)| Note { line: line_of(drill, name), words: words(name) }).collect()
}

fn repeated_rules(drill: &Drill) -> Vec<Note> {
    let mut first: HashMap<&[u16], usize> = HashMap::new();
    let mut notes = Vec::new();
    for (rule, words) in (0..).zip(drill.rehearsal.rules().chunks_exact(RULE_WORDS)) {
        let line = drill.line(rule);
        match first.get(words) {
            Some(first) => notes.push(Note { line, words: format!("the same rule as line {first}") }),
            None => drop(first.insert(words, line)),
        }
    }
    notes
}

/// Actions that are called and have no rule, and actions whose rules are never reached.
fn actions(drill: &Drill, reached: &HashMap<u64, Vec<u64>>) -> Vec<Note> {
    let steps = steps(drill);
    let mut notes = Vec::new();
    for (action, name) in (0..).zip(&drill.places.actions) {
        let line = line_of(drill, name);
        let calls = steps.iter().filter(|(_, step)| step.kind == Kind::Call && step.index as u64 == action);
        let callers: BTreeSet<usize> = calls.map(|&(rule, _)| drill.line(rule)).collect();
        let rules: Vec<usize> = drill.rules_of(action).iter().map(|&rule| drill.line(rule)).collect();
        let words = match (rules.is_empty(), callers.is_empty(), reached.contains_key(&action)) {
            (true, false, _) => format!("action {name} is called ({}) and has no rule: it can never be done", lines(&callers)),
            (true, true, _) => format!("action {name} has no rule and is never called"),
            (false, true, false) => format!("action {name} is never called: its rules are never reached ({})", lines(&rules)),
            (false, false, false) => {
                format!("action {name} is never begun from this start: its rules are never reached ({})", lines(&rules))
            }
            (false, _, true) => continue,
        };
        notes.push(Note { line, words });
    }
    notes
}

fn lines<'a>(numbers: impl IntoIterator<Item = &'a usize>) -> String {
    let numbers: Vec<String> = numbers.into_iter().map(usize::to_string).collect();
    format!("line{} {}", if numbers.len() == 1 { "" } else { "s" }, numbers.join(", "))
}

/// Rules that are tried and that a step stops in every state in which they are.
fn unfinished_rules(drill: &Drill, answers: &Answers<'_>, reached: &HashMap<u64, Vec<u64>>) -> Vec<Note> {
    let mut notes = Vec::new();
    for (action, name) in (0..).zip(&drill.places.actions) {
        let Some(states) = reached.get(&action) else { continue };
        for &rule in drill.rules_of(action) {
            let stops: Option<BTreeSet<usize>> = states.iter().map(|&state| answers.rule(rule, state).stopped).collect();
            let Some(stops) = stops else { continue };
            let body = drill.tables().body(rule);
            let at: Vec<String> = stops.iter().map(|&place| drill.step(body[place])).collect();
            let words = format!("this rule of {name} is never finished from this start: it stops at {}", at.join(" or "));
            notes.push(Note { line: drill.line(rule), words });
        }
    }
    notes
}

/// Pairs `x` and `no_x` of which `~x` would serve for `?no_x`: wherever a step asks for `no_x`, exactly one of the two holds.
fn pairs(drill: &Drill, answers: &Answers<'_>, reached: &HashMap<u64, Vec<u64>>) -> Vec<Note> {
    let fluents = drill.fluents();
    let mut pairs: Vec<Pair> = Vec::new();
    for (no, name) in fluents.iter().enumerate() {
        let other = name.strip_prefix("no_").and_then(|x| fluents.iter().position(|f| f == x));
        pairs.extend(other.map(|yes| Pair { yes, no, asked: false, holds_up: true }));
    }
    if pairs.is_empty() {
        return Vec::new();
    }
    for (&action, states) in reached {
        for &rule in drill.rules_of(action) {
            for &state in states {
                answers.walk(drill.tables().body(rule), BTreeSet::from([state]), |step, states| {
                    pairs.iter_mut().for_each(|pair| pair.look(step, states));
                });
            }
        }
    }
    let served = pairs.iter().filter(|pair| pair.asked && pair.holds_up);
    let note = |pair: &Pair| {
        let (yes, no) = (&fluents[pair.yes], &fluents[pair.no]);
        let words =
            format!("wherever a step asks for {no}, it holds exactly if {yes} does not: `~{yes}` asks the same, and {no} can go");
        Note { line: line_of(drill, no), words }
    };
    served.map(note).collect()
}

/// A fluent and the one kept for "does not hold".
struct Pair {
    yes: usize,
    no: usize,
    /// Whether a step that is come to asks for `no`.
    asked: bool,
    /// Whether exactly one of the two held wherever one was asked for.
    holds_up: bool,
}

impl Pair {
    fn look(&mut self, step: Step, states: &BTreeSet<u64>) {
        if !matches!(step.kind, Kind::Query | Kind::Deny) || step.index != self.no {
            return;
        }
        self.asked = true;
        self.holds_up &= states.iter().all(|state| (state >> self.yes & 1) != (state >> self.no & 1));
    }
}
