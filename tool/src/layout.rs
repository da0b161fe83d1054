//! One way laid out for showing: rows of steps, bars of actions, letters of choices.

use std::collections::{BTreeMap, BTreeSet};

use lawhemuri::unfolding::{Event, Kind, Step};
use lawhemuri::{Way, GOAL_ACTION};

use crate::choices::{Answers, Leads, Other};
use crate::valve::ByValve;
use crate::words::letters;

/// Rows shown of a long way.
pub const MOST_ROWS: usize = 400;

/// A line of the way.
pub enum Row {
    /// An action is begun by a rule. `letter` marks a choice: another rule could have been taken.
    Call { depth: usize, action: u64, rule: u64, letter: Option<String>, others: Vec<Other> },
    /// An elementary step; `at` is the number of the state come to, for an update.
    Step { depth: usize, action: u64, rule: u64, word: u16, at: Option<usize>, changed: bool },
}

/// An action that is under way from one state to another.
pub struct Bar {
    pub depth: usize,
    pub action: u64,
    pub rule: u64,
    pub from: usize,
    pub to: usize,
}

impl Bar {
    /// Whether it is under way between two of the states from `first` on and before `last`.
    pub fn reaches_into(&self, first: usize, last: usize) -> bool {
        self.from + 1 < last && self.to > first
    }
}

/// An update: its step word, and whether it changed the state.
#[derive(Clone, Copy)]
pub struct Update {
    pub word: u16,
    pub changed: bool,
}

/// A way with what is shown of it.
pub struct Layout {
    /// As the library lists them.
    pub states: Vec<u64>,
    /// The same as the library stores them by fluent.
    pub by_valve: ByValve,
    /// Whether it is the way to an end, and not a part of one that is too long.
    pub whole: bool,
    /// The first rows, as many as were asked for, and how many there are.
    pub rows: Vec<Row>,
    pub row_count: usize,
    /// The rules that are taken on the way.
    pub taken: BTreeSet<u64>,
    pub bars: Vec<Bar>,
    /// The update that leads to state i + 1.
    pub updates: Vec<Update>,
    /// The letters of the choices in each state.
    pub choices: BTreeMap<usize, Vec<String>>,
    /// Whether a rule is shut by a step, and whether one is shut by a choice made above.
    pub closed: bool,
    pub shut: bool,
    /// Whether another choice can lead to this end too.
    pub again: bool,
}

impl Layout {
    /// Lays out a way to the end with this number; `most` rows of it are kept.
    pub fn of(answers: &Answers<'_>, way: Way, by_valve: ByValve, number: usize, most: usize) -> Layout {
        let mut layout = Layout {
            rows: Vec::new(),
            row_count: 0,
            taken: BTreeSet::new(),
            bars: Vec::new(),
            updates: Vec::with_capacity(way.states.len()),
            choices: BTreeMap::new(),
            closed: false,
            shut: false,
            again: false,
            whole: way.whole,
            states: way.states,
            by_valve,
        };
        // The bodies under way, each with the place that it goes on from.
        let mut callers: Vec<(u64, usize)> = Vec::new();
        let mut begun: Vec<Bar> = Vec::new();
        for event in way.events {
            let shown = layout.row_count < most;
            match event {
                Event::Call { depth, action, rule, place, state, at } => {
                    if let Some(caller) = callers.last_mut() {
                        caller.1 = place + 1;
                    }
                    if shown {
                        let others = answers.others(action, rule, state, layout.whole.then_some(callers.as_slice()));
                        let letter = layout.letter(&others, number, at);
                        layout.rows.push(Row::Call { depth, action, rule, letter, others });
                    }
                    layout.row_count += 1;
                    layout.taken.insert(rule);
                    callers.push((rule, 0));
                    begun.push(Bar { depth, action, rule, from: at, to: at });
                }
                Event::Step { depth, action, rule, word, state, at, .. } => {
                    let step = Step::of(word);
                    let (update, changed) = (step.is_update(), step.after(state) != Some(state));
                    layout.updates.extend(update.then_some(Update { word, changed }));
                    let row = Row::Step { depth, action, rule, word, at: update.then_some(at), changed };
                    layout.rows.extend(shown.then_some(row));
                    layout.row_count += 1;
                }
                Event::Back { at, .. } => {
                    callers.pop();
                    layout.bars.extend(begun.pop().map(|bar| Bar { to: at, ..bar }));
                }
            }
        }
        layout.bars.retain(|bar| bar.to > bar.from && bar.action != GOAL_ACTION);
        layout
    }

    /// The letter of a choice, if the other rules make it one.
    fn letter(&mut self, others: &[Other], number: usize, at: usize) -> Option<String> {
        let mut real = false;
        for other in others {
            match &other.leads {
                Leads::Stopped(_) => self.closed = true,
                Leads::Shut => self.shut = true,
                Leads::Finishes => real = true,
                Leads::Ends(ends) => {
                    real = true;
                    self.again |= ends.contains(&number);
                }
            }
        }
        let next = self.choices.values().map(Vec::len).sum();
        real.then(|| {
            let letter = letters(next);
            self.choices.entry(at).or_default().push(letter.clone());
            letter
        })
    }

    /// Keeps the bars that reach into one of some parts of the way, and no others.
    pub fn keep_bars(&mut self, parts: &[(usize, usize)]) {
        self.bars.retain(|bar| parts.iter().any(|&(first, last)| bar.reaches_into(first, last)));
        self.bars.shrink_to_fit();
    }

    /// The fluents that updates between two states name, in their order.
    pub fn touched(&self, first: usize, last: usize) -> Vec<usize> {
        let between = &self.updates[first.min(self.updates.len())..(last.max(1) - 1).min(self.updates.len())];
        let mut touched: Vec<usize> = between.iter().map(|update| Step::of(update.word).index).collect();
        touched.sort_unstable();
        touched.dedup();
        touched
    }
}

/// What is said after an elementary step.
pub fn after_words(word: u16, changed: bool) -> &'static str {
    match (Step::of(word).kind, changed) {
        (Kind::Query, _) => "holds",
        (Kind::Deny, _) => "does not hold",
        (Kind::Insert, false) => "held already: no change",
        (Kind::Delete, false) => "did not hold: no change",
        _ => "",
    }
}
