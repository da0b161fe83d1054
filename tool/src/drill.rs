//! A rehearsed sheet with the names and lines by which it is shown.

use lawhemuri::unfolding::{Kind, Step, Tables};
use lawhemuri::{Rehearsal, GOAL_ACTION, GOAL_RULE, RULE_WORDS};

use crate::failure::Failure;
use crate::lines::{fields, lines_of, Places, MARKS};
use crate::words;

/// Ends among which each is given a name of its own at most.
pub const MOST_NAMED_ENDS: usize = 1_000;
/// Fluents in the name of an end at most.
const MOST_IN_A_NAME: usize = 4;

/// A sheet that is accepted and evaluated.
pub struct Drill {
    /// The file's name, without its folder.
    pub file: String,
    /// The same without `.sheet`.
    pub name: String,
    pub lines: Vec<String>,
    pub places: Places,
    pub rehearsal: Rehearsal,
    /// The rules of each action.
    rules_of: Vec<Vec<u64>>,
}

/// Fluents by whether they hold in all ends, in some, or in none.
pub struct Spread {
    pub differ: Vec<usize>,
    pub every: Vec<usize>,
    pub none: Vec<usize>,
}

/// The fewest fluents found that tell an end apart: those that hold, and those that do not.
#[derive(Default)]
pub struct Apart {
    pub with: Vec<usize>,
    pub without: Vec<usize>,
}

impl Drill {
    /// Takes the sheet's lines apart and holds what they say against the library's words.
    pub fn new(file: String, name: String, rehearsal: Rehearsal) -> Result<Drill, Failure> {
        let lines = lines_of(rehearsal.text());
        let places = Places::of(&lines);
        let mut rules_of = vec![Vec::new(); rehearsal.sheet().actions as usize];
        for (rule, words) in (0..).zip(rehearsal.rules().chunks_exact(RULE_WORDS)) {
            rules_of[usize::from(words[0])].push(rule);
        }
        let drill = Drill { file, name, lines, places, rehearsal, rules_of };
        match drill.agrees() {
            true => Ok(drill),
            false => Err(Failure::Internal("the sheet's lines, taken apart, do not say what the library read".into())),
        }
    }

    /// Whether the lines, taken apart, say the rules, the start and the goal that the library read.
    fn agrees(&self) -> bool {
        let (sheet, places) = (self.rehearsal.sheet(), &self.places);
        if places.actions.len() as u64 != sheet.actions || places.rules.len() != sheet.rules || places.start * places.goal == 0 {
            return false;
        }
        let says = |line: usize, head: usize, rule: u64| {
            let steps = self.tables().body(rule).iter().map(|&word| self.step(word));
            fields(&self.lines[line - 1])[head..].iter().copied().eq(steps)
        };
        let heads = self.rehearsal.rules().chunks_exact(RULE_WORDS).map(|words| usize::from(words[0]));
        let rules = (0..).zip(heads).zip(&places.rules);
        let named = fields(&self.lines[places.start - 1]);
        let start = named[1..].iter().map(|name| self.fluents().iter().position(|f| f == name));
        rules.into_iter().all(|((rule, head), &line)| {
            fields(&self.lines[line - 1]).get(1) == Some(&self.places.actions[head].as_str()) && says(line, 2, rule)
        }) && says(places.goal, 1, GOAL_RULE)
            && start.map(|k| k.map(|k| 1 << k)).sum::<Option<u64>>() == Some(self.start())
    }

    pub fn tables(&self) -> Tables<'_> {
        self.rehearsal.tables()
    }

    pub fn fluents(&self) -> &[String] {
        self.rehearsal.names()
    }

    pub fn start(&self) -> u64 {
        self.rehearsal.sheet().start
    }

    pub fn ends(&self) -> &[u64] {
        self.rehearsal.ends()
    }

    /// The number of an end, from 1.
    pub fn number(&self, end: u64) -> Option<usize> {
        self.ends().binary_search(&end).ok().map(|place| place + 1)
    }

    /// The names of the fluents that hold in a state.
    pub fn holding(&self, state: u64) -> Vec<&str> {
        words::holding(self.fluents(), state)
    }

    /// The same in words.
    pub fn holding_words(&self, state: u64) -> String {
        words::holding_words(self.fluents(), state)
    }

    /// The name of an action; `goal` for the goal's number.
    pub fn action(&self, action: u64) -> &str {
        if action == GOAL_ACTION {
            return "goal";
        }
        &self.places.actions[action as usize]
    }

    /// The sheet's line of a rule; of the goal for the goal's rule number.
    pub fn line(&self, rule: u64) -> usize {
        if rule == GOAL_RULE {
            return self.places.goal;
        }
        self.places.rules[rule as usize]
    }

    /// The rules of an action; of the goal its one body.
    pub fn rules_of(&self, action: u64) -> &[u64] {
        const GOALS: [u64; 1] = [GOAL_RULE];
        if action == GOAL_ACTION {
            return &GOALS;
        }
        &self.rules_of[action as usize]
    }

    /// Which of an action's rules a rule is, from 1, and how many there are; `None` where there is no choice.
    pub fn which(&self, action: u64, rule: u64) -> Option<(usize, usize)> {
        let rules = self.rules_of(action);
        let place = rules.iter().position(|&r| r == rule)?;
        (rules.len() > 1).then_some((place + 1, rules.len()))
    }

    /// A step as it stands in the sheet.
    pub fn step(&self, word: u16) -> String {
        let step = Step::of(word);
        let name = if step.kind == Kind::Call { &self.places.actions[step.index] } else { &self.fluents()[step.index] };
        format!("{}{name}", MARKS[step.kind as usize])
    }

    /// The goal's steps.
    pub fn goal(&self) -> String {
        let steps: Vec<String> = self.rehearsal.sheet().goal().iter().map(|&word| self.step(word)).collect();
        steps.join(" ")
    }

    pub fn spread(&self) -> Spread {
        let every = self.ends().iter().fold(u64::MAX, |all, end| all & end);
        let some = self.ends().iter().fold(0, |any, end| any | end);
        let those = |mask: u64| (0..self.fluents().len()).filter(|k| mask >> k & 1 == 1).collect();
        Spread { differ: those(some & !every), every: those(some & every), none: those(!some) }
    }

    /// What tells an end apart from the others; `None` where it is the only one, or that takes too many fluents.
    pub fn apart(&self, end: u64) -> Option<Apart> {
        let mut left: Vec<u64> = self.ends().iter().copied().filter(|&other| other != end).collect();
        if left.is_empty() || left.len() >= MOST_NAMED_ENDS {
            return None;
        }
        let mut apart = Apart::default();
        while !left.is_empty() {
            let told = |k: usize| left.iter().filter(|&other| (other ^ end) >> k & 1 == 1).count();
            let rank = |&k: &usize| (told(k), end >> k & 1, usize::MAX - k);
            let best = (0..self.fluents().len()).max_by_key(rank)?;
            left.retain(|other| (other ^ end) >> best & 1 == 0);
            if end >> best & 1 == 1 {
                apart.with.push(best);
            } else {
                apart.without.push(best);
            }
            if apart.with.len() + apart.without.len() > MOST_IN_A_NAME {
                return None;
            }
        }
        Some(apart)
    }

    /// The names of some fluents.
    pub fn named(&self, fluents: &[usize]) -> Vec<&str> {
        fluents.iter().map(|&k| self.fluents()[k].as_str()).collect()
    }

    /// `the only end with …`, where something short tells it apart.
    pub fn only(&self, end: u64) -> Option<String> {
        let apart = self.apart(end)?;
        let part =
            |word: &str, fluents: &[usize]| (!fluents.is_empty()).then(|| format!("{word} {}", self.named(fluents).join(", ")));
        let parts: Vec<String> = [part("with", &apart.with), part("without", &apart.without)].into_iter().flatten().collect();
        Some(format!("the only end {}", parts.join(" and ")))
    }
}
