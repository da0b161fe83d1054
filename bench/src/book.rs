//! Rules and a goal, as words for the library and as one list of steps for the plain evaluator.

use lawhemuri::{Question, GOAL_ACTION};

pub const QUERY: u16 = 0;
pub const INSERT: u16 = 256;
pub const DELETE: u16 = 512;
pub const CALL: u16 = 768;
pub const DENY: u16 = 1024;
/// No step: behind the last one of a body.
pub const END: u16 = u16::MAX;

/// A book of rules with its goal and start.
pub struct Book {
    pub fluents: u64,
    pub actions: u64,
    pub words: Vec<u16>,
    pub goal: Vec<u16>,
    pub start: u64,
    /// All bodies, one behind the other, each with END behind it.
    pub steps: Vec<u16>,
    /// Where the bodies of each action begin; the goal is action 64.
    pub begins: Vec<Vec<u32>>,
}

impl Book {
    pub fn new(fluents: u16, actions: u16, start: u64) -> Book {
        Book {
            fluents: fluents.into(),
            actions: actions.into(),
            words: Vec::new(),
            goal: Vec::new(),
            start,
            steps: Vec::new(),
            begins: vec![Vec::new(); GOAL_ACTION as usize + 1],
        }
    }

    pub fn rule(&mut self, head: u16, body: &[u16]) {
        let mut words = [0; 18];
        words[0] = head;
        words[1] = body.len() as u16;
        words[2..2 + body.len()].copy_from_slice(body);
        self.words.extend(words);
        self.body(head, body);
    }

    pub fn goal(mut self, body: &[u16]) -> Book {
        self.goal = body.to_vec();
        self.body(GOAL_ACTION as u16, body);
        self
    }

    fn body(&mut self, action: u16, body: &[u16]) {
        self.begins[usize::from(action)].push(self.steps.len() as u32);
        self.steps.extend(body);
        self.steps.push(END);
    }

    pub fn question(&self) -> Question<'_> {
        Question { fluents: self.fluents, actions: self.actions, rules: &self.words, goal: &self.goal, start: self.start }
    }
}
