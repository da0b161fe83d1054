//! A plain evaluator: what the library's times are held against. It is a worklist over hash tables. A body that comes to a call
//! waits for it as a continuation; each new answer of a call resumes each continuation that waits for it, and each new
//! continuation is resumed by each answer that is known, so that the two meet once. Elementary steps run in a loop and leave
//! nothing behind. It keeps no evidence, which the library does.

use crate::book::{Book, CALL, DELETE, DENY, END, INSERT, QUERY};
use crate::hash::{Map, Set};
use crate::lists::Lists;
use lawhemuri::GOAL_ACTION;

/// A body that goes on: the call it belongs to by its row, its next step by the place in the book's list, the state there.
#[derive(Clone, Copy, PartialEq, Eq, Hash)]
struct Place {
    row: u32,
    step: u32,
    state: u64,
}

#[derive(Default)]
struct Tables {
    /// The calls by row, and the rows by call.
    calls: Vec<(u16, u64)>,
    rows: Map<(u16, u64), u32>,
    /// The final states known for each row, as lists and as one set.
    answers: Lists<u64>,
    known: Set<(u32, u64)>,
    /// The places that wait for each row, and all of them as one set.
    waiting: Lists<Place>,
    continuations: Set<Place>,
    /// The places to go on from.
    todo: Vec<Place>,
}

impl Tables {
    /// The row of a call, new or old.
    fn row(&mut self, action: u16, state: u64) -> u32 {
        *self.rows.entry((action, state)).or_insert_with(|| {
            self.calls.push((action, state));
            self.answers.open();
            self.waiting.open()
        })
    }

    /// Goes on to the body's next call or to its end, or to a query or denial that fails.
    fn go(&mut self, steps: &[u16], mut place: Place) {
        loop {
            let word = steps[place.step as usize];
            let bit = 1 << (word % 64);
            match word - word % 256 {
                _ if word == END => return self.answer(place.row, place.state),
                QUERY if place.state & bit == 0 => return,
                DENY if place.state & bit != 0 => return,
                INSERT => place.state |= bit,
                DELETE => place.state &= !bit,
                CALL => return self.wait(place, word % 256),
                _ => {}
            }
            place.step += 1;
        }
    }

    /// A place comes to a call of this action.
    fn wait(&mut self, place: Place, action: u16) {
        if self.continuations.insert(place) {
            let row = self.row(action, place.state);
            let behind = Place { step: place.step + 1, ..place };
            self.waiting.push(row, behind);
            self.todo.extend(self.answers.of(row).map(|state| Place { state, ..behind }));
        }
    }

    /// A body of this row comes to its end.
    fn answer(&mut self, row: u32, state: u64) {
        if self.known.insert((row, state)) {
            self.answers.push(row, state);
            self.todo.extend(self.waiting.of(row).map(|place| Place { state, ..place }));
        }
    }
}

/// What a run gives: the ends in rising order, and the counts of calls and answers.
pub struct Run {
    pub ends: Vec<u64>,
    pub calls: usize,
    pub answers: usize,
}

impl Run {
    /// Whether another run, by its counts of ends, calls and answers unless it is refused, and by its list of ends, gives the same.
    pub fn agrees(&self, counts: Option<[usize; 3]>, ends: &[u64]) -> bool {
        counts == Some([self.ends.len(), self.calls, self.answers]) && ends.starts_with(&self.ends)
    }
}

pub fn evaluate(book: &Book) -> Run {
    let mut tables = Tables::default();
    let goal = tables.row(GOAL_ACTION as u16, book.start);
    let mut row = 0;
    while let Some(&(action, state)) = tables.calls.get(row as usize) {
        for &step in &book.begins[usize::from(action)] {
            tables.go(&book.steps, Place { row, step, state });
        }
        while let Some(place) = tables.todo.pop() {
            tables.go(&book.steps, place);
        }
        row += 1;
    }
    let mut ends: Vec<u64> = tables.answers.of(goal).collect();
    ends.sort_unstable();
    Run { ends, calls: tables.calls.len(), answers: tables.known.len() }
}
