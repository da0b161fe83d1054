//! Evaluations by the library in memory that is lent for all turns.

use crate::book::Book;
use crate::plain;
use lawhemuri::{evaluate, Buffers, ANSWER_WORDS, CALL_WORDS};

/// Memory lent to `evaluate`.
pub struct Lent {
    calls: Vec<u64>,
    answers: Vec<u64>,
    pub ends: Vec<u64>,
    list: Vec<u64>,
}

impl Lent {
    /// Room for so many calls, answers and ends.
    pub fn new(calls: usize, answers: usize, ends: usize) -> Lent {
        let words = |records, width| vec![0; width * records];
        Lent {
            calls: words(calls, CALL_WORDS),
            answers: words(answers, ANSWER_WORDS),
            ends: words(ends, 1),
            list: words(calls, 1),
        }
    }

    /// Rooms that a run just fits: powers of 2.
    pub fn fitting(run: &plain::Run) -> Lent {
        let [calls, answers, ends] = [run.calls, run.answers, run.ends.len()].map(usize::next_power_of_two);
        Lent::new(calls, answers, ends)
    }

    /// The counts of ends, calls and answers, or nothing where the library refuses.
    pub fn evaluate(&mut self, book: &Book) -> Option<[usize; 3]> {
        let Lent { calls, answers, ends, list } = self;
        let mut lent = Buffers { calls, answers, ends, list };
        evaluate(&book.question(), &mut lent).ok().map(|run| [run.ends, run.calls, run.answers])
    }
}
