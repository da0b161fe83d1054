//! Runs of two parties over one pair of tables, as multiples of evaluations by the same library of what the tables hold: each family
//! of books at its third size.

use crate::book::Book;
use crate::families::{Family, FAMILIES};
use crate::lent::Lent;
use crate::plain;
use crate::timing::{least_of_each, timed, verdict};
use lawhemuri::Party::{First, Second};
use lawhemuri::{open, share, Kept, Limits, Party, Shared, MOST_RECORDS, SHARED_ANSWER_WORDS, SHARED_CALL_WORDS};

/// Each party's limits unless they are just above its counts, and the rooms in which a goal is evaluated alone.
const HALF: Limits = Limits { calls: MOST_RECORDS / 2, answers: MOST_RECORDS / 2 };

/// No end of these books: none has 64 fluents.
const NO_END: u64 = u64::MAX;

/// A book with what is known of its run.
struct Goal {
    book: Book,
    known: plain::Run,
}

impl Goal {
    /// Limits just above the run's counts.
    fn limits(&self) -> Limits {
        Limits { calls: self.known.calls + 1, answers: self.known.answers + 1 }
    }

    /// Limits that the calls and answers of this goal and another just fill, if they have none in common.
    fn with(&self, other: &Goal) -> Limits {
        Limits { calls: self.known.calls + other.known.calls, answers: self.known.answers + other.known.answers }
    }
}

/// A family's goal from two starts that have no calls in common: its book is given one fluent more, which no rule names and which
/// holds in the second start alone.
fn goals(family: &Family) -> [Goal; 2] {
    [0, 1].map(|holds| {
        let mut book = (family.book)(family.sizes[2]);
        book.start |= holds << book.fluents;
        book.fluents += 1;
        Goal { known: plain::evaluate(&book), book }
    })
}

/// The tables of two parties, memory to evaluate a goal alone, and whether every result was as known.
struct Desk {
    kept: Kept,
    calls: Vec<u64>,
    answers: Vec<u64>,
    ends: Vec<u64>,
    alone: Lent,
    same: bool,
}

impl Desk {
    fn new() -> Desk {
        let [mut calls, mut answers, ends] =
            [SHARED_CALL_WORDS, SHARED_ANSWER_WORDS, 1].map(|width| vec![0; width * MOST_RECORDS]);
        let kept = open(HALF, HALF, &mut calls, &mut answers).expect("two halves are within the room");
        Desk { kept, calls, answers, ends, alone: Lent::new(HALF.calls, HALF.answers, MOST_RECORDS), same: true }
    }

    /// Empties the tables.
    fn open(&mut self, first: Limits, second: Limits) {
        self.kept = open(first, second, &mut self.calls, &mut self.answers).expect("the limits are within the room");
    }

    /// The time of an evaluation alone.
    fn evaluate(&mut self, goal: &Goal) -> f64 {
        let (counts, time) = timed(|| self.alone.evaluate(&goal.book));
        self.same &= goal.known.agrees(counts, &self.alone.ends);
        time
    }

    /// The time of a party's run.
    fn run(&mut self, party: Party, goal: &Goal) -> f64 {
        let Desk { kept, calls, answers, ends, .. } = self;
        ends[..goal.known.ends.len()].fill(NO_END);
        let mut lent = Shared { calls, answers, ends };
        let (told, time) = timed(|| share(party, &goal.book.question(), kept, &mut lent));
        self.same &= goal.known.agrees(told.ok().map(|run| [run.ends, run.calls, run.answers]), &self.ends);
        time
    }

    /// The time of the first party's run of the goal that it holds rows for, while the second holds those of another.
    fn apart(&mut self, own: &Goal, other: &Goal) -> f64 {
        self.run(Second, other);
        let time = self.run(First, own);
        self.same &= own.with(other) == Limits { calls: self.kept.calls(), answers: self.kept.answers() };
        time
    }

    /// The times of one turn: of the two evaluations, then of the runs in the order of the columns.
    fn turn(&mut self, own: &Goal, other: &Goal) -> [f64; 7] {
        let [one, two] = [own, other].map(|goal| self.evaluate(goal));
        self.open(HALF, HALF);
        let [first, again, both] = [First, First, Second].map(|party| self.run(party, own));
        let apart = self.apart(own, other);
        self.open(own.limits(), other.limits());
        self.run(First, own);
        let over = self.apart(own, other);
        [one, two, first, again, both, apart, over]
    }

    /// The line of a family; whether all results are the same.
    fn print(&mut self, family: &Family) -> bool {
        let [own, other] = goals(family);
        self.same = true;
        let [one, two, first, again, both, apart, over] = least_of_each(|| self.turn(&own, &other));
        print!("{:<10}{:>5}{:>8}{:>8}{one:>11.3}", family.name, family.sizes[2], own.known.calls, own.known.answers);
        print!("{:>8.2}{:>8.2}{:>8.2}", first / one, again / one, both / one);
        let held = own.with(&other);
        if held.calls <= HALF.calls && held.answers <= HALF.answers {
            print!("{:>8.2}", apart / (one + two));
        } else {
            print!("{:>8}", "-");
        }
        println!("{:>8.2}  {}", over / (one + two), verdict(self.same));
        self.same
    }
}

/// A line for each family; whether all results are the same.
pub fn print() -> bool {
    println!("\nshares     size   calls answers         ms   first   again    both   apart    over");
    let mut desk = Desk::new();
    FAMILIES.iter().fold(true, |same, family| desk.print(family) & same)
}
