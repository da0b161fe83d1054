//! Paths of tables written by hand: chains of answers of one call, each of which uses the one before.

use crate::book::{Book, CALL, DELETE, INSERT};
use crate::timing::{race, verdict};
use lawhemuri::{path, Records, Refusal, ANSWER_WORDS};

/// The place of an answer record's round.
const ROUND: usize = ANSWER_WORDS - 1;

/// The body of the first record, and that of all others.
struct Chain {
    name: &'static str,
    first: &'static [u16],
    others: &'static [u16],
}

const CHAINS: [Chain; 5] = [
    Chain { name: "right", first: &[], others: &[INSERT, DELETE, CALL] },
    Chain { name: "left", first: &[], others: &[CALL, INSERT, DELETE] },
    Chain { name: "twice", first: &[INSERT, DELETE], others: &[CALL, CALL] },
    Chain { name: "idle", first: &[], others: &[CALL, DELETE, DELETE] },
    Chain { name: "empty", first: &[], others: &[CALL, CALL] },
];

/// Every record is of the one call, in state 0, ends in state 0, and came in the round after that of the one before.
fn answers(chain: &Chain, records: usize) -> Vec<u64> {
    let mut words = vec![0; ANSWER_WORDS * records];
    for n in 1..records {
        words[ANSWER_WORDS * n + ROUND] = n as u64;
        words[ANSWER_WORDS * n + 2] = 1;
        for (q, &step) in chain.others.iter().enumerate() {
            if step == CALL {
                words[ANSWER_WORDS * n + 3 + q] = n as u64 - 1;
            }
        }
    }
    words
}

/// What the plain program is given: the two bodies and the words of the answers.
struct Table<'a> {
    bodies: [&'a [u16]; 2],
    answers: &'a [u64],
}

impl Table<'_> {
    fn record(&self, n: usize) -> &[u64] {
        &self.answers[ANSWER_WORDS * n..][..ANSWER_WORDS]
    }

    /// The steps of a record's rule, each with its evidence.
    fn steps(&self, n: usize) -> impl Iterator<Item = (u16, usize)> + '_ {
        let record = self.record(n);
        self.bodies[record[2] as usize].iter().zip(&record[3..ROUND]).map(|(&step, &evidence)| (step, evidence as usize))
    }

    /// Whether the evidence of a record leads from state 0 to its final state.
    fn justified(&self, n: usize) -> bool {
        let mut state = 0;
        for (step, evidence) in self.steps(n) {
            match step {
                CALL if state != 0 || evidence >= n || self.record(evidence)[ROUND] >= self.record(n)[ROUND] => return false,
                CALL => state = self.record(evidence)[1],
                _ => state = u64::from(step == INSERT),
            }
        }
        state == self.record(n)[1]
    }

    /// How many states each record up to the last one adds; saturating.
    fn sizes(&self, last: usize) -> Vec<u64> {
        let mut sizes = Vec::with_capacity(last + 1);
        for n in 0..=last {
            let adds = self.steps(n).map(|(step, evidence)| if step == CALL { sizes[evidence] } else { 1 });
            sizes.push(adds.fold(0, u64::saturating_add));
        }
        sizes
    }

    /// The path of the last record as a program with a stack of its own would list it, or nothing where a record is not justified
    /// or there is no room.
    fn path(&self, room: u64) -> Option<Vec<u64>> {
        let last = self.answers.len() / ANSWER_WORDS - 1;
        if !(0..=last).all(|n| self.justified(n)) {
            return None;
        }
        let sizes = self.sizes(last);
        if sizes[last] >= room {
            return None;
        }
        let mut states = vec![0];
        let mut left = vec![self.steps(last)];
        while let Some(steps) = left.last_mut() {
            match steps.next() {
                Some((CALL, evidence)) if sizes[evidence] == 0 => {}
                Some((CALL, evidence)) => left.push(self.steps(evidence)),
                Some((step, _)) => states.push(u64::from(step == INSERT)),
                None => drop(left.pop()),
            }
        }
        Some(states)
    }
}

/// One line of the table; whether both paths agree.
fn measure(chain: &Chain, count: usize) -> bool {
    let mut book = Book::new(1, 1, 0);
    book.rule(0, chain.first);
    book.rule(0, chain.others);
    let question = book.question();
    let answers = answers(chain, count);
    let records = Records { calls: &[0, 0, 0], call_count: 1, answers: &answers, answer_count: count };
    let mut states = vec![0; 2 * 65536 + 1];
    let room = states.len() as u64;
    let table = Table { bodies: [chain.first, chain.others], answers: &answers };
    let ours = || path(&question, &records, count - 1, &mut states);
    let ((result, ours), (plain, theirs)) = race(ours, || table.path(room));
    let same = match (result, plain) {
        (Ok(n), Some(list)) => states[..n] == list,
        (Err(refusal), None) => refusal == Refusal::StatesShort,
        _ => false,
    };
    let shown = match result {
        Ok(n) => format!("{n} states"),
        Err(refusal) => format!("refused {}", refusal.number()),
    };
    let (name, ratio, verdict) = (chain.name, ours / theirs, verdict(same));
    println!("{name:<10}{count:>9}{shown:>20}{ours:>11.3}{theirs:>11.3}{ratio:>8.2}  {verdict}");
    same
}

/// A table of chains and sizes; whether all paths agree.
pub fn print() -> bool {
    println!("\npath        records              result         ms   plain ms   ratio");
    let mut all_same = true;
    for chain in &CHAINS {
        for count in [1024, 16384, 65536] {
            all_same &= measure(chain, count);
        }
    }
    all_same
}
