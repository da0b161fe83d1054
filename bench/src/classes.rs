//! A class of 1,024 starts in one go, beside as many single calls made in turn with the same tables.

use lawhemuri::{class, evaluate, outcomes, Buffers, Question, ANSWER_WORDS, CALL_WORDS, MOST_STARTS, START_WORDS};
use std::time::Instant;

const INSERT: u16 = 256;
const CALL: u16 = 768;
/// Records of each table, and places of the list for each start.
const ROOM: usize = 1_024;

/// What a class leaves: result words, tables and list.
type Left = [Vec<u64>; 5];

/// A book whose one action goes on from any state, and its fluents.
struct Case {
    name: &'static str,
    fluents: u64,
    rules: Vec<u16>,
}

fn rule(body: &[u16]) -> [u16; 18] {
    let mut words = [0; 18];
    words[1] = body.len() as u16;
    words[2..2 + body.len()].copy_from_slice(body);
    words
}

/// Drill D2; and a book that puts on any of eight switches.
fn cases() -> [Case; 2] {
    let switches = (0..8).map(|k| rule(&[CALL, INSERT + k])).chain([rule(&[])]);
    [
        Case { name: "D2", fluents: 2, rules: [rule(&[CALL, 0, INSERT + 1]), rule(&[INSERT])].concat() },
        Case { name: "switches", fluents: 8, rules: switches.flatten().collect() },
    ]
}

fn buffers() -> Left {
    [START_WORDS * MOST_STARTS, CALL_WORDS * ROOM, ANSWER_WORDS * ROOM, 256 * MOST_STARTS, ROOM].map(|words| vec![0; words])
}

/// The class in one go.
fn in_one_go(question: &Question<'_>, starts: &[u64]) -> Left {
    let [mut results, mut calls, mut answers, mut ends, mut list] = buffers();
    let mut lent = Buffers { calls: &mut calls, answers: &mut answers, ends: &mut ends, list: &mut list };
    class(question, starts, &mut results, &mut lent).expect("1,024 starts and their words are lent");
    [results, calls, answers, ends, list]
}

/// The same by single calls.
fn in_turn(question: &Question<'_>, starts: &[u64]) -> Left {
    let [mut results, mut calls, mut answers, mut ends, mut list] = buffers();
    let mut used = 0;
    for (&start, words) in starts.iter().zip(results.chunks_exact_mut(START_WORDS)) {
        let mut lent = Buffers { calls: &mut calls, answers: &mut answers, ends: &mut ends[used..], list: &mut list };
        let told = evaluate(&Question { start, ..*question }, &mut lent);
        let (number, run) = told.map_or_else(|unrun| (unrun.refusal.number(), unrun.run), |run| (0, run));
        words.copy_from_slice(&[number, run.ends as u64, run.calls as u64, run.answers as u64]);
        used += told.map_or(0, |run| run.ends);
    }
    [results, calls, answers, ends, list]
}

/// The result, and the least time of five runs.
fn least(run: impl Fn() -> Left) -> (Left, f64) {
    let timed = || {
        let began = Instant::now();
        let left = run();
        (left, began.elapsed().as_secs_f64())
    };
    (1..5).fold(timed(), |best, _| [best, timed()].into_iter().min_by(|a, b| a.1.total_cmp(&b.1)).expect("two runs"))
}

/// Prints the times; whether both ways leave the same words in every buffer.
pub fn print() -> bool {
    println!("\n{:<10}{:>8}{:>9}{:>12}{:>16}", "class", "starts", "ends", "ms", "single calls ms");
    cases().iter().fold(true, |same, case| {
        let question = Question { fluents: case.fluents, actions: 1, rules: &case.rules, goal: &[CALL], start: 0 };
        let starts: Vec<u64> = (0..MOST_STARTS as u64).map(|i| i % (1 << case.fluents)).collect();
        let (left, time) = least(|| in_one_go(&question, &starts));
        let (single, plain) = least(|| in_turn(&question, &starts));
        let ends: usize = outcomes(&left[0], &left[3]).map(|outcome| outcome.ends.len()).sum();
        let alike = left == single;
        let verdict = if alike { "same" } else { "DIFFERENT" };
        println!("{:<10}{:>8}{ends:>9}{:>12.3}{:>16.3}  {verdict}", case.name, MOST_STARTS, 1e3 * time, 1e3 * plain);
        same & alike
    })
}
