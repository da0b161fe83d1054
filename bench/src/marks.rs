//! Records of 63 steps over 256 rules, marked by the library and by plain rounds over sets of places. In six families every action has
//! a rule that does nothing, one that does the step and two of 16 steps; where those are calls alone, any part of the record is any
//! action's and the masks are full. In three more nearly all rules have 16 steps, and words gain one place after another: the worst
//! books that we know. The plain rounds take minutes over them, but their marks are known.

use lawhemuri::{mark, Question, MARK_WORDS, MOST_RECORDED, MOST_RULE_WORDS, RULE_WORDS};
use std::collections::BTreeSet;

use crate::timing::{least, timed};

const INSERT: u16 = 256;
const CALL: u16 = 768;
const ACTIONS: u16 = 64;
/// Rules of an action.
const EACH: u16 = 4;
/// Milliseconds that the least time of a marking may be.
const MOST: f64 = 50.0;

/// The step at a place of a body of an action; `at_random` counts up.
type Body = fn(action: u16, place: u16, at_random: u16) -> u16;

const FAMILIES: [(&str, Body); 6] = [
    ("next", |a, _, _| CALL + (a + 1) % ACTIONS),
    ("previous", |a, _, _| CALL + (a + ACTIONS - 1) % ACTIONS),
    ("itself", |a, _, _| CALL + a),
    ("random", |_, _, x| CALL + x % ACTIONS),
    ("half", |a, place, x| if place < 8 { CALL + (37 * a + x) % ACTIONS } else { INSERT }),
    ("steps", |_, _, _| INSERT),
];

/// Of each action one rule does nothing and one does the step; the others have 16 steps.
fn rules(body: Body) -> Vec<u16> {
    let mut words = vec![0; MOST_RULE_WORDS];
    let mut x = 1u32;
    for (r, rule) in (0..).zip(words.chunks_exact_mut(RULE_WORDS)) {
        let action = r / EACH;
        rule[0] = action;
        match r % EACH {
            0 => {}
            1 => rule[1..3].copy_from_slice(&[1, INSERT]),
            _ => {
                rule[1] = 16;
                for (place, step) in (0..).zip(&mut rule[2..]) {
                    x = x.wrapping_mul(1_103_515_245).wrapping_add(12_345);
                    *step = body(action, place, (x >> 16) as u16);
                }
            }
        }
    }
    words
}

/// The action that does nothing, in the three worst books.
const IDLE: u16 = 62;

/// Every action calls the next one first, and the last, which may do nothing, calls the first and does the step: what one has gained
/// the one before it gains then, 64 times for each place come to.
fn ring() -> Vec<u16> {
    let mut words = vec![0; MOST_RULE_WORDS];
    for (r, rule) in (0..).zip(words.chunks_exact_mut(RULE_WORDS)) {
        let action = r / EACH;
        rule[0] = action;
        if action == IDLE || r == ACTIONS * EACH - 1 {
            continue;
        }
        rule[1] = 16;
        rule[2..].fill(CALL + IDLE);
        rule[2] = CALL + if action + 1 == IDLE { IDLE + 1 } else { (action + 1) % ACTIONS };
        if action == ACTIONS - 1 {
            rule[3] = INSERT;
        }
    }
    words
}

/// Actions of the ring that is watched.
const WATCHED: u16 = 60;
/// An action without rules.
const LOST: u16 = 63;

/// A ring with one rule for each action, and 193 rules of 16 calls of its actions, so that each gain is seen at 50 calls. Those are of
/// two actions more; or, if lost, of the ring's, and end in a call that comes to nothing.
fn watched(lost: bool) -> Vec<u16> {
    let mut words = vec![0; MOST_RULE_WORDS];
    for (r, rule) in (0..).zip(words.chunks_exact_mut(RULE_WORDS)) {
        rule[1] = 16;
        rule[2..].fill(CALL + IDLE);
        if r < WATCHED {
            rule[0] = r;
            rule[2] = CALL + (r + 1) % WATCHED;
        } else if r == WATCHED {
            rule[2..4].copy_from_slice(&[CALL + WATCHED - 1, INSERT]);
        } else if r < WATCHED + 3 {
            rule[..2].copy_from_slice(&[if r == WATCHED + 1 { 0 } else { IDLE }, 0]);
            rule[2..].fill(0);
        } else {
            rule[0] = if lost { r % WATCHED } else { WATCHED + r % 2 };
            for (place, step) in (0..).zip(&mut rule[2..]) {
                *step = CALL + 7 * (16 * r + place) % WATCHED;
            }
            if lost {
                rule[17] = CALL + LOST;
            }
        }
    }
    words
}

/// The marks of the worst books: the idle action comes to where it begins, these to nothing, the others to every place from there on.
fn known(nothing: &[u16]) -> Vec<BTreeSet<usize>> {
    let places = |action, place| match action {
        IDLE => BTreeSet::from([place]),
        _ if nothing.contains(&action) => BTreeSet::new(),
        _ => (place..=MOST_RECORDED).collect(),
    };
    (0..ACTIONS).flat_map(|action| (0..=MOST_RECORDED).map(move |place| places(action, place))).collect()
}

/// For each action and place the places to which it comes: rounds over all rules and places until one adds nothing.
fn plain(rules: &[u16], recorded: &[u16]) -> Vec<BTreeSet<usize>> {
    let places = recorded.len() + 1;
    let mut found = vec![BTreeSet::new(); usize::from(ACTIONS) * places];
    loop {
        let mut grew = false;
        for (rule, place) in rules.chunks_exact(RULE_WORDS).flat_map(|rule| (0..places).map(move |place| (rule, place))) {
            let mut at = BTreeSet::from([place]);
            for &step in &rule[2..2 + usize::from(rule[1])] {
                at = match step.checked_sub(CALL) {
                    Some(action) => at.iter().flat_map(|p| &found[usize::from(action) * places + p]).copied().collect(),
                    None => at.into_iter().filter(|&p| recorded.get(p) == Some(&step)).map(|p| p + 1).collect(),
                };
            }
            let word = &mut found[usize::from(rule[0]) * places + place];
            let before = word.len();
            word.extend(at);
            grew |= word.len() > before;
        }
        if !grew {
            return found;
        }
    }
}

/// Prints the times; whether all marks are those of the plain rounds, and no marking took too long.
pub fn print() -> bool {
    println!("\n{:<10}{:>8}{:>12}{:>12}", "marks", "bits", "ms", "plain ms");
    let families = FAMILIES.map(|(name, body)| (name, rules(body), None));
    let worst = [
        ("ring", ring(), Some(known(&[]))),
        ("watched", watched(false), Some(known(&[LOST]))),
        ("lost", watched(true), Some(known(&[WATCHED, WATCHED + 1, LOST]))),
    ];
    let mut good = true;
    for (name, rules, marks) in families.into_iter().chain(worst) {
        good &= print_line(name, &rules, marks);
    }
    good
}

/// Prints the line of a book, whose marks may be known.
fn print_line(name: &str, rules: &[u16], marks: Option<Vec<BTreeSet<usize>>>) -> bool {
    let recorded = [INSERT; MOST_RECORDED];
    let question = Question { fluents: 64, actions: u64::from(ACTIONS), rules, goal: &[CALL], start: 0 };
    let mut table = vec![0; MARK_WORDS];
    let (marked, best) = least(|| mark(&question, &recorded, &mut table));
    let (found, slow) = marks.map_or_else(|| timed(|| plain(rules, &recorded)), |known| (known, f64::NAN));
    let same =
        marked.is_ok() && table.iter().zip(&found).all(|(word, places)| places.iter().map(|&p| 1u64 << p).sum::<u64>() == *word);
    let bits: u32 = table.iter().map(|word| word.count_ones()).sum();
    let said = if !same {
        " DIFFERENT"
    } else if best > MOST {
        " TOO SLOW"
    } else {
        " same"
    };
    println!("{name:<10}{bits:>8}{best:>12.3}{slow:>12.3}{said}");
    same && best <= MOST
}
