//! Least times of programs, in milliseconds.

use std::array::from_fn;
use std::time::Instant;

/// What a program gives, with its least time.
pub fn least<T>(mut run: impl FnMut() -> T) -> (T, f64) {
    turns(1).map(|_| timed(&mut run)).reduce(quicker).expect("there is a first turn")
}

/// What two programs give that do the same, with the least time of each. They take turns, so that neither is alone in a quiet
/// hour.
pub fn race<A, B>(mut ours: impl FnMut() -> A, mut plain: impl FnMut() -> B) -> ((A, f64), (B, f64)) {
    let both = turns(1).map(|_| (timed(&mut ours), timed(&mut plain)));
    both.reduce(|(a, b), (c, d)| (quicker(a, c), quicker(b, d))).expect("there is a first turn")
}

/// The least of each of the times that a turn gives, of six turns or more.
pub fn least_of_each<const N: usize>(mut turn: impl FnMut() -> [f64; N]) -> [f64; N] {
    turns(6).map(|_| turn()).reduce(|a, b| from_fn(|i| a[i].min(b[i]))).expect("there is a first turn")
}

/// At most 50 turns, of which all but the first so many begin within two seconds.
fn turns(first: u32) -> impl Iterator<Item = u32> {
    let began = Instant::now();
    (0..50).take_while(move |&turn| turn < first || began.elapsed().as_secs() < 2)
}

/// What a program gives, with its time.
pub fn timed<T>(run: impl FnOnce() -> T) -> (T, f64) {
    let began = Instant::now();
    let result = run();
    (result, 1e3 * began.elapsed().as_secs_f64())
}

fn quicker<T>(a: (T, f64), b: (T, f64)) -> (T, f64) {
    if b.1 < a.1 {
        b
    } else {
        a
    }
}

pub fn verdict(same: bool) -> &'static str {
    if same {
        "same"
    } else {
        "DIFFERENT"
    }
}
