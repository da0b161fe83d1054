//! A whole class in one go: one book and goal from many starts.

use std::error::Error;
use std::fmt;

use crate::refusal::accepted;
use crate::{ffi, Buffers, Question, Refusal};

/// Starts of a class at most.
pub const MOST_STARTS: usize = 1_024;
/// Result words of a start: refusal number or 0, ends, calls, answers.
pub const START_WORDS: usize = 4;

/// What a class tells of a start, or [`share`](crate::share) of a party's run: the counts of ends, calls and answers. Neither tells rounds.
#[derive(Clone, Copy, Debug, Default, PartialEq, Eq)]
pub struct Counts {
    pub ends: usize,
    pub calls: usize,
    pub answers: usize,
}

/// A refused start, or a refused run of a party: why, and its counts, which are 0 but for refusal 31.
#[derive(Clone, Copy, Debug, PartialEq, Eq)]
pub struct Uncounted {
    pub refusal: Refusal,
    pub counts: Counts,
}

impl fmt::Display for Uncounted {
    fn fmt(&self, f: &mut fmt::Formatter<'_>) -> fmt::Result {
        match self.refusal {
            Refusal::ListShort => write!(f, "{}, {} in all", self.refusal, self.counts.ends),
            refusal => write!(f, "{refusal}"),
        }
    }
}

impl Error for Uncounted {}

/// What one start of a class was told, and its ends in rising order; none where it was refused.
#[derive(Clone, Copy, Debug, PartialEq, Eq)]
pub struct Outcome<'a> {
    pub told: Result<Counts, Uncounted>,
    pub ends: &'a [u64],
}

/// Runs a goal from many starts in turn (refusal 25); the question's own start is not used.
///
/// Everything equals calls of [`evaluate`](crate::evaluate) made in turn with the same tables and the same list of calls, each lent what is
/// left of the list of ends: a refused start takes no places of it, and later ones still run. Four words for each start go to `results`,
/// which is unchanged past them, and the ends of unrefused starts follow one another in their list; [`outcomes`] takes both apart. The
/// tables and the list of calls are those of the last start that was refused with none of 20 to 24, and unchanged where that list is too
/// short (34, told of each such start). With 25 nothing is changed.
///
/// ```
/// let text = b"fluent\ta\nfluent\tb\naction\tg\nrule\tg\t!g\t?a\t+b\nrule\tg\t+a\nstart\ngoal\t!g\n";
/// let mut rules = [0; 4608];
/// let sheet = lawhemuri::read(text, &mut rules).unwrap();
/// let (mut calls, mut answers, mut ends, mut list, mut results) = ([0; 3 * 8], [0; 20 * 8], [0; 8], [0; 8], [0; 4 * 2]);
/// let mut buffers = lawhemuri::Buffers { calls: &mut calls, answers: &mut answers, ends: &mut ends, list: &mut list };
/// lawhemuri::class(&sheet.question(&rules), &[0, 2], &mut results, &mut buffers).unwrap();
/// let listed: Vec<&[u64]> = lawhemuri::outcomes(&results, &ends).map(|outcome| outcome.ends).collect();
/// assert_eq!(listed, [&[1, 3][..], &[3]]);
/// ```
pub fn class(question: &Question<'_>, starts: &[u64], results: &mut [u64], lent: &mut Buffers<'_>) -> Result<(), Refusal> {
    // SAFETY: the library reads rules, goal and starts and writes the result words and the buffers, within the lengths given, and
    // keeps none; the borrows make them disjoint.
    let refusal = unsafe {
        ffi::lawhemuri_class(
            question.fluents,
            question.actions,
            question.rules.as_ptr(),
            question.rules.len(),
            question.goal.as_ptr(),
            question.goal.len(),
            starts.as_ptr(),
            starts.len(),
            results.as_mut_ptr(),
            results.len(),
            lent.calls.as_mut_ptr(),
            lent.calls.len(),
            lent.answers.as_mut_ptr(),
            lent.answers.len(),
            lent.ends.as_mut_ptr(),
            lent.ends.len(),
            lent.list.as_mut_ptr(),
            lent.list.len(),
        )
    };
    accepted(refusal)
}

/// What each start was told and its ends, from the result words of a class (those past the last start left out) and its list.
///
/// Panics on words and a list that no class leaves.
pub fn outcomes<'a>(results: &'a [u64], ends: &'a [u64]) -> impl Iterator<Item = Outcome<'a>> + 'a {
    let mut left = ends;
    results.chunks_exact(START_WORDS).map(move |words| {
        let counts = Counts { ends: words[1] as usize, calls: words[2] as usize, answers: words[3] as usize };
        let told = accepted(words[0]).map(|()| counts).map_err(|refusal| Uncounted { refusal, counts });
        let (ends, later) = left.split_at(told.map_or(0, |counts| counts.ends));
        left = later;
        Outcome { told, ends }
    })
}
