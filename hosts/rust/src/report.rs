//! Figures for the course report, over a class run.

use std::fmt;

use crate::refusal::accepted;
use crate::{ffi, OfStart, Refusal, MOST_FLUENTS};

/// An exact fraction in lowest terms: 0 is 0 over 1, and a share or mean over nothing is 0 over 0.
#[derive(Clone, Copy, Debug, PartialEq, Eq, Hash)]
pub struct Fraction {
    pub numerator: u64,
    pub denominator: u64,
}

impl Fraction {
    /// A share or mean over nothing.
    pub const NOTHING: Fraction = Fraction { numerator: 0, denominator: 0 };

    /// The nearest number; `None` over nothing.
    pub fn value(self) -> Option<f64> {
        (self.denominator != 0).then(|| self.numerator as f64 / self.denominator as f64)
    }
}

impl fmt::Display for Fraction {
    fn fmt(&self, f: &mut fmt::Formatter<'_>) -> fmt::Result {
        write!(f, "{}/{}", self.numerator, self.denominator)
    }
}

/// The figures of a class run, as they stand in the output lent.
#[derive(Clone, Copy, Debug, PartialEq, Eq)]
pub struct Figures<'a>(&'a [u64]);

impl Figures<'_> {
    fn at(&self, k: usize) -> Fraction {
        Fraction { numerator: self.0[2 * k], denominator: self.0[2 * k + 1] }
    }

    fn fluents(&self) -> usize {
        self.0.len() / 2 - 2
    }

    /// The share of the ends in which each fluent holds, in fluent order.
    pub fn shares(&self) -> impl Iterator<Item = Fraction> + '_ {
        (0..self.fluents()).map(|k| self.at(k))
    }

    /// The mean number of fluents holding in an end.
    pub fn mean_held(&self) -> Fraction {
        self.at(self.fluents())
    }

    /// The mean ends per unrefused start.
    pub fn mean_ends(&self) -> Fraction {
        self.at(self.fluents() + 1)
    }
}

/// Words that the figures of so many fluents take: 2 for each, and 4 more.
pub const fn report_words(fluents: usize) -> usize {
    2 * fluents + 4
}

/// Writes the figures of a class run (refusals 20, 26, 27) and gives them as they stand in `out`.
///
/// `results` has four words for each start, refusal number or 0, ends, calls and answers, and `ends` the ends of the unrefused starts, as
/// many as the results say and no more. The figures come first in `out`, which is unchanged past them; refused, it is unchanged.
///
/// ```
/// use lawhemuri::Fraction;
///
/// let results = [0, 2, 2, 4, 31, 5, 5, 5, 0, 1, 1, 1];
/// let mut out = [0; lawhemuri::report_words(2)];
/// let figures = lawhemuri::report(2, &results, &[1, 3, 1], &mut out).unwrap();
/// let shares: Vec<Fraction> = figures.shares().collect();
/// assert_eq!(shares, [Fraction { numerator: 1, denominator: 1 }, Fraction { numerator: 1, denominator: 3 }]);
/// assert_eq!((figures.mean_held().to_string(), figures.mean_ends().to_string()), ("4/3".into(), "3/2".into()));
/// ```
pub fn report<'a>(fluents: u64, results: &[u64], ends: &[u64], out: &'a mut [u64]) -> Result<Figures<'a>, Refusal> {
    // SAFETY: the library reads `results` and `ends` and writes `out`, within the lengths given, and keeps none.
    let refusal = unsafe {
        ffi::lawhemuri_report(fluents, results.as_ptr(), results.len(), ends.as_ptr(), ends.len(), out.as_mut_ptr(), out.len())
    };
    accepted(refusal)?;
    Ok(Figures(&out[..report_words(fluents as usize)]))
}

/// The figures of a class run, in memory of their own.
#[derive(Clone, Debug, PartialEq, Eq)]
pub struct Report {
    /// The share of the ends in which each fluent holds, in fluent order.
    pub shares: Vec<Fraction>,
    /// The mean number of fluents holding in an end.
    pub mean_held: Fraction,
    /// The mean ends per unrefused start.
    pub mean_ends: Fraction,
}

/// The figures of what [`class_of`](crate::class_of) gave for a sheet of so many fluents. What it gave never meets 26.
pub fn report_of(fluents: usize, given: &[OfStart]) -> Result<Report, Refusal> {
    let words = |(told, _): &OfStart| {
        let (refusal, counts) = told.map_or_else(|refused| (refused.refusal.number(), refused.counts), |counts| (0, counts));
        [refusal, counts.ends as u64, counts.calls as u64, counts.answers as u64]
    };
    let results: Vec<u64> = given.iter().flat_map(words).collect();
    let ends: Vec<u64> = given.iter().flat_map(|(_, ends)| ends.iter().copied()).collect();
    // Over 64 fluents are refused with 20, whatever the room.
    let mut out = vec![0; report_words(fluents.min(MOST_FLUENTS as usize))];
    let figures = report(fluents as u64, &results, &ends, &mut out)?;
    Ok(Report { shares: figures.shares().collect(), mean_held: figures.mean_held(), mean_ends: figures.mean_ends() })
}
