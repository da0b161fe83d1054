//! Figures for the course report, over a whole class: the library's fractions with the fluents' names.

use lawhemuri::{report_of, Fraction, OfStart, Report};

use crate::failure::Failure;
use crate::sheet::Sheet;
use crate::words::{count_or_no, grouped};

/// The figures as the library gives them.
pub fn figures(sheet: &Sheet, given: &[OfStart]) -> Result<Report, Failure> {
    report_of(sheet.fluents.len(), given).map_err(|refusal| Failure::Internal(format!("the class's own results: {refusal}")))
}

/// The starts, those of them that are refused, and the ends.
fn counts(given: &[OfStart]) -> [usize; 3] {
    let refused = given.iter().filter(|(told, _)| told.is_err()).count();
    [given.len(), refused, given.iter().map(|(_, ends)| ends.len()).sum()]
}

/// The table: a row for each fluent, then the two means in words.
pub fn table(sheet: &Sheet, given: &[OfStart], figures: &Report) -> String {
    let [starts, refused, ends] = counts(given);
    let refused = if refused == 0 { String::new() } else { format!(", {} refused", grouped(refused)) };
    let mut out = format!("{}: {}{refused}, {}\n", sheet.name, count_or_no(starts, "start"), count_or_no(ends, "end"));
    let shares: Vec<String> = figures.shares.iter().map(|share| exact(*share)).collect();
    let name = sheet.fluents.iter().map(|name| name.len()).chain(["fluent".len()]).max().unwrap_or(0);
    let wide = shares.iter().map(String::len).chain(["share".len()]).max().unwrap_or(0);
    if !shares.is_empty() {
        out += &format!("{:<name$}  {:>wide$}  of the ends\n", "fluent", "share");
    }
    for ((fluent, share), figure) in sheet.fluents.iter().zip(&shares).zip(&figures.shares) {
        out += &format!("{fluent:<name$}  {share:>wide$}  {}\n", percent(*figure));
    }
    out += &format!("mean number of fluents holding in an end: {}\n", mean(figures.mean_held, "no end"));
    out + &format!("mean ends per unrefused start: {}\n", mean(figures.mean_ends, "no unrefused start"))
}

/// A fraction with its thousands parted; one over nothing is a dash.
fn exact(fraction: Fraction) -> String {
    match fraction {
        Fraction::NOTHING => "-".into(),
        Fraction { numerator, denominator } => format!("{}/{}", grouped(numerator), grouped(denominator)),
    }
}

/// A share in percent, rounded to a tenth; `never` and `always` are exact.
fn percent(share: Fraction) -> String {
    match (share.numerator, share.denominator) {
        (_, 0) => "no end".into(),
        (0, _) => "never".into(),
        (n, d) if n == d => "always".into(),
        (n, d) => format!("{:.1} %", n as f64 * 100.0 / d as f64),
    }
}

/// A mean as a whole number, or as a fraction with its value, rounded to a hundredth.
fn mean(fraction: Fraction, nothing: &str) -> String {
    match (fraction.numerator, fraction.denominator) {
        (_, 0) => format!("none, there is {nothing}"),
        (n, 1) => grouped(n),
        (n, d) => format!("{}, about {:.2}", exact(fraction), n as f64 / d as f64),
    }
}

/// The same as JSON: each figure is a numerator and a denominator, in lowest terms; over nothing both are 0.
pub fn json(sheet: &Sheet, given: &[OfStart], figures: &Report) -> String {
    let pair = |fraction: Fraction| format!("[{},{}]", fraction.numerator, fraction.denominator);
    let [starts, refused, ends] = counts(given);
    let rows: Vec<String> = sheet
        .fluents
        .iter()
        .zip(&figures.shares)
        .map(|(name, share)| format!("    {{\"fluent\":\"{name}\",\"share\":{}}}", pair(*share)))
        .collect();
    let rows = if rows.is_empty() { String::new() } else { format!("\n{}\n  ", rows.join(",\n")) };
    format!(
        "{{\n  \"starts\":{starts},\n  \"refused\":{refused},\n  \"ends\":{ends},\n  \"shares\":[{rows}],\n  \"mean_held\":{},\n  \"mean_ends\":{}\n}}\n",
        pair(figures.mean_held),
        pair(figures.mean_ends)
    )
}

#[cfg(test)]
mod tests {
    use super::*;

    fn over(numerator: u64, denominator: u64) -> Fraction {
        Fraction { numerator, denominator }
    }

    #[test]
    fn figures_in_words() {
        assert_eq!([over(0, 0), over(0, 1), over(1, 1), over(1, 3)].map(percent), ["no end", "never", "always", "33.3 %"]);
        assert_eq!(mean(over(0, 0), "no end"), "none, there is no end");
        assert_eq!([over(0, 1), over(4, 3), over(65_536, 1)].map(|f| mean(f, "")), ["0", "4/3, about 1.33", "65,536"]);
        assert_eq!([over(0, 0), over(10_923, 32_768)].map(exact), ["-", "10,923/32,768"]);
    }
}
