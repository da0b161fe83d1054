//! The figures over a class: stored outputs, and each figure held against the ends that `class` lists.

mod common;

use common::{folder, here, scratch, stored, told};
use std::path::Path;

/// The numbers between two marks of a text, one for each time that it has them.
fn numbers(text: &str, from: &str, to: char) -> Vec<u64> {
    text.split(from).skip(1).map(|rest| rest.split(to).next().unwrap().parse().unwrap()).collect()
}

/// The pairs that stand after a mark.
fn pairs(json: &str, mark: &str) -> Vec<(u64, u64)> {
    let pair = |rest: &str| {
        rest.split(']').next().unwrap().split_once(',').map(|(n, d)| (n.parse().unwrap(), d.parse().unwrap())).unwrap()
    };
    json.split(mark).skip(1).map(pair).collect()
}

fn divisor(a: u64, b: u64) -> u64 {
    if b == 0 {
        a
    } else {
        divisor(b, a % b)
    }
}

/// A fraction is n over d, in lowest terms; over nothing it is 0 over 0.
fn hold((numerator, denominator): (u64, u64), n: u64, d: u64) {
    if d == 0 {
        return assert_eq!((numerator, denominator), (0, 0));
    }
    assert_eq!(
        (u128::from(numerator) * u128::from(d), divisor(numerator, denominator)),
        (u128::from(n) * u128::from(denominator), 1)
    );
}

/// Holds the figures over a class against what `class` lists of it, and gives them as JSON.
fn held(sheet: &Path, starts: &Path) -> String {
    let asked = |command: &str| told(&[command.as_ref(), sheet.as_os_str(), starts.as_os_str(), "--json".as_ref()]);
    let ((status, class, _), (same, report, err)) = (asked("class"), asked("report"));
    assert_eq!((status, same, err.as_str()), (0, 0, ""));
    let ends = numbers(&class, "{\"state\":\"", '"');
    let unrefused = numbers(&class, "\"refusal\":", ',').iter().filter(|refusal| **refusal == 0).count() as u64;
    let lent = ends.len() as u64;
    assert_eq!(numbers(&report, "\"ends\":", ','), [lent]);
    for (k, share) in pairs(&report, "\"share\":[").into_iter().enumerate() {
        hold(share, ends.iter().map(|end| end >> k & 1).sum(), lent);
    }
    hold(pairs(&report, "\"mean_held\":[")[0], ends.iter().map(|end| u64::from(end.count_ones())).sum(), lent);
    hold(pairs(&report, "\"mean_ends\":[")[0], lent, unrefused);
    report
}

#[test]
fn figures_of_a_class() {
    let (sheet, starts) = (folder("sheets/light_up.sheet"), folder("sheets/light_up.starts"));
    let (status, out, err) = told(&["report".as_ref(), sheet.as_os_str(), starts.as_os_str()]);
    assert_eq!((status, err.as_str()), (0, ""));
    stored(&here().join("tests/stored/light_up.report"), &out);
    stored(&here().join("tests/stored/light_up.report.json"), &held(&sheet, &starts));
}

/// A refused start has no ends and is none of those that the mean is over; without starts or ends there is no share and no mean.
#[test]
fn refused_starts_and_none() {
    let (sheet, starts) = (here().join("tests/classes/gated.sheet"), here().join("tests/classes/gated.starts"));
    let (status, out, err) = told(&["report".as_ref(), sheet.as_os_str(), starts.as_os_str()]);
    assert_eq!((status, err.as_str()), (0, ""));
    stored(&here().join("tests/stored/gated.report"), &out);
    held(&sheet, &starts);
    let file = scratch("reports").join("class.starts");
    for (text, means) in [
        ("", "in an end: none, there is no end\nmean ends per unrefused start: none, there is no unrefused start\n"),
        ("start\tkey\n", "in an end: none, there is no end\nmean ends per unrefused start: none, there is no unrefused start\n"),
        ("start\nstart\n", "in an end: 0\nmean ends per unrefused start: 1\n"),
    ] {
        std::fs::write(&file, text).unwrap();
        held(&sheet, &file);
        let (status, out, err) = told(&["report".as_ref(), sheet.as_os_str(), file.as_os_str()]);
        assert!(status == 0 && err.is_empty() && out.ends_with(means), "{out}");
    }
    let none = here().join("tests/sheets/no_end.sheet");
    std::fs::write(&file, "start\n").unwrap();
    let (_, out, _) = told(&["report".as_ref(), none.as_os_str(), file.as_os_str()]);
    assert!(out.ends_with("in an end: none, there is no end\nmean ends per unrefused start: 0\n"), "{out}");
    held(&none, &file);
}

#[test]
fn wrong_uses() {
    let sheet = folder("sheets/light_up.sheet");
    for (words, said) in [
        (&["report", sheet.to_str().unwrap()][..], "report needs a file of starts: lawhemuri report SHEET STARTS"),
        (&["report", "-", "-"], "cannot both be"),
    ] {
        let (status, out, err) = told(words);
        assert_eq!((status, out.as_str()), (2, ""));
        assert!(err.contains(said), "{err}");
    }
}
