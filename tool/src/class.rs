//! A whole class: the starts of its trainees, as an instructor writes them, and what the sheet's goal comes to from each.

use std::collections::BTreeSet;
use std::fs::File;
use std::io::{self, Read};

use lawhemuri::{class_of, OfStart, Refusal, Trouble};

use crate::ask::fluent;
use crate::failure::Failure;
use crate::sheet::Sheet;
use crate::words::{count, count_or_no, grouped, holding, holding_words};

/// Bytes of a file of starts that are read at most.
const MOST_BYTES: u64 = 1 << 20;
/// The columns of numbers: their heads, right-aligned.
const HEADS: [&str; 3] = ["ends", "calls", "answers"];

/// One start: whose it is, and the state.
#[derive(Debug, PartialEq, Eq)]
pub struct Start {
    pub who: String,
    pub state: u64,
}

/// The bytes of the file of starts that an operand names.
pub fn read(operand: &str) -> Result<String, Failure> {
    let mut bytes = Vec::new();
    let from = |source: &mut dyn Read, bytes: &mut Vec<u8>| source.take(MOST_BYTES + 1).read_to_end(bytes).map(drop);
    let read = match operand {
        "-" => from(&mut io::stdin(), &mut bytes),
        _ => File::open(operand).and_then(|mut file| from(&mut file, &mut bytes)),
    };
    let called = if operand == "-" { "standard input" } else { operand };
    read.map_err(|error| Failure::Failed(format!("{called} cannot be read: {error}")))?;
    if bytes.len() as u64 > MOST_BYTES {
        return Err(Failure::Failed(format!("{called} has more than {} bytes", grouped(MOST_BYTES))));
    }
    Ok(String::from_utf8_lossy(&bytes).into_owned())
}

/// The starts that the lines of a text say. A line is `start` and the names that hold, as in a sheet, or somebody's name with a colon
/// and then the names that hold; names are parted by TABs or spaces. Blank lines, lines that begin with `#` and a byte order mark are
/// left out. A start of nobody's is called by its number.
pub fn starts(text: &str, file: &str, sheet: &Sheet) -> Result<Vec<Start>, Failure> {
    let mut starts = Vec::new();
    for (line, number) in text.strip_prefix('\u{feff}').unwrap_or(text).lines().zip(1..) {
        let line = line.trim();
        if line.is_empty() || line.starts_with('#') {
            continue;
        }
        let at = |what: &str| Failure::Use(format!("{file}, line {number}: {what}"));
        let (who, names) = parted(line).map_err(|fault| at(&fault))?;
        let who = who.map_or_else(|| (starts.len() + 1).to_string(), String::from);
        let mut state = 0;
        for name in names.split_whitespace() {
            let bit = 1
                << fluent(&sheet.file, &sheet.fluents, name).map_err(|failure| match failure {
                    Failure::Use(words) => at(&words),
                    other => other,
                })?;
            if state & bit != 0 {
                return Err(at(&format!("`{name}` stands twice")));
            }
            state |= bit;
        }
        starts.push(Start { who, state });
    }
    Ok(starts)
}

/// Whose the start of a line is, if it is somebody's, and the names that hold; or what is wrong with the line. Of control characters
/// only TABs between names are taken: any other might do something to the terminal.
fn parted(line: &str) -> Result<(Option<&str>, &str), String> {
    if let Some(control) = line.chars().find(|c| c.is_control() && *c != '\t') {
        return Err(format!("the control character U+{:04X} stands in it", control as u32));
    }
    if let Some(names) = line.strip_prefix("start").filter(|rest| rest.is_empty() || rest.starts_with(char::is_whitespace)) {
        return Ok((None, names));
    }
    match line.split_once(':').map(|(who, names)| (who.trim(), names)) {
        Some(("start", _)) => Err("`start` is nobody's name: leave out the colon".into()),
        Some((who, _)) if who.contains('\t') => Err("a TAB stands in somebody's name".into()),
        Some((who, names)) if !who.is_empty() => Ok((Some(who), names)),
        _ => Err("a line is `start`, or somebody's name and a colon, and then the names that hold".into()),
    }
}

/// What the library gives for the starts; over 1,024 of them are refused.
pub fn run(sheet: &Sheet, starts: &[Start]) -> Result<Vec<OfStart>, Failure> {
    let states: Vec<u64> = starts.iter().map(|start| start.state).collect();
    class_of(&sheet.question(), &states).map_err(|trouble| match trouble {
        Trouble::Refused(Refusal::BadClass) => Failure::Failed(format!(
            "refused 25: {}, of which {} run in one go",
            count(starts.len(), "start"),
            grouped(lawhemuri::MOST_STARTS)
        )),
        other => other.into(),
    })
}

/// The table: a row for each start, with its ends under it if they are asked for.
pub fn table(sheet: &Sheet, starts: &[Start], given: &[OfStart], with_ends: bool) -> String {
    let rows: Vec<[String; 3]> = given.iter().map(|(told, _)| counts(told)).collect();
    let wide = |head: &str, column: &dyn Fn(usize) -> usize| (0..starts.len()).map(column).chain([head.len()]).max().unwrap_or(0);
    let who = wide("start", &|i| starts[i].who.chars().count());
    let numbers: Vec<usize> = (0..3).map(|k| wide(HEADS[k], &|i| rows[i][k].len())).collect();
    let line = |name: &str, cells: [&str; 3], holds: &str| {
        let cells: String = cells.iter().zip(&numbers).map(|(cell, width)| format!("  {cell:>width$}")).collect();
        format!("{name:<who$}{cells}  {holds}\n")
    };
    let ends: usize = given.iter().map(|(_, ends)| ends.len()).sum();
    let mut out = format!("{}: {}, {}\n", sheet.name, count_or_no(starts.len(), "start"), count_or_no(ends, "end"));
    if !starts.is_empty() {
        out += &line("start", HEADS, "holds at the start");
    }
    for ((start, (_, ends)), row) in starts.iter().zip(given).zip(&rows) {
        out += &line(&start.who, [&row[0], &row[1], &row[2]], &holding_words(&sheet.fluents, start.state));
        for end in ends.iter().filter(|_| with_ends) {
            out += &format!("{:who$}  end {end}: {}\n", "", holding_words(&sheet.fluents, *end));
        }
    }
    let refused: BTreeSet<u64> = given.iter().filter_map(|(told, _)| Some(told.err()?.refusal.number())).collect();
    let meaning = |refusal| match refusal {
        Refusal::TablesFull => Trouble::TooLarge.to_string(),
        other => other.to_string(),
    };
    let meanings = refused.iter().filter_map(|&number| Refusal::of(number)).map(|refusal| meaning(refusal) + "\n");
    out + &meanings.collect::<String>()
}

/// The counts of a start; of one that is refused its number, which is 30 wherever a room does not help.
fn counts(told: &Result<lawhemuri::Counts, lawhemuri::Uncounted>) -> [String; 3] {
    match told {
        Ok(counts) => [counts.ends, counts.calls, counts.answers].map(grouped),
        Err(refused) => [format!("refused {}", refused.refusal.number()), "-".into(), "-".into()],
    }
}

/// The same as JSON, with the ends. States are strings: they may have more digits than a number of JavaScript keeps.
pub fn json(sheet: &Sheet, starts: &[Start], given: &[OfStart]) -> String {
    let names =
        |state: u64| holding(&sheet.fluents, state).iter().map(|name| format!("\"{name}\"")).collect::<Vec<_>>().join(",");
    let end = |end: &u64| format!("{{\"state\":\"{end}\",\"holds\":[{}]}}", names(*end));
    let row = |(start, (told, ends)): (&Start, &OfStart)| {
        let (refusal, counts) = told.map_or_else(|refused| (refused.refusal.number(), refused.counts), |counts| (0, counts));
        format!(
            "    {{\"start\":{},\"state\":\"{}\",\"holds\":[{}],\"refusal\":{refusal},\"ends\":{},\"calls\":{},\"answers\":{},\"list\":[{}]}}",
            quoted(&start.who),
            start.state,
            names(start.state),
            counts.ends,
            counts.calls,
            counts.answers,
            ends.iter().map(end).collect::<Vec<_>>().join(",")
        )
    };
    let rows: Vec<String> = starts.iter().zip(given).map(row).collect();
    let fluents: Vec<String> = sheet.fluents.iter().map(|name| format!("\"{name}\"")).collect();
    let rows = if rows.is_empty() { String::new() } else { format!("\n{}\n  ", rows.join(",\n")) };
    format!("{{\n  \"fluents\":[{}],\n  \"starts\":[{rows}]\n}}\n", fluents.join(","))
}

/// A text as JSON has it.
fn quoted(text: &str) -> String {
    let escaped = |c: char| match c {
        '"' | '\\' => format!("\\{c}"),
        '\0'..='\u{1f}' => format!("\\u{:04x}", c as u32),
        c => c.to_string(),
    };
    format!("\"{}\"", text.chars().map(escaped).collect::<String>())
}

#[cfg(test)]
mod tests {
    use super::*;
    use crate::load::Source;

    fn sheet() -> Sheet {
        let text = b"fluent\ta\nfluent\tb\naction\tg\nrule\tg\t!g\t?a\t+b\nrule\tg\t+a\nstart\ngoal\t!g\n";
        let source = Source { file: "g.sheet".into(), name: "g".into(), path: None, text: text.to_vec(), length: None };
        Sheet::of(&source).unwrap_or_else(|_| panic!("the sheet is refused"))
    }

    #[test]
    fn starts_of_a_class() {
        let start = |who: &str, state| Start { who: who.into(), state };
        let said = starts("\u{feff}# late shift\n\nstart\tb\r\nAnn Bee:\ta b\nstart\nben:\n", "class.txt", &sheet()).unwrap();
        assert_eq!(said, [start("1", 2), start("Ann Bee", 3), start("3", 0), start("ben", 0)]);
        assert_eq!(starts("\u{feff}start a\n", "class.txt", &sheet()).unwrap(), [start("1", 1)]);
    }

    #[test]
    fn wrong_lines_are_told() {
        let cases = [
            ("start a\nb\n", "class.txt, line 2: a line is `start`, or"),
            ("starts a\n", "line 1: a line is `start`, or"),
            ("ann: a b a\n", "line 1: `a` stands twice"),
            ("ann: c\n", "line 1: g.sheet has no fluent `c`"),
            (": a\n", "line 1: a line is `start`, or"),
            ("start: a\n", "line 1: `start` is nobody's name"),
            ("start:\n", "line 1: `start` is nobody's name"),
            ("start a:b\n", "line 1: `a:b` is no name"),
            ("ann: a:b\n", "line 1: `a:b` is no name"),
            ("start\n\u{1b}[2Jann: a\n", "line 2: the control character U+001B stands in it"),
            ("ann: \u{1b}[2Ja\n", "line 1: the control character U+001B stands in it"),
            ("an\u{9b}n: a\n", "line 1: the control character U+009B stands in it"),
            ("ann\tb: a\n", "line 1: a TAB stands in somebody's name"),
        ];
        for (text, said) in cases {
            let Err(Failure::Use(words)) = starts(text, "class.txt", &sheet()) else { panic!("{text}") };
            assert!(words.contains(said) && !words.contains(char::is_control), "{text}: {words}");
        }
    }

    #[test]
    fn texts_in_json() {
        assert_eq!(quoted("a \"b\" \\ \t"), "\"a \\\"b\\\" \\\\ \\u0009\"");
    }
}
