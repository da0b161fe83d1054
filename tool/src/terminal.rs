//! What the terminal shows: ends, a refusal, an accepted sheet, a way.

use crate::choices::{calls_itself, stops_since, Answers, Leads, Other, MOST_LED_TO};
use crate::drill::Drill;
use crate::layout::{after_words, Layout, Row};
use crate::lines::{cropped, lines_of};
use crate::notes::notes;
use crate::refusal::Told;
use crate::sha256::digest;
use crate::valve::ByValve;
use crate::words::{count, count_or_no, grouped, wrapped};

/// Characters of a list's line.
const LIST_WIDTH: usize = 100;
/// States in one band of the chart.
const BAND: usize = 80;
/// Bands shown of a long way unless all are asked for.
const MOST_BANDS: usize = 3;
/// Levels that are indented; deeper calls stand under one another.
const MOST_INDENT: usize = 20;
/// Calls without an answer that are told.
const MOST_UNANSWERED: usize = 20;

/// The ends in document 01's format: the counts, then a line for each end.
pub fn ends(drill: &Drill, numbers: &[usize]) -> String {
    let counts = drill.rehearsal.counts();
    let mut out = format!("ends\t{}\t{}\t{}\n", counts.ends, counts.calls, counts.answers);
    for &number in numbers {
        let end = drill.ends()[number - 1];
        let names: String = drill.holding(end).iter().map(|name| format!("\t{name}")).collect();
        out += &format!("end\t{end}{names}\n");
    }
    out
}

/// The same as JSON. States are strings: they may have more digits than a number of JavaScript keeps.
pub fn ends_json(drill: &Drill, numbers: &[usize]) -> String {
    let counts = drill.rehearsal.counts();
    let names = |list: Vec<&str>| list.iter().map(|name| format!("\"{name}\"")).collect::<Vec<_>>().join(",");
    let end = |&number: &usize| {
        let end = drill.ends()[number - 1];
        format!("    {{\"number\":{number},\"state\":\"{end}\",\"holds\":[{}]}}", names(drill.holding(end)))
    };
    let list: Vec<String> = numbers.iter().map(end).collect();
    format!(
        "{{\n  \"ends\":{},\n  \"calls\":{},\n  \"answers\":{},\n  \"rounds\":{},\n  \"fluents\":[{}],\n  \"start\":\"{}\",\n  \"list\":[{}]\n}}\n",
        counts.ends,
        counts.calls,
        counts.answers,
        counts.rounds,
        names(drill.fluents().iter().map(String::as_str).collect()),
        drill.start(),
        if list.is_empty() { String::new() } else { format!("\n{}\n  ", list.join(",\n")) }
    )
}

/// States kept by valve: how many there are, the fluents, then for each block of 64 states its words, bit i of a fluent's word for
/// state i of the block.
pub fn archive(drill: &Drill, by_valve: &ByValve, states: usize) -> String {
    let names: String = drill.fluents().iter().map(|name| format!("\t{name}")).collect();
    let mut out = format!("states\t{states}\nfluents{names}\n");
    for block in by_valve.blocks() {
        let words: String = block.iter().map(|word| format!("\t{word}")).collect();
        out += &format!("words{words}\n");
    }
    out
}

/// A refusal like a good compiler's: number, what, where, the line with a mark under the place, what to do.
pub fn refusal(told: &Told, file: &str, text: &[u8]) -> String {
    let mut out = format!("refused {}: {}\n", told.number, told.title);
    let lines = lines_of(text);
    let gutter = if told.line == 0 { 1 } else { lines.len().min(told.line + 1).to_string().len() };
    let pad = " ".repeat(gutter);
    if told.line == 0 {
        out += &format!("{pad}--> {file}\n");
    } else {
        let column = told.mark.map_or(String::new(), |(column, _)| format!(":{}", column + 1));
        out += &format!("{pad}--> {file}:{}{column}\n{pad} |\n", told.line);
        for number in told.line.saturating_sub(1).max(1)..=lines.len().min(told.line + 1) {
            let (column, length) = told.mark.filter(|_| number == told.line).unwrap_or((0, 0));
            let (shown, lead) = cropped(&lines[number - 1], column);
            out += format!("{number:gutter$} | {shown}").trim_end();
            out += "\n";
            if length > 0 {
                out += &format!("{pad} | {}{} {}\n", " ".repeat(lead), "^".repeat(length), told.note);
            }
        }
        out += &format!("{pad} |\n");
    }
    if let Some(meant) = &told.meant {
        out += &format!("{pad} = did you mean `{meant}`?\n");
    }
    out += &format!("{pad} = to do: {}\n", told.remedy);
    if told.line > 0 {
        out += &format!("{pad} = only the first fault is told; → stands for a TAB\n");
    }
    out
}

/// An accepted sheet: its counts, and what its author should look at.
pub fn accepted(drill: &Drill) -> String {
    let (sheet, counts) = (drill.rehearsal.sheet(), drill.rehearsal.counts());
    let goal = if sheet.goal().is_empty() { "of no step".to_string() } else { drill.goal() };
    let mut out = format!(
        "{}: accepted: {}, {}, {}, goal {goal}\n  {}, {}, {}, {}; SHA-256 {}\n",
        drill.file,
        count(sheet.fluents as usize, "fluent"),
        count(sheet.actions as usize, "action"),
        count(sheet.rules, "rule"),
        count_or_no(counts.ends, "end"),
        count(counts.calls, "call"),
        count(counts.answers, "answer"),
        count_or_no(counts.rounds, "round"),
        digest(drill.rehearsal.text()),
    );
    let answers = Answers::of(drill);
    let (notes, left_out) = notes(drill, &answers);
    for note in &notes {
        let (line, _) = cropped(&drill.lines[note.line - 1], 0);
        out += &format!("  {}:{}: look: {}\n      {line}\n", drill.file, note.line, note.words);
    }
    if notes.is_empty() {
        out += "  nothing else to look at\n";
    }
    if left_out {
        out += "  not looked for, since the run is large: rules that are never finished, pairs that `~` would serve\n";
    }
    if counts.ends == 0 {
        out += "\nIt can never be finished from this start:\n";
        out += &unanswered(drill, &answers);
    }
    out
}

/// The calls without an answer, and the step that stops each of their rules.
pub fn unanswered(drill: &Drill, answers: &Answers<'_>) -> String {
    let mut out = String::new();
    let all = answers.unanswered();
    for call in all.iter().take(MOST_UNANSWERED) {
        out += &format!("  {}, where {}:\n", drill.action(call.action), drill.holding_words(call.state));
        if call.stops.is_empty() {
            out += "      has no rule\n";
        }
        for &(rule, place) in &call.stops {
            let word = drill.tables().body(rule)[place];
            let step = drill.step(word);
            out += &format!(
                "      line {} stops at {step}: {}{}\n",
                drill.line(rule),
                stops_since(word),
                calls_itself(word, call.action)
            );
        }
    }
    if all.len() > MOST_UNANSWERED {
        out += &format!("  … and {} more\n", count(all.len() - MOST_UNANSWERED, "call"));
    }
    out
}

/// A way: by valve, then step by step.
pub fn path(drill: &Drill, layout: &Layout, number: usize, all: bool) -> String {
    let end = drill.ends()[number - 1];
    let only = drill.only(end).map_or(String::new(), |only| format!(": {only}"));
    let mut out = format!("{}, end {number}{only}\n", drill.name);
    let states = layout.states.len();
    if layout.whole {
        let again = if layout.again { "; other ways lead to it too" } else { "" };
        out += &format!("one way to it, {}{again}\n\n", count(states, "state"));
    } else {
        let size = drill.rehearsal.record(end).map_or(0, |record| drill.rehearsal.size(record));
        let size = if size == u64::MAX {
            "more calls and steps than 64 bits count".to_string()
        } else {
            format!("{} calls and steps", grouped(size))
        };
        out += &format!("the way to it has {size} and is too long to be shown; a part of it, {}:\n\n", count(states, "state"));
    }
    out += &bands(drill, layout, all);
    out + &steps(drill, layout, number)
}

/// The timing chart in characters: high where a fluent holds, low where it does not.
fn bands(drill: &Drill, layout: &Layout, all: bool) -> String {
    let states = &layout.states;
    let rows = layout.touched(0, states.len());
    if rows.is_empty() {
        return "Nothing is changed on the way.\n\n".into();
    }
    let by_valve = &layout.by_valve;
    let width = rows.iter().map(|&k| drill.fluents()[k].len()).max().unwrap_or(0).max("state".len());
    let shown = if all { states.len() } else { states.len().min(MOST_BANDS * BAND) };
    let mut out = String::new();
    for first in (0..shown).step_by(BAND) {
        let last = (first + BAND).min(states.len());
        let digit = |state: usize, unit: usize| char::from(b'0' + (state / unit % 10) as u8);
        let tens: String = (first..last).map(|state| if state % 10 == 0 { digit(state, 10) } else { ' ' }).collect();
        let ones: String = (first..last).map(|state| digit(state, 1)).collect();
        out += &format!("  {:width$}  {}\n  {:>width$}  {ones}\n", "", tens.trim_end(), "state");
        for &k in &rows {
            let line: String = (first..last).map(|state| if by_valve.holds(k, state) { '▔' } else { '▁' }).collect();
            let end = if last < states.len() || !layout.whole {
                ""
            } else if by_valve.holds(k, last - 1) {
                "  ●"
            } else {
                "  ·"
            };
            out += &format!("  {:>width$}  {line}{end}\n", drill.fluents()[k]);
        }
        out += "\n";
    }
    if shown < states.len() {
        out += &format!("  … {} more states (--all shows them)\n\n", grouped(states.len() - shown));
    }
    out
}

fn steps(drill: &Drill, layout: &Layout, number: usize) -> String {
    let mut out = String::from("state  line\n");
    if layout.whole {
        let start = drill.holding_words(drill.start());
        out += &wrapped(&start.split(", ").collect::<Vec<_>>(), &format!("    0  {:4}  start: ", drill.places.start), LIST_WIDTH);
    }
    for row in &layout.rows {
        match row {
            Row::Call { depth, action, rule, letter, others } => {
                let pad = "  ".repeat((*depth).min(MOST_INDENT));
                let choice = letter.as_ref().map_or(String::new(), |letter| format!("   [choice {letter}]"));
                out += &format!(
                    "       {:4}  {pad}{}{}{choice}\n",
                    drill.line(*rule),
                    drill.action(*action),
                    drill.which(*action, *rule).map_or(String::new(), |(place, of)| format!(", way {place} of {of}"))
                );
                others.iter().for_each(|other| out += &or_by(drill, other, number, &pad));
            }
            Row::Step { depth, action, rule, word, at, changed } => {
                let pad = "  ".repeat((depth + 1).min(MOST_INDENT + 1));
                let at = at.map_or(String::new(), |at| at.to_string());
                let after = after_words(*word, *changed);
                let after = if after.is_empty() { String::new() } else { format!("   ({after})") };
                let step = drill.step(*word);
                out += &format!("{at:>5}  {:4}  {pad}{}: {step}{after}\n", drill.line(*rule), drill.action(*action));
            }
        }
    }
    if layout.rows.len() < layout.row_count {
        out += &format!("       … {} more lines (--all shows them)\n", grouped(layout.row_count - layout.rows.len()));
    }
    out
}

/// What another rule could have led to; nothing of one that is shut.
fn or_by(drill: &Drill, other: &Other, number: usize, pad: &str) -> String {
    let to = match &other.leads {
        Leads::Stopped(_) | Leads::Shut => return String::new(),
        Leads::Finishes => "can be finished too".to_string(),
        Leads::Ends(ends) => {
            let name = |&end: &usize| if end == number { "this end".to_string() } else { format!("end {end}") };
            let named: Vec<String> = ends.iter().take(MOST_LED_TO).map(name).collect();
            let more = ends.len().saturating_sub(MOST_LED_TO);
            let more = if more > 0 { format!(" and {} more", grouped(more)) } else { String::new() };
            format!("can lead to {}{more}", named.join(", "))
        }
    };
    format!("             {pad}  or by line {}: {to}\n", drill.line(other.rule))
}
