//! The sheet with its line numbers.

use std::collections::{BTreeMap, BTreeSet};

use super::html::{esc, ticks};
use crate::choices::Answers;
use crate::drill::Drill;
use crate::layout::Layout;
use crate::lines::fields;
use crate::notes::notes;

/// The sheet, with the ends whose ways take each rule, and what its author should look at.
pub fn listing(drill: &Drill, answers: &Answers<'_>, ways: &[(usize, Layout)]) -> String {
    let mut taken: BTreeMap<usize, BTreeSet<usize>> = BTreeMap::new();
    for (number, layout) in ways {
        for &rule in &layout.taken {
            taken.entry(drill.line(rule)).or_default().insert(*number);
        }
    }
    let (notes, _) = notes(drill, answers);
    let mut out = String::from("<section class=\"book\"><h2>The sheet</h2>");
    if !ways.is_empty() {
        out += "<p class=\"soft small\">Beside a rule: the ends whose way shown takes it.</p>";
    }
    out += "<pre class=\"sheet\">";
    for (line, number) in drill.lines.iter().zip(1..) {
        let by = taken.get(&number).map_or(String::new(), |ends| {
            if ends.len() == ways.len() && ways.len() > 1 {
                "all".into()
            } else {
                few(ends)
            }
        });
        let fields = fields(line);
        let rest: String = fields[1..].iter().map(|field| format!("  {}", esc(field))).collect();
        let word = esc(fields[0]);
        let word = if matches!(fields[0], "rule" | "start" | "goal") { format!("<b>{word}</b>") } else { word };
        let look: String = notes
            .iter()
            .filter(|note| note.line == number)
            .map(|note| format!("  <span class=\"note\">◂ {}</span>", ticks(&note.words)))
            .collect();
        out += &format!("<span id=\"L{number}\"><i>{number}</i><u>{by}</u>{word}{rest}{look}</span>");
    }
    out + "</pre></section>"
}

/// The first few of some numbers.
fn few(numbers: &BTreeSet<usize>) -> String {
    const FEW: usize = 3;
    let shown: Vec<String> = numbers.iter().take(FEW).map(usize::to_string).collect();
    shown.join(" ") + if numbers.len() > FEW { "…" } else { "" }
}
