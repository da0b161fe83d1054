//! Where the ends differ: fluents against ends, and the buttons to ask by.

use super::html::{end_link, esc, names};
use crate::drill::{Drill, Spread};
use crate::words::grouped;

/// Ends that stand as columns, and ends that stand as rows, at most.
pub const MOST_COLUMNS: usize = 16;
pub const MOST_ROWS: usize = 256;

/// The part of the page that says in which fluents the ends differ, and in which they are alike.
pub fn matrix(drill: &Drill, spread: &Spread, drawn: &[usize]) -> String {
    let one = drill.ends().len() == 1;
    let changed = |&k: &usize| one && (drill.ends()[0] ^ drill.start()) >> k & 1 == 1;
    let rows: Vec<usize> = if one { (0..drill.fluents().len()).filter(changed).collect() } else { spread.differ.clone() };
    let table = match drill.ends().len() {
        _ if rows.is_empty() => String::new(),
        n if n <= MOST_COLUMNS => columns(drill, &rows, one, drawn),
        n if n <= MOST_ROWS => as_rows(drill, &rows, drawn),
        _ => shares(drill, &rows),
    };
    let said = if one || rows.is_empty() { "" } else { "<p id=\"said\" class=\"ask\" role=\"status\" aria-live=\"polite\"></p>" };
    format!("<div class=\"pair\">{said}{table}{}</div>", alike(drill, spread, one))
}

/// The two buttons of a fluent.
fn buttons(drill: &Drill, k: usize) -> String {
    let name = esc(&drill.fluents()[k]);
    let button = |value: i8, word: &str| {
        format!(
            "<button type=\"button\" class=\"q\" data-k=\"{k}\" data-v=\"{value}\" aria-pressed=\"false\" \
             aria-label=\"only ends {word} {name}\">{word}</button>"
        )
    };
    button(1, "with") + &button(-1, "without")
}

/// A cell: a dot where it holds, a dash where it does not, and a word for those who hear the page.
fn cell(holds: bool, more: &str, class: &str) -> String {
    let (mark, word) = if holds { ("h", "holds") } else { ("n", "no") };
    format!("<td{more} class=\"{mark}{class}\"><span class=\"skip\">{word}</span></td>")
}

const LEGEND: &str = "<li><span class=\"mk h\"></span> holds in that end</li><li><span class=\"mk n\"></span> does not hold</li>";
const CAPTION: &str = "<caption class=\"skip\">Which fluents hold in which end</caption>";

/// A link to the way to an end, or its bare number where none is drawn.
fn head(number: usize, drawn: &[usize], word: &str) -> String {
    if drawn.contains(&number) && !word.is_empty() {
        return end_link(number);
    }
    if drawn.contains(&number) {
        return format!("<a href=\"#end{number}\">{number}</a>");
    }
    format!("{word}{number}")
}

/// Ends as columns. A cell in which one end stands alone is framed.
fn columns(drill: &Drill, rows: &[usize], one: bool, drawn: &[usize]) -> String {
    let ends = drill.ends();
    let ask = if one { "" } else { "<th scope=\"col\" class=\"ask\">ask for ends</th>" };
    let heads: String =
        (1..=ends.len()).map(|e| format!("<th scope=\"col\" data-e=\"{e}\">{}</th>", head(e, drawn, "end "))).collect();
    let mut out = format!(
        "<div class=\"scroll left\"><table class=\"mx\">{CAPTION}<thead><tr><th scope=\"col\" class=\"nm\">fluent</th>{ask}\
         <th scope=\"col\" class=\"st\">start</th>{heads}</tr></thead><tbody>"
    );
    let mut framed = false;
    for &k in rows {
        let holding = ends.iter().filter(|&end| end >> k & 1 == 1).count();
        let lone = |holds: bool| ends.len() > 2 && (if holds { holding } else { ends.len() - holding }) == 1;
        let ask = if one { String::new() } else { format!("<td class=\"ask\">{}</td>", buttons(drill, k)) };
        out += &format!(
            "<tr><th scope=\"row\">{}</th>{ask}{}",
            esc(&drill.fluents()[k]),
            cell(drill.start() >> k & 1 == 1, "", " st")
        );
        for (end, number) in ends.iter().zip(1..) {
            let holds = end >> k & 1 == 1;
            framed |= lone(holds);
            out += &cell(holds, &format!(" data-e=\"{number}\""), if lone(holds) { " lone" } else { "" });
        }
        out += "</tr>";
    }
    let framed = if framed { "<li>framed: this end alone is so</li>" } else { "" };
    out + &format!("</tbody></table><ul class=\"legend\">{LEGEND}{framed}</ul></div>")
}

/// Many ends: one row each, the fluents as columns.
fn as_rows(drill: &Drill, rows: &[usize], drawn: &[usize]) -> String {
    let asks: String = rows
        .iter()
        .map(|&k| format!("<div><b>{}</b><span>{}</span></div>", esc(&drill.fluents()[k]), buttons(drill, k)))
        .collect();
    let heads: String =
        rows.iter().map(|&k| format!("<th scope=\"col\"><span>{}</span></th>", esc(&drill.fluents()[k]))).collect();
    let cells = |state: u64| rows.iter().map(|&k| cell(state >> k & 1 == 1, "", "")).collect::<String>();
    let row = |(number, &end): (usize, &u64)| {
        format!("<tr data-e=\"{number}\"><th scope=\"row\">{}</th>{}</tr>", head(number, drawn, ""), cells(end))
    };
    let body: String = (1..).zip(drill.ends()).map(row).collect();
    format!(
        "<div class=\"qs ask\">{asks}</div><div class=\"left\"><table class=\"mx rows\">{CAPTION}<thead><tr><th scope=\"col\">end</th>\
         {heads}</tr></thead><tbody><tr class=\"st\"><th scope=\"row\">start</th>{}</tr>{body}</tbody></table>\
         <ul class=\"legend\">{LEGEND}</ul></div>",
        cells(drill.start())
    )
}

/// Very many ends: in how many of them each fluent holds.
fn shares(drill: &Drill, rows: &[usize]) -> String {
    let (ends, all) = (drill.ends(), grouped(drill.ends().len()));
    let row = |&k: &usize| {
        let holding = ends.iter().filter(|&end| end >> k & 1 == 1).count();
        let width = 100.0 * holding as f64 / ends.len() as f64;
        format!(
            "<tr><th scope=\"row\">{}</th><td class=\"num\">{} of {all}</td><td class=\"share\"><svg viewBox=\"0 0 100 10\" \
             preserveAspectRatio=\"none\" aria-hidden=\"true\"><rect class=\"none\" width=\"100\" height=\"10\"/>\
             <rect class=\"some\" width=\"{width:.2}\" height=\"10\"/></svg></td><td class=\"ask\">{}</td></tr>",
            esc(&drill.fluents()[k]),
            grouped(holding),
            buttons(drill, k)
        )
    };
    let body: String = rows.iter().map(row).collect();
    format!(
        "<div class=\"left\"><p>{all} ends are too many for one table. In so many of them it holds:</p><table class=\"mx\"><tbody>\
         {body}</tbody></table></div><div id=\"hits\" class=\"ask\"></div>"
    )
}

/// The fluents in which all ends are alike, in short lists.
fn alike(drill: &Drill, spread: &Spread, one: bool) -> String {
    let part = |list: &[usize], at_start: bool| -> Vec<usize> {
        list.iter().copied().filter(|k| (drill.start() >> k & 1 == 1) == at_start).collect()
    };
    let groups = if one {
        vec![
            ("holds in the end, as at the start", part(&spread.every, true)),
            ("does not hold in the end, nor at the start", part(&spread.none, false)),
        ]
    } else {
        vec![
            ("in every end, not at the start", part(&spread.every, false)),
            ("in every end, as at the start", part(&spread.every, true)),
            ("in no end, though at the start", part(&spread.none, true)),
            ("in no end, nor at the start", part(&spread.none, false)),
        ]
    };
    let group = |(title, list): &(&str, Vec<usize>)| {
        format!("<dt>{title} ({})</dt><dd class=\"names\">{}</dd>", list.len(), names(&drill.named(list)))
    };
    let lists: String = groups.iter().filter(|(_, list)| !list.is_empty()).map(group).collect();
    if lists.is_empty() {
        return String::new();
    }
    let title = if one { "As at the start" } else { "Alike in all ends" };
    format!("<div class=\"alike\"><h3>{title}</h3><dl class=\"fold\">{lists}</dl></div>")
}
