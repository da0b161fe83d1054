//! One page of a sheet for the class: a single file that needs no network, no script and no colour to be read.

mod chart;
mod end;
mod foot;
mod html;
mod listing;
mod map;
mod matrix;
mod refused;
mod steps;

use crate::choices::Answers;
use crate::drill::Drill;
use crate::layout::Layout;
use crate::words::{count, count_or_no, grouped};
pub use chart::parts;
use end::end;
use foot::foot;
use html::esc;
use listing::listing;
pub use matrix::MOST_ROWS as MOST_ENDS_IN_ROWS;
use matrix::{matrix, MOST_COLUMNS};
pub use refused::refused;

const STYLE: &str = include_str!("style.css");
const SCRIPT: &str = include_str!("ask.js");

/// A step with a gap after its mark, and with a minus that is seen from afar.
fn step_text(drill: &Drill, word: u16) -> String {
    let step = drill.step(word);
    let (mark, name) = step.split_at(1);
    format!("{} {name}", if mark == "-" { "−" } else { mark })
}

/// The page of a drill with the ways shown, each with the number of its end.
pub fn page(drill: &Drill, answers: &Answers<'_>, ways: &[(usize, Layout)]) -> String {
    let spread = drill.spread();
    let mut out = head(&format!("{}: {}", drill.name, count_or_no(drill.ends().len(), "end")), &data(drill));
    out += &top(drill);
    out += "<main>";
    if drill.ends().is_empty() {
        out +=
            "<section id=\"ends\"><h2>Where it stops</h2><p>These calls have no answer: none of their rules can be finished.</p>";
        out += &format!("{}</section>", steps::stops(drill, &answers.unanswered()));
    } else {
        let drawn: Vec<usize> = ways.iter().map(|(number, _)| *number).collect();
        let title = if drill.ends().len() == 1 { "Where it ends" } else { "Where the ends differ" };
        out += &format!("<section id=\"ends\"><h2>{title}</h2>{}</section>", matrix(drill, &spread, &drawn));
        out += &parting(drill, ways);
        out += &left_out(drill, &drawn);
        ways.iter().for_each(|(number, layout)| out += &end(drill, &spread, (*number, &drawn), layout));
    }
    out += "</main>";
    out += &listing(drill, answers, ways);
    out += &foot(drill, ways);
    out + &format!("<script>{SCRIPT}</script></body></html>\n")
}

fn head(title: &str, data: &str) -> String {
    let size = |id: &str, checked: &str| {
        format!("<label class=\"{id}\"><input type=\"radio\" name=\"t\" id=\"{id}\"{checked}>A</label>")
    };
    format!(
        "<!doctype html>\n<html lang=\"en\"><head><meta charset=\"utf-8\"><meta name=\"viewport\" content=\"width=device-width,\
         initial-scale=1\"><title>{}</title><style>{STYLE}</style></head><body{data}>\n<a class=\"skip\" href=\"#ends\">To the ends</a>\
         <div class=\"top\"><span>Rehearsal sheet</span><fieldset class=\"size\"><legend class=\"skip\">Text size</legend>{}{}{}\
         </fieldset></div>",
        esc(title),
        size("t1", " checked"),
        size("t2", ""),
        size("t3", "")
    )
}

/// The ends and the names, for the script that answers questions.
fn data(drill: &Drill) -> String {
    if drill.ends().len() < 2 {
        return String::new();
    }
    let ends: Vec<String> = drill.ends().iter().map(|end| format!("{end:016x}")).collect();
    format!(" data-ends=\"{}\" data-names=\"{}\"", ends.join(","), drill.fluents().join(","))
}

/// The name, the goal, the counts, and what the reader may believe.
fn top(drill: &Drill) -> String {
    let (sheet, counts, n) = (drill.rehearsal.sheet(), drill.rehearsal.counts(), drill.ends().len());
    let goal: Vec<String> = sheet.goal().iter().map(|&word| step_text(drill, word)).collect();
    let goal = if goal.is_empty() { "nothing to do".to_string() } else { goal.join(", ") };
    let fact = |number: usize, words: &str| format!("<li><b>{}</b>{words}</li>", grouped(number));
    let facts = [
        fact(n, plural(n, "end: a state in which it can be over", "ends: states in which it can be over")),
        fact(drill.fluents().len(), plural(drill.fluents().len(), "fluent", "fluents")),
        fact(sheet.rules, &format!("{} of {}", plural(sheet.rules, "rule", "rules"), count(sheet.actions as usize, "action"))),
        fact(counts.calls, plural(counts.calls, "call: an action begun in a state", "calls: an action begun in a state")),
        fact(
            counts.answers,
            plural(counts.answers, "answer: a call and a state that finishes it", "answers: a call and a state that finishes it"),
        ),
        fact(counts.rounds, plural(counts.rounds, "round: how deep the work went", "rounds: how deep the work went")),
    ];
    let believed = match n {
        0 => "<b>This procedure can never be finished from this start.</b> That there is no end is proved of the library that looked \
              for them; the page is a drawing."
            .to_string(),
        1 => "This is the one end there is, by proof of the library that worked it out. The page is a drawing of its result.".into(),
        n => format!(
            "These {} ends are all there are, by proof of the library that worked them out. The page is a drawing of its result.",
            grouped(n)
        ),
    };
    format!(
        "<header><h1>{}</h1><p class=\"soft\">Goal: <code>{}</code></p><ul class=\"facts\">{}</ul><div class=\"proof\"><p>{believed} \
         <a href=\"#proof\">What is proved, and what is not</a></p></div></header>",
        esc(&drill.name),
        esc(&goal),
        facts.concat()
    )
}

fn plural<'a>(number: usize, one: &'a str, more: &'a str) -> &'a str {
    if number == 1 {
        one
    } else {
        more
    }
}

/// The map of the ways, if there are few enough to be drawn as one.
fn parting(drill: &Drill, ways: &[(usize, Layout)]) -> String {
    if ways.len() > MOST_COLUMNS {
        return String::new();
    }
    let Some((svg, says)) = map::map(drill, ways) else { return String::new() };
    let says: String = says.iter().map(|words| format!("<li>{words}</li>")).collect();
    format!(
        "<section id=\"parting\"><h2>Where the ways part</h2><p class=\"soft\">The ways shown below, drawn as one line; in a ring \
         stands the number of the state where they part.</p>{}<ul class=\"says\">{says}</ul></section>",
        scroll(&svg, "map")
    )
}

/// A drawing that can be moved sideways, by the keyboard too, where it is wider than the window.
fn scroll(drawing: &str, what: &str) -> String {
    format!("<div class=\"scroll\" tabindex=\"0\" role=\"group\" aria-label=\"{what}\">{drawing}</div>")
}

/// How many ways are not drawn.
fn left_out(drill: &Drill, drawn: &[usize]) -> String {
    let all = drill.ends().len();
    let Some(other) = (1..=all).find(|number| !drawn.contains(number)) else { return String::new() };
    format!(
        "<p class=\"soft\" id=\"left-out\">Ways are drawn to {} of the {} ends; {} left out. \
         <code>lawhemuri page {} --ends {other}</code> draws the way to another end, <code>--most</code> draws more.</p>",
        if drawn.is_empty() { "none".into() } else { grouped(drawn.len()) },
        grouped(all),
        plural(all - drawn.len(), "one is", &format!("{} are", grouped(all - drawn.len()))),
        esc(&drill.file)
    )
}
