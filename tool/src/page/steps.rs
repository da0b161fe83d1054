//! A way step by step: state number, sheet line, action and step, indented by calls.

use super::html::{end_link, esc, line_link, names};
use super::step_text;
use crate::choices::{calls_itself, stops_since, Leads, Other, Unanswered, MOST_LED_TO};
use crate::drill::Drill;
use crate::layout::{after_words, Layout, Row};
use crate::words::{count, grouped};
use lawhemuri::unfolding::{Kind, Step};

/// Levels that are indented; of deeper calls the level is told in words.
const MOST_INDENT: usize = 12;

/// A line of the list: state number, sheet line, words at a level.
fn item(class: &str, state: &str, line: &str, level: usize, words: &str) -> String {
    let class = if class.is_empty() { String::new() } else { format!(" class=\"{class}\"") };
    format!(
        "<li{class}><span class=\"k\">{state}</span><span class=\"l\">{line}</span>\
         <span class=\"w\" style=\"--d:{level}\">{words}</span></li>"
    )
}

fn idle(words: &str) -> String {
    format!(" <span class=\"idle\">{words}</span>")
}

/// The steps of a way.
pub fn steps(drill: &Drill, layout: &Layout, number: usize, drawn: &[usize]) -> String {
    let mut out = String::from("<ol class=\"way\">");
    if layout.whole {
        let held = match drill.holding(drill.start())[..] {
            [] => "nothing holds".into(),
            ref start => format!("<span class=\"st\">{}</span>", names(start)),
        };
        out += &item("call", "0", &line_link(drill.places.start), 0, &format!("start: {held}"));
    }
    for row in &layout.rows {
        match row {
            Row::Call { depth, action, rule, letter, others } => {
                let mark = letter.as_ref().map_or(String::new(), |letter| format!("<span class=\"tag\">{letter}</span>"));
                let deep = if *depth > MOST_INDENT { idle(&format!("(level {depth})")) } else { String::new() };
                let words = format!(
                    "{mark}{}{}{deep}",
                    esc(drill.action(*action)),
                    drill.which(*action, *rule).map_or(String::new(), |(place, of)| idle(&format!("way {place} of {of}")))
                );
                let level = (*depth).min(MOST_INDENT);
                out += &item("call", "", &line_link(drill.line(*rule)), level, &words);
                out += &other_rules(drill, others, (number, drawn), level);
            }
            Row::Step { depth, action, rule, word, at, changed } => {
                let after = after_words(*word, *changed);
                let after = if after.is_empty() { String::new() } else { idle(after) };
                let words =
                    format!("{}: <span class=\"st\">{}</span>{after}", esc(drill.action(*action)), esc(&step_text(drill, *word)));
                let state = at.map_or(String::new(), |at| at.to_string());
                let class = if Step::of(*word).is_update() { "" } else { "asks" };
                out += &item(class, &state, &line_link(drill.line(*rule)), (*depth).min(MOST_INDENT) + 1, &words);
            }
        }
    }
    out += "</ol>";
    if layout.row_count > layout.rows.len() {
        let left = count(layout.row_count - layout.rows.len(), "more line");
        out += &format!(
            "<p class=\"soft\">{left} not listed here: <code>lawhemuri path {} {number} --all</code> prints them.</p>",
            esc(&drill.file)
        );
    }
    out
}

/// The other rules of a call: those that could have been taken, those shut by a choice above, those that a step stops.
fn other_rules(drill: &Drill, others: &[Other], shown: (usize, &[usize]), level: usize) -> String {
    let (mut open, mut shut, mut closed): (Vec<(&Leads, Vec<String>)>, _, _) = (Vec::new(), Vec::new(), Vec::new());
    for other in others {
        let link = line_link(drill.line(other.rule));
        match &other.leads {
            Leads::Stopped(place) => {
                let word = drill.tables().body(other.rule)[*place];
                closed.push(format!("{link} (<span class=\"st\">{}</span> {})", esc(&step_text(drill, word)), stops_since(word)));
            }
            Leads::Shut => shut.push(link),
            leads => match open.iter_mut().find(|(known, _)| *known == leads) {
                Some((_, links)) => links.push(link),
                None => open.push((leads, vec![link])),
            },
        }
    }
    let mut out = String::new();
    for (leads, links) in open {
        let words = format!("<span class=\"or\">or by {}: {}</span>", links.join(", "), leads_to(drill, leads, shown));
        out += &item("alt", "", "", level, &words);
    }
    for (word, links) in [("shut later", shut), ("closed", closed)] {
        if !links.is_empty() {
            out += &item("alt shut", "", "", level, &format!("{word}: {}", links.join(", ")));
        }
    }
    out
}

/// The ends that another rule can lead to, with links to the ways that are drawn.
fn leads_to(drill: &Drill, leads: &Leads, (number, drawn): (usize, &[usize])) -> String {
    let Leads::Ends(ends) = leads else { return "can be finished too".into() };
    let all = drill.ends().len();
    if ends.len() == all && all > 2 {
        return format!("can lead to each of the {} ends", grouped(all));
    }
    let name = |&end: &usize| match end {
        end if end == number => "this end".to_string(),
        end if drawn.contains(&end) => end_link(end),
        end => format!("end {end}"),
    };
    let named: Vec<String> = ends.iter().take(MOST_LED_TO).map(name).collect();
    let more = ends.len().saturating_sub(MOST_LED_TO);
    let more = if more > 0 { format!(" and {} more", grouped(more)) } else { String::new() };
    format!("can lead to {}{more}", named.join(", "))
}

/// What the marks of the list mean.
pub fn legend(layout: &Layout) -> String {
    let mut out = String::from("<ul class=\"legend\"><li><code>?</code> goes on only if it holds</li>");
    let denies = layout.rows.iter().any(|row| matches!(row, Row::Step { word, .. } if Step::of(*word).kind == Kind::Deny));
    if denies {
        out += "<li><code>~</code> goes on only if it does not hold</li>";
    }
    out += "<li><code>+</code> from now on it holds</li><li><code>−</code> from now on it does not</li>\
            <li><b class=\"k\">1</b> the state come to</li>";
    if !layout.choices.is_empty() {
        out += "<li><span class=\"tag\">A</span>choice: another rule can be taken</li>";
    }
    if layout.closed {
        out += "<li class=\"ns\">closed: a step of that rule stops here</li>";
    }
    if layout.shut {
        out += "<li class=\"ns\">shut later: can be done, but the steps still to do then cannot</li>";
    }
    out + "</ul>"
}

/// Calls without an answer that are listed.
const MOST_UNANSWERED: usize = 60;

/// Where a procedure without an end stops: the calls without an answer, and the step that stops each of their rules.
pub fn stops(drill: &Drill, calls: &[Unanswered]) -> String {
    let mut out = String::from("<ol class=\"way\">");
    for call in calls.iter().take(MOST_UNANSWERED) {
        let holding = drill.holding_words(call.state);
        out +=
            &item("call", "", "", 0, &format!("{}{}", esc(drill.action(call.action)), idle(&format!("where {}", esc(&holding)))));
        if call.stops.is_empty() {
            out += &item("", "", "", 1, "has no rule");
        }
        for &(rule, place) in &call.stops {
            let word = drill.tables().body(rule)[place];
            let step = esc(&step_text(drill, word));
            let why = format!("{}{}", stops_since(word), calls_itself(word, call.action));
            out += &item("", "", &line_link(drill.line(rule)), 1, &format!("stops at <span class=\"st\">{step}</span>: {why}"));
        }
    }
    out += "</ol>";
    if calls.len() > MOST_UNANSWERED {
        out += &format!("<p class=\"soft\">{} not listed.</p>", count(calls.len() - MOST_UNANSWERED, "more call"));
    }
    out
}
