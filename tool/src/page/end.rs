//! One end: what holds in it, and one way to it, by valve and step by step.

use super::chart::{chart, parts};
use super::html::{esc, names};
use super::{scroll, steps};
use crate::drill::{Drill, Spread};
use crate::layout::Layout;
use crate::words::{count, grouped};

/// The part of the page about one end. `drawn` are the ends whose ways are on the page.
pub fn end(drill: &Drill, spread: &Spread, (number, drawn): (usize, &[usize]), layout: &Layout) -> String {
    let end = drill.ends()[number - 1];
    let only = drill.only(end).map_or(String::new(), |only| format!(" <span class=\"by\">{}</span>", esc(&only)));
    let mut out =
        format!("<section class=\"end\" id=\"end{number}\"><h2>End {number}{only} <span class=\"num\">state {end}</span></h2>");
    out += &holds(drill, end);
    let states = layout.states.len();
    let part = if layout.whole { "" } else { "a part of a way that is too long to be shown, " };
    out += &format!("<h3>By valve: {part}{}</h3>", count(states, "state"));
    out += &valves(drill, spread, number, layout);
    out += &format!("<h3>Step by step</h3>{}{}", steps::legend(layout), steps::steps(drill, layout, number, drawn));
    let others = if layout.again { "Other ways lead to this end too." } else { "Other orders or ways may lead to this end too." };
    let shown = if layout.whole { "One way is shown." } else { "A part of one way is shown." };
    out + &format!("<p class=\"soft small\">{shown} {others}</p></section>")
}

/// The fluents that hold; those that hold in this end alone are framed.
fn holds(drill: &Drill, end: u64) -> String {
    let others = drill.ends().iter().filter(|&&other| other != end).fold(0, |any, other| any | other);
    let alone = if drill.ends().len() > 1 { end & !others } else { 0 };
    let pill = |(k, name): (usize, &String)| {
        let class = if alone >> k & 1 == 1 { "pill only" } else { "pill" };
        format!("<span class=\"{class}\">{}</span> ", esc(name))
    };
    let pills: String = drill.fluents().iter().enumerate().filter(|(k, _)| end >> k & 1 == 1).map(pill).collect();
    let framed = if alone == 0 { "" } else { "<span class=\"soft small\">(framed: in this end alone)</span>" };
    format!("<p class=\"holds\">Holds: {}{framed}</p>", if pills.is_empty() { "<b>nothing</b>".into() } else { pills })
}

/// The charts of a way, and what does not change on it.
fn valves(drill: &Drill, spread: &Spread, number: usize, layout: &Layout) -> String {
    let states = &layout.states;
    let touched = layout.touched(0, states.len());
    if touched.is_empty() {
        return "<p>No step on the way changes anything.</p>".into();
    }
    let (parts, left) = parts(states.len());
    let mut out = String::new();
    if parts.len() > 1 {
        out += "<p class=\"soft small\">In parts, each with the fluents that its steps name.</p>";
    }
    for (i, &part) in parts.iter().enumerate() {
        if left > 0 && i + 1 == parts.len() {
            out += &format!("<p class=\"soft\">⋮ {} not drawn ⋮</p>", count(left, "state"));
        }
        let drawn = chart(drill, layout, &spread.differ, part, &format!("Timing chart of end {number}"));
        out += &scroll(&drawn, "chart");
    }
    let idle = layout.updates.iter().filter(|update| !update.changed).count();
    if idle > 0 {
        let steps = if idle == 1 {
            "one step that changes nothing".into()
        } else {
            format!("{} steps that change nothing", grouped(idle))
        };
        out += &format!("<p class=\"soft small\">In brackets and with a tick: {steps}.</p>");
    }
    let still = |holds: bool| -> Vec<usize> {
        let last = states[states.len() - 1];
        (0..drill.fluents().len()).filter(|k| !touched.contains(k) && (last >> k & 1 == 1) == holds).collect()
    };
    let said = |word: &str, list: Vec<usize>| {
        if list.is_empty() {
            String::new()
        } else {
            format!(" {word}: {}.", names(&drill.named(&list)))
        }
    };
    let said = said("Holds", still(true)) + &said("Does not", still(false));
    if !said.is_empty() {
        out += &format!("<p class=\"soft small names\">Named by no step of this way.{said}</p>");
    }
    out
}
