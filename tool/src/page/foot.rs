//! What a reader may believe, and by which sheet the page was drawn.

use super::html::esc;
use crate::drill::Drill;
use crate::layout::Layout;
use crate::sha256::digest;
use crate::words::grouped;

/// What the ways shown carry out.
fn carried_out(ways: &[(usize, Layout)]) -> &'static str {
    if ways.iter().all(|(_, layout)| layout.whole) {
        "the goal"
    } else {
        "the goal, or of the action whose part of a way is shown"
    }
}

/// What is proved, and what is not.
pub fn foot(drill: &Drill, ways: &[(usize, Layout)]) -> String {
    let (states, held) = match ways.len() {
        0 => (String::new(), String::new()),
        n => (
            format!("<li>The states of each way shown are those of one complete carrying-out of {}, as the rules say.</li>", carried_out(ways)),
            format!(
                " Replayed, the steps shown give exactly the states that the library lists, for {}; were it not so, there would be no page.",
                if n == 1 { "the one way".to_string() } else { format!("all {} ways", grouped(n)) }
            ),
        ),
    };
    let text = drill.rehearsal.text();
    format!(
        "<footer><h2 id=\"proof\">What is proved, and what is not</h2><div class=\"two\"><div><h3>Proved</h3><ul>\
         <li>The list of ends is whole: every state in which the goal can end is in it, and none other. It is so for every accepted sheet.</li>\
         <li>The calls and answers counted are exactly those of the run; each answer is justified by its rule and earlier answers.</li>{states}</ul>\
         <p class=\"small soft\">Proved in Rattle of the library that worked them out (Lawhemuri {}), against the inference system of \
         serial-Horn Transaction Logic. What that rests on (the compiler’s back end, the machine) is told in its README.</p></div>\
         <div><h3>Not proved</h3><ul><li>This page. An ordinary program drew it: tables, charts, names of actions, line numbers and choices are \
         drawing.{held}</li><li>That the sheet is right. If a rule of the plant is not in the sheet, its ends are not here.</li>\
         <li>That a trainee does the steps so, or how likely an end is. Every end here is possible under the rules; one way to each is shown.</li>\
         </ul></div></div><p class=\"small soft\">Sheet <code>{}</code>, {} bytes, SHA-256 <code class=\"long\">{}</code>. To compare: \
         <code>lawhemuri check {}</code>.</p></footer>",
        env!("CARGO_PKG_VERSION"),
        esc(&drill.file),
        grouped(text.len()),
        digest(text),
        esc(&drill.file)
    )
}
