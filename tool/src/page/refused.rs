//! The page of a refused sheet.

use super::head;
use super::html::{esc, ticks};
use crate::lines::{cropped, lines_of};
use crate::load::Source;
use crate::refusal::{Told, MOST_BYTES};
use crate::sha256::digest;

/// Lines shown before and after the one at fault.
const LINES_AROUND: usize = 2;

/// The page of a refused sheet: the line, the place, what to do, and nothing else.
pub fn refused(told: &Told, source: &Source) -> String {
    let place = if told.line == 0 { "the whole sheet".to_string() } else { format!("line {}", told.line) };
    let mut out = head(&format!("{}: refused", source.name), "");
    out += &format!(
        "<header><h1>{}</h1><p class=\"soft\">This sheet was refused; it has no result. That is not the same as “no end”: nothing was worked \
         out.</p></header><main class=\"err\" id=\"ends\"><h2>Refused, no. {}, {place}: {}</h2>",
        esc(&source.name),
        told.number,
        ticks(&told.title)
    );
    out += &excerpt(told, &lines_of(&source.text));
    if let Some(meant) = &told.meant {
        out += &format!("<p class=\"do\">Did you mean <code><b>{}</b></code>?</p>", esc(meant));
    }
    let more = if told.line == 0 {
        ""
    } else {
        "<p class=\"soft small\">→ stands for a TAB. Only the first fault is told; there may be more below.</p>"
    };
    out += &format!("<p class=\"do\"><b>What to do:</b> {}.</p>{more}</main>", ticks(&told.remedy));
    out + &format!(
        "<footer><p class=\"small soft\">The number comes from the proved library, and so does the line of 13 to 17; the words, the mark and the \
         advice are this program’s. Sheet <code>{}</code>{}.</p></footer></body></html>\n",
        esc(&source.file),
        fingerprint(&source.text)
    )
}

/// The digest of the sheet; none of one that is too long, since it was not read to its end.
fn fingerprint(text: &[u8]) -> String {
    if text.len() > MOST_BYTES {
        return String::new();
    }
    format!(", SHA-256 <code class=\"long\">{}</code>", digest(text))
}

/// The line at fault with its neighbours and a mark under the place.
fn excerpt(told: &Told, lines: &[String]) -> String {
    if told.line == 0 {
        return String::new();
    }
    let mut out = String::from("<pre>");
    for number in told.line.saturating_sub(LINES_AROUND).max(1)..=lines.len().min(told.line + LINES_AROUND) {
        let (column, length) = told.mark.filter(|_| number == told.line).unwrap_or((0, 0));
        let (shown, lead) = cropped(&lines[number - 1], column);
        let class = if number == told.line { "x" } else { "g" };
        out += &format!("<span class=\"{class}\">{number:4}  {}</span>\n", esc(&shown));
        if length > 0 {
            out += &format!("      {}<span class=\"c\">{} {}</span>\n", " ".repeat(lead), "▲".repeat(length), ticks(&told.note));
        }
    }
    out + "</pre>"
}
