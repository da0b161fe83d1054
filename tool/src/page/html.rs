//! Text and drawings as parts of a page.

use std::fmt::Write;

/// Text with the characters of markup written out.
pub fn esc(text: &str) -> String {
    let mut out = String::with_capacity(text.len());
    for c in text.chars() {
        match c {
            '&' => out += "&amp;",
            '<' => out += "&lt;",
            '>' => out += "&gt;",
            '"' => out += "&quot;",
            c => out.push(c),
        }
    }
    out
}

/// Text in which what stands between backticks is code.
pub fn ticks(text: &str) -> String {
    let parts = text.split('`').enumerate();
    parts.map(|(i, part)| if i % 2 == 1 { format!("<code>{}</code>", esc(part)) } else { esc(part) }).collect()
}

/// Names parted by commas, none of them broken over lines.
pub fn names(list: &[&str]) -> String {
    list.iter().map(|name| format!("<span>{}</span>", esc(name))).collect::<Vec<_>>().join(", ")
}

/// A link into the listing of the sheet.
pub fn line_link(line: usize) -> String {
    format!("<a href=\"#L{line}\">line {line}</a>")
}

/// A link to the way to an end.
pub fn end_link(number: usize) -> String {
    format!("<a href=\"#end{number}\">end {number}</a>")
}

/// A drawing under way. Units are those of its view box, 16 to a rem.
pub struct Svg {
    out: String,
}

/// Units of a view box to one rem of the page.
const UNITS: f64 = 16.0;

impl Svg {
    pub fn new(width: f64, height: f64, label: &str) -> Svg {
        let out = format!(
            "<svg class=\"time\" style=\"width:{:.2}rem\" viewBox=\"0 0 {width:.0} {height:.0}\" role=\"img\" aria-label=\"{}\">",
            width / UNITS,
            esc(label)
        );
        Svg { out }
    }

    pub fn rect(&mut self, class: &str, (x, y): (f64, f64), (width, height): (f64, f64)) {
        let _ =
            write!(self.out, "<rect class=\"{class}\" x=\"{x:.1}\" y=\"{y:.1}\" width=\"{width:.1}\" height=\"{height:.1}\"/>");
    }

    pub fn path(&mut self, class: &str, shape: &str) {
        let _ = write!(self.out, "<path class=\"{class}\" d=\"{shape}\"/>");
    }

    pub fn circle(&mut self, class: &str, (x, y): (f64, f64), radius: f64) {
        let _ = write!(self.out, "<circle class=\"{class}\" cx=\"{x:.1}\" cy=\"{y:.1}\" r=\"{radius}\"/>");
    }

    pub fn text(&mut self, class: &str, (x, y): (f64, f64), text: &str) {
        let _ = write!(self.out, "<text class=\"{class}\" x=\"{x:.1}\" y=\"{y:.1}\">{}</text>", esc(text));
    }

    /// Text that is read from the top down.
    pub fn text_down(&mut self, class: &str, (x, y): (f64, f64), text: &str) {
        let text = esc(text);
        let _ = write!(self.out, "<text class=\"{class}\" transform=\"translate({x:.1} {y:.1}) rotate(90)\">{text}</text>");
    }

    /// A group with a name that a reader or a pointer is given.
    pub fn group(&mut self, open: &str, title: &str) {
        let title = if title.is_empty() { String::new() } else { format!("<title>{}</title>", esc(title)) };
        let _ = write!(self.out, "<g{open}>{title}");
    }

    pub fn group_end(&mut self) {
        self.out += "</g>";
    }

    pub fn link(&mut self, href: &str) {
        let _ = write!(self.out, "<a href=\"{href}\">");
    }

    pub fn link_end(&mut self) {
        self.out += "</a>";
    }

    pub fn done(self) -> String {
        self.out + "</svg>"
    }
}

#[cfg(test)]
mod tests {
    use super::*;

    #[test]
    fn markup_is_written_out() {
        assert_eq!(esc("a<b & \"c\">"), "a&lt;b &amp; &quot;c&quot;&gt;");
        assert_eq!(ticks("write `<a>` here"), "write <code>&lt;a&gt;</code> here");
    }
}
