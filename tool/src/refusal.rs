//! Refusals in words. Number and line are the library's; place, words and advice are worked out here from the sheet's text.

use std::collections::HashMap;

use lawhemuri::{read, Refusal, Unread, MOST_RECORDS, MOST_RULE_WORDS};

use crate::lines::{fields, lines_of, MARKS, WORDS};
use crate::near::near;
use crate::words::{article, grouped};

/// The most bytes of a sheet.
pub const MOST_BYTES: usize = 65_536;
/// The most steps of a body.
const MOST_STEPS: usize = 16;
/// The most fluents, and the most actions.
const MOST_NAMES: usize = 64;
/// The most rules.
const MOST_RULES: usize = 256;
/// The most characters of a name.
const MOST_NAME: usize = 16;
/// What a step may begin with, in words.
const MARKS_SAID: &str = "? ~ + - or !";

/// A refusal that is told.
#[derive(Clone, Debug, Default, PartialEq, Eq)]
pub struct Told {
    pub number: u64,
    pub title: String,
    /// The line at fault, from 1; 0 where it is no single line.
    pub line: usize,
    /// The characters at fault: the first, from 0, and how many.
    pub mark: Option<(usize, usize)>,
    /// What is said beside the mark.
    pub note: String,
    /// What to do about it.
    pub remedy: String,
    /// What was probably meant.
    pub meant: Option<String>,
}

impl Told {
    fn new(title: impl Into<String>, note: impl Into<String>, remedy: impl Into<String>) -> Told {
        Told { title: title.into(), note: note.into(), remedy: remedy.into(), ..Told::default() }
    }

    fn at(self, column: usize, length: usize) -> Told {
        Told { mark: Some((column, length.max(1))), ..self }
    }

    fn on(self, line: usize) -> Told {
        Told { line, ..self }
    }

    fn meant(self, meant: Option<String>) -> Told {
        Told { meant, ..self }
    }
}

/// The words for a refused sheet, and of one that is too long for its length, if that is known.
pub fn told(text: &[u8], length: Option<usize>, unread: Unread) -> Told {
    let lines = lines_of(text);
    let line = unread.line as usize;
    let told = match unread.refusal {
        Refusal::TooLong => too_long(length),
        Refusal::BadByte => bad_byte(text),
        Refusal::NotEnded => not_ended(&lines),
        Refusal::Incomplete => incomplete(&lines),
        _ if line == 0 || line > lines.len() => {
            Told::new(unread.refusal.meaning(), "", "see the table of refusals in the guides")
        }
        refusal => Line::of(&lines, line).fault(refusal).on(line),
    };
    Told { number: unread.refusal.number(), ..told }
}

/// The words for two accepted sheets that cannot be merged.
pub fn told_of_two(maker: &[u8], site: &[u8], refusal: Refusal) -> Told {
    let told = match refusal {
        Refusal::BothKinds => both_kinds(maker, site),
        Refusal::TooMany => {
            let title = "the two sheets together have more than 64 fluents, 64 actions or 256 rules";
            Told::new(title, "", "use the other sheet's names for what is the same, or leave out what the drill does not need")
        }
        Refusal::TooLong => {
            let remedy = "shorten names, or leave out rules that the drill does not need";
            Told::new("the text of the two sheets together has more than 65,536 bytes", "", remedy)
        }
        refusal => Told::new(refusal.meaning(), "", "see the table of refusals in the guides"),
    };
    Told { number: refusal.number(), ..told }
}

/// The names that the lines with this word define.
fn defined(text: &[u8], word: &str) -> Vec<String> {
    let lines = lines_of(text);
    let fields = lines.iter().map(|line| line.trim_end_matches('\r').split('\t').collect::<Vec<_>>());
    fields.filter(|fields| fields.len() == 2 && fields[0] == word).map(|fields| fields[1].to_string()).collect()
}

/// A name of both kinds: which, and where it is what.
fn both_kinds(maker: &[u8], site: &[u8]) -> Told {
    let remedy = "rename it in one of the two sheets";
    let shared = |of: &[u8], word: &str, other: &[u8], kind: &str| {
        let others = defined(other, kind);
        defined(of, word).into_iter().find(|name| others.contains(name))
    };
    if let Some(name) = shared(maker, "fluent", site, "action") {
        return Told::new(format!("`{name}` is a fluent of the maker's sheet and an action of the site's"), "", remedy);
    }
    match shared(maker, "action", site, "fluent") {
        Some(name) => Told::new(format!("`{name}` is an action of the maker's sheet and a fluent of the site's"), "", remedy),
        None => Told::new(Refusal::BothKinds.meaning(), "", remedy),
    }
}

/// The words for a run that no table holds.
pub fn too_large() -> Told {
    let title = format!("the procedure is too large: its run has more than {} calls or answers", grouped(MOST_RECORDS));
    let remedy = "no room helps, all there is was lent; ask less at once: a shorter goal, a start further on, fewer independent \
                  choices; leave out fluents that no step asks for and no end is to show";
    Told { number: Refusal::TablesFull.number(), ..Told::new(title, "", remedy) }
}

fn too_long(length: Option<usize>) -> Told {
    let remedy =
        format!("at most {} are read: shorten names, drop rules, or divide the procedure into two sheets", grouped(MOST_BYTES));
    let bytes = length.map_or_else(|| format!("more than {}", grouped(MOST_BYTES)), grouped);
    Told::new(format!("the sheet has {bytes} bytes"), "", remedy)
}

/// Where the first byte stands that the sheet may not have, as the library judges: the shortest beginning of the sheet that it refuses
/// for a byte. None is cut between CR and LF, where the CR alone would be refused.
fn first_bad_byte(text: &[u8]) -> usize {
    let refused = |length: usize| {
        let cut = text[length - 1] == b'\r' && text.get(length) == Some(&b'\n');
        let beginning = &text[..length + usize::from(cut)];
        matches!(read(beginning, &mut [0; MOST_RULE_WORDS]), Err(Unread { refusal: Refusal::BadByte, .. }))
    };
    let (mut good, mut bad) = (0, text.len());
    while bad - good > 1 {
        let middle = good.midpoint(bad);
        if refused(middle) {
            bad = middle;
        } else {
            good = middle;
        }
    }
    bad.max(1) - 1
}

/// The first byte that the sheet may not have: the byte, and where it stands.
fn bad_byte(text: &[u8]) -> Told {
    let at = first_bad_byte(text);
    let byte = text.get(at).copied().unwrap_or(0);
    let begin = text[..at].iter().rposition(|&b| b == b'\n').map_or(0, |lf| lf + 1);
    let line = 1 + text[..begin].iter().filter(|&&b| b == b'\n').count();
    let column = String::from_utf8_lossy(&text[begin..at]).chars().count();
    let stands = format!("byte {byte}, at place {} of the sheet", grouped(at + 1));
    let told = match byte {
        b' ' => Told::new("a space", stands, "part fields by one TAB; in a name write `_`; a comment begins with # in front"),
        b'\r' => {
            Told::new("a carriage return (CR) that no line feed follows", stands, "end each line with LF, or with CR and LF")
        }
        128.. => {
            let shown =
                String::from_utf8_lossy(&text[at..text.len().min(at + 4)]).chars().next().unwrap_or(char::REPLACEMENT_CHARACTER);
            if (at, shown) == (0, '\u{feff}') {
                Told::new("a byte order mark", stands, "save the sheet as plain text, without a byte order mark")
            } else {
                Told::new(format!("the character `{shown}`"), stands, "sheets are plain ASCII: write it with the letters a to z")
            }
        }
        0..=31 | 127 => Told::new("a control character", stands, "take it out"),
        _ => Told::new("a character that may not stand here", stands, "look at it and at the one before it"),
    };
    told.at(column, 1).on(line)
}

fn not_ended(lines: &[String]) -> Told {
    let last = lines.last().map_or(0, |line| line.chars().count());
    let told = Told::new(
        "the last line is not ended",
        "the sheet stops here, without a line feed",
        "press Enter at the end of the last line and save again",
    );
    told.at(last, 1).on(lines.len())
}

fn incomplete(lines: &[String]) -> Told {
    if lines.is_empty() {
        let remedy = "begin with `fluent` lines; a sheet needs at least one `start` and one `goal` line";
        return Told::new("the sheet is empty", "", remedy);
    }
    if lines.iter().any(|line| fields(line)[0] == "start") {
        let remedy = "add a `goal` line at the end: the steps that are rehearsed, such as `goal → !light_up`";
        return Told::new("no `goal` line", "", remedy);
    }
    let remedy = "add a `start` line before the goal; it may name nothing, then nothing holds at first";
    Told::new("no `start` line", "", remedy)
}

/// Whether a field is a name.
pub fn is_name(field: &str) -> bool {
    field.len() <= MOST_NAME
        && field.starts_with(|c: char| c.is_ascii_lowercase())
        && field.chars().all(|c| c.is_ascii_lowercase() || c.is_ascii_digit() || c == '_')
}

/// A field as a name in lowercase letters: `PilotLit` is `pilot_lit`.
fn lowered(field: &str) -> String {
    let mut out = String::new();
    for c in field.chars() {
        if c.is_ascii_uppercase() && out.ends_with(|last: char| last.is_ascii_lowercase() || last.is_ascii_digit()) {
            out.push('_');
        }
        out.push(if c.is_ascii_alphanumeric() { c.to_ascii_lowercase() } else { '_' });
    }
    out
}

/// What is wrong with a field that is no name, and what to do.
fn name_fault(field: &str) -> (String, String) {
    if field.chars().count() > MOST_NAME {
        let fault = format!("a name of {} characters", field.chars().count());
        return (fault, format!("shorten it: a name has at most {MOST_NAME}"));
    }
    let better = lowered(field);
    let first = field.chars().next().unwrap_or(' ');
    if !first.is_ascii_lowercase() {
        let remedy = "begin it with a lowercase letter".to_string()
            + &if is_name(&better) { format!(": `{better}`") } else { String::new() };
        return (format!("a name may not begin with `{first}`"), remedy);
    }
    let remedy = if is_name(&better) { format!("write `{better}`") } else { "take out the other characters".to_string() };
    ("a name has only lowercase letters, digits and `_`".to_string(), remedy)
}

/// The line at fault, with what the lines above it define.
struct Line<'a> {
    above: &'a [String],
    fields: Vec<&'a str>,
    /// The column at which each field begins.
    columns: Vec<usize>,
    /// For each name its kind and its line.
    defined: HashMap<&'a str, (&'a str, usize)>,
    /// The defined names in their order, with their kinds.
    names: Vec<(&'a str, &'a str)>,
}

impl<'a> Line<'a> {
    fn of(lines: &'a [String], line: usize) -> Line<'a> {
        let (above, fields) = (&lines[..line - 1], fields(&lines[line - 1]));
        let (mut columns, mut column) = (Vec::new(), 0);
        for field in &fields {
            columns.push(column);
            column += field.chars().count() + 1;
        }
        let (mut defined, mut names) = (HashMap::new(), Vec::new());
        for (line, number) in above.iter().zip(1..) {
            if let [kind @ ("fluent" | "action"), name] = self::fields(line)[..] {
                defined.entry(name).or_insert((kind, number));
                names.push((kind, name));
            }
        }
        Line { above, fields, columns, defined, names }
    }

    fn word(&self) -> &'a str {
        self.fields[0]
    }

    /// Marks a field.
    fn mark(&self, told: Told, field: usize) -> Told {
        told.at(self.columns[field], self.fields[field].chars().count())
    }

    fn fault(&self, refusal: Refusal) -> Told {
        match refusal {
            Refusal::BadWord => self.bad_word(),
            Refusal::TooMany => self.too_many(),
            Refusal::BadField => self.bad_field(),
            Refusal::Repeated => self.repeated(),
            Refusal::Undefined => self.undefined(),
            other => Told::new(other.meaning(), "", "see the table of refusals in the guides"),
        }
    }

    fn first_above(&self, wanted: impl Fn(&str) -> bool) -> Option<(&'a str, usize)> {
        self.above.iter().zip(1..).map(|(line, number)| (fields(line)[0], number)).find(|(word, _)| wanted(word))
    }

    fn bad_word(&self) -> Told {
        let word = self.word();
        if self.fields == [""] {
            return Told::new("a blank line", "nothing stands here", "take the line out").at(0, 1);
        }
        let Some(rank) = WORDS.iter().position(|&w| w == word) else {
            let title = if word.is_empty() { "the line begins with a TAB".into() } else { format!("`{word}` begins no line") };
            let told = Told::new(title, format!("not one of {}", WORDS.join(", ")), "begin the line with one of the five words");
            let lower = word.to_lowercase();
            let meant = WORDS.into_iter().find(|known| *known == lower).or_else(|| near(&lower, WORDS));
            return self.mark(told, 0).meant(meant.map(String::from));
        };
        if let (Some((_, first)), "start" | "goal") = (self.first_above(|w| w == word), word) {
            let remedy = format!("a sheet has one `{word}`: put both into one line, or take one out");
            return self.mark(Told::new(format!("a second `{word}` line"), format!("the first is line {first}"), remedy), 0);
        }
        let later = self.first_above(|w| WORDS[rank + 1..].contains(&w));
        let (other, line) = later.unwrap_or(("later", 0));
        let note = format!("line {line} is {} line", article(&format!("`{other}`")).replace("a `a", "an `a"));
        let remedy = format!("move it above line {line}: the order is {}", WORDS.join(", "));
        self.mark(Told::new(format!("a `{word}` line too late"), note, remedy), 0)
    }

    fn too_many(&self) -> Told {
        let word = self.word();
        if word == "fluent" || word == "action" {
            let remedy = "leave out what no end is to show, or divide the procedure into two sheets";
            let title = format!("the {}th {word}", MOST_NAMES + 1);
            return self.mark(Told::new(title, format!("{MOST_NAMES} is the most"), remedy), 0);
        }
        let head = 1 + usize::from(word == "rule");
        let steps = self.fields.len().saturating_sub(head);
        if steps > MOST_STEPS {
            let note = format!("the {}th step; {MOST_STEPS} is the most", MOST_STEPS + 1);
            let told = Told::new(
                format!("{steps} steps in one line"),
                note,
                "move the tail into an action of its own and call it with `!`",
            );
            return self.mark(told, head + MOST_STEPS);
        }
        let title = format!("the {}th rule", MOST_RULES + 1);
        self.mark(Told::new(title, format!("{MOST_RULES} is the most"), "divide the procedure into two sheets"), 0)
    }

    /// Whether a field is a step, and not a name.
    fn is_step(&self, field: usize) -> bool {
        self.word() == "goal" || (self.word() == "rule" && field > 1)
    }

    fn bad_field(&self) -> Told {
        let (word, rest) = (self.word(), self.fields.len() - 1);
        let end = word.chars().count();
        if (word == "fluent" || word == "action") && rest != 1 {
            if rest == 0 {
                let title = format!("a `{word}` line without a name");
                return Told::new(title, "a TAB and a name must follow", format!("write `{word} → some_name`")).at(end, 1);
            }
            let note = if self.fields[2].is_empty() { "an empty field: a TAB too many" } else { "a second name" };
            let title = format!("a `{word}` line with {rest} fields after the word");
            return self.mark(Told::new(title, note, format!("one name in each `{word}` line")), 2);
        }
        if word == "rule" && rest == 0 {
            let told = Told::new(
                "a `rule` line without its action",
                "a TAB and the name of an action must follow",
                "write `rule → action → steps`",
            );
            return told.at(end, 1);
        }
        let faulty = (1..self.fields.len()).find(|&field| !self.is_good(field));
        faulty.map_or_else(|| Told::new("a field that is no name or step", "", "look at each field"), |field| self.no_name(field))
    }

    /// Whether a field is a name, or a step where one belongs.
    fn is_good(&self, field: usize) -> bool {
        let text = self.fields[field];
        if self.is_step(field) {
            return text.starts_with(MARKS) && is_name(&text[1..]);
        }
        is_name(text)
    }

    fn no_name(&self, field: usize) -> Told {
        let text = self.fields[field];
        if text.is_empty() {
            let remedy = "take out the TAB: two stand side by side, or one stands at the end of the line";
            return Told::new("an empty field", "nothing stands after this TAB", remedy).at(self.columns[field] - 1, 1);
        }
        if self.is_step(field) && !text.starts_with(MARKS) {
            let remedy = match self.defined.get(text) {
                Some(("action", _)) => format!("write `!{text}` to do the action"),
                _ => format!("write {}", fluent_steps(text)),
            };
            return self
                .mark(Told::new(format!("`{text}` has no mark"), format!("a step begins with {MARKS_SAID}"), remedy), field);
        }
        if self.is_step(field) {
            let name = &text[1..];
            if name.is_empty() {
                let told = Told::new(
                    format!("`{text}` is no step"),
                    "a mark without a name",
                    "write the name after the mark, with nothing between",
                );
                return self.mark(told, field);
            }
            let (note, remedy) = name_fault(name);
            return self.mark(Told::new(format!("`{text}` is no step"), note, remedy), field);
        }
        if text.starts_with(MARKS) && is_name(&text[1..]) {
            let told = Told::new(
                format!("`{text}` is no name"),
                "a name stands here, without a mark",
                format!("write `{}`", &text[1..]),
            );
            return self.mark(told, field);
        }
        let (note, remedy) = name_fault(text);
        self.mark(Told::new(format!("`{text}` is no name"), note, remedy), field)
    }

    fn repeated(&self) -> Told {
        let word = self.word();
        if word == "start" {
            let twice = (2..self.fields.len()).find(|&k| self.fields[1..k].contains(&self.fields[k])).unwrap_or(1);
            let title = format!("`{}` stands twice in `start`", self.fields[twice]);
            return self.mark(Told::new(title, "named before in this line", "take one out"), twice);
        }
        let name = self.fields[1];
        let (kind, line) = self.defined.get(name).copied().unwrap_or(("name", 0));
        let remedy = "rename one of them, or take this line out; fluents and actions share their names";
        let note = format!("it is {} in line {line}", article(kind));
        self.mark(Told::new(format!("`{name}` is defined twice"), note, remedy), 1)
    }

    /// The mark and the name of a field.
    fn parted(&self, field: usize) -> (&'a str, &'a str) {
        self.fields[field].split_at(usize::from(self.is_step(field)))
    }

    /// The kind that a field's name must have.
    fn wanted(&self, field: usize) -> &'static str {
        let call = (self.word() == "rule" && field == 1) || self.parted(field).0 == "!";
        if call {
            "action"
        } else {
            "fluent"
        }
    }

    fn undefined(&self) -> Told {
        let known = |field: usize| self.defined.get(self.parted(field).1).map(|&(kind, _)| kind);
        let faulty = (1..self.fields.len()).find(|&field| known(field) != Some(self.wanted(field))).unwrap_or(0);
        if faulty == 0 {
            return Told::new("a name that no line above defines", "", "define it, or mend the spelling");
        }
        let ((mark, name), wanted) = (self.parted(faulty), self.wanted(faulty));
        let Some(&(kind, line)) = self.defined.get(name) else {
            let names = self.names.iter().filter(|(kind, _)| *kind == wanted).map(|&(_, name)| name);
            let meant = near(name, names).map(|name| format!("{mark}{name}"));
            let remedy = format!("mend the spelling, or add a line `{wanted} → {name}`");
            return self
                .mark(Told::new(format!("no {wanted} `{name}`"), "no line above defines it", remedy), faulty)
                .meant(meant);
        };
        let remedy = match (self.word(), mark) {
            ("start", _) => "`start` names fluents: what holds at first".to_string(),
            ("rule", "") => "a rule belongs to an action; define one, or write the rule of another action".to_string(),
            (_, "!") => format!("`!` does an action; for a fluent write {}", fluent_steps(name)),
            _ => format!("`{mark}` is for fluents; to do the action write `!{name}`"),
        };
        let title = format!("`{name}` is {}, not {}", article(kind), article(wanted));
        self.mark(Told::new(title, format!("defined in line {line} as {kind}"), remedy), faulty)
    }
}

/// The steps that a fluent can stand in.
fn fluent_steps(name: &str) -> String {
    format!("`?{name}` (ask), `~{name}` (ask that it does not hold), `+{name}` (on) or `-{name}` (off)")
}

#[cfg(test)]
mod tests {
    use super::*;

    #[test]
    fn names() {
        assert!(is_name("a") && is_name("pilot_2") && is_name(&"x".repeat(16)));
        assert!(!is_name("") && !is_name("2a") && !is_name("A") && !is_name(&"x".repeat(17)) && !is_name("a-b"));
        assert_eq!(lowered("PilotLit"), "pilot_lit");
        assert_eq!(lowered("pilot-lit"), "pilot_lit");
    }
}
