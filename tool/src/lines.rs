//! The sheet as text: its lines, its fields, and where each name and rule stands.

use std::collections::HashMap;

/// The words that begin a line, in the order in which they come.
pub const WORDS: [&str; 5] = ["fluent", "action", "rule", "start", "goal"];
/// The marks of steps, by kind.
pub const MARKS: [char; 5] = ['?', '+', '-', '!', '~'];
/// Characters of a line shown at most.
const LINE_WIDTH: usize = 86;
/// What shows a TAB.
pub const TAB_SHOWN: &str = " → ";

/// The lines of a sheet, without their line feeds; bytes that are no UTF-8 are shown as such.
pub fn lines_of(text: &[u8]) -> Vec<String> {
    let mut lines: Vec<String> = text.split(|&b| b == b'\n').map(|line| String::from_utf8_lossy(line).into_owned()).collect();
    if lines.last().is_some_and(String::is_empty) {
        lines.pop();
    }
    lines
}

/// The fields of a line.
pub fn fields(line: &str) -> Vec<&str> {
    line.trim_end_matches('\r').split('\t').collect()
}

/// Where the parts of an accepted sheet stand; lines are counted from 1.
#[derive(Debug, Default, PartialEq, Eq)]
pub struct Places {
    pub actions: Vec<String>,
    /// The line of each rule.
    pub rules: Vec<usize>,
    pub start: usize,
    pub goal: usize,
    /// The line that defines each name.
    pub names: HashMap<String, usize>,
}

impl Places {
    /// Takes the lines of an accepted sheet apart.
    pub fn of(lines: &[String]) -> Places {
        let mut places = Places::default();
        for (line, number) in lines.iter().zip(1..) {
            let fields = fields(line);
            let name = fields.get(1).unwrap_or(&"").to_string();
            match fields[0] {
                "fluent" => drop(places.names.insert(name, number)),
                "action" => {
                    places.names.insert(name.clone(), number);
                    places.actions.push(name);
                }
                "rule" => places.rules.push(number),
                "start" => places.start = number,
                "goal" => places.goal = number,
                _ => {}
            }
        }
        places
    }
}

/// A character that is seen: the picture of a control character, which else might do something to the terminal.
fn visible(c: char) -> char {
    match c {
        '\0'..='\u{1f}' => char::from_u32(0x2400 + c as u32).unwrap_or(char::REPLACEMENT_CHARACTER),
        '\u{7f}' => '␡',
        '\u{80}'..='\u{9f}' | '\u{feff}' => char::REPLACEMENT_CHARACTER,
        c => c,
    }
}

/// A line with its tabs shown, cut round a column; and where that column then stands (of a TAB, its arrow).
pub fn cropped(line: &str, column: usize) -> (String, usize) {
    cut(line, column, LINE_WIDTH)
}

fn cut(line: &str, column: usize, width: usize) -> (String, usize) {
    let tab = TAB_SHOWN.chars().count();
    let mut lead: usize = line.chars().take(column).map(|c| if c == '\t' { tab } else { 1 }).sum();
    lead += usize::from(line.chars().nth(column) == Some('\t'));
    let mut shown: Vec<char> = line.replace('\t', TAB_SHOWN).chars().map(visible).collect();
    if lead > width - width / 4 {
        let cut = lead - width / 2;
        shown = "… ".chars().chain(shown.into_iter().skip(cut)).collect();
        lead = lead - cut + 2;
    }
    if shown.len() > width {
        shown.truncate(width - 2);
        shown.extend(" …".chars());
    }
    (shown.into_iter().collect::<String>().trim_end().to_string(), lead)
}

#[cfg(test)]
mod tests {
    use super::*;

    #[test]
    fn places_of_the_parts() {
        let lines = lines_of(b"fluent\ta\naction\tg\nrule\tg\t+a\nrule\tg\nstart\ngoal\t!g\n");
        let places = Places::of(&lines);
        assert_eq!((places.actions, places.rules, places.start, places.goal), (vec!["g".to_string()], vec![3, 4], 5, 6));
        assert_eq!(places.names["g"], 2);
    }

    #[test]
    fn long_lines_are_cut_round_the_column() {
        let line = format!("rule\t{}", "x".repeat(100));
        let (shown, lead) = cut(&line, 60, 40);
        assert!(shown.starts_with("… ") && shown.ends_with(" …") && shown.chars().count() == 40);
        assert_eq!(lead, 22);
        assert_eq!(cropped("goal\t!g\t", 4), ("goal → !g →".to_string(), 5));
        assert_eq!(cropped("a\u{1b}[2Jb\r", 1), ("a␛[2Jb␍".to_string(), 1));
    }
}
