//! A trainee's record: its steps as words, what the library says of it, and, where that is no, how far it can be followed.
//!
//! A record is a text with one step or several on a line, as they stand in a sheet: `+open`, `?open`, `~lit`, `-open`, parted by
//! blanks or TABs. A line that begins with `#` says nothing.

use std::collections::BTreeSet;

use lawhemuri::unfolding::{Kind, Step};
use lawhemuri::{Question, MARK_WORDS, RULE_WORDS};

use crate::failure::Failure;
use crate::lines::{cropped, lines_of, MARKS};
use crate::near::near;
use crate::words::{count, holding_words};

/// Actions, and places of a record, that the library's table has words for.
const PLACES: usize = 64;

/// A recorded step, and the line that it stands in.
#[derive(Debug, PartialEq, Eq)]
pub struct Recorded {
    pub word: u16,
    pub text: String,
    pub line: usize,
}

/// The steps of a record over these fluents. A call, a mark that is none and an unknown name are told with their line.
pub fn steps(file: &str, text: &[u8], fluents: &[String]) -> Result<Vec<Recorded>, Failure> {
    let mut steps = Vec::new();
    for (line, written) in (1..).zip(lines_of(text)).filter(|(_, written)| !written.starts_with('#')) {
        for text in written.split_whitespace() {
            let told = |fault| Failure::Failed(format!("{file}:{line}: `{}`: {fault}", cropped(text, 0).0));
            let word = word(text, fluents).map_err(told)?;
            steps.push(Recorded { word, text: text.into(), line });
        }
    }
    Ok(steps)
}

/// The word of a step; or what is wrong with it.
fn word(text: &str, fluents: &[String]) -> Result<u16, String> {
    let mark = text.chars().next().and_then(|mark| MARKS.iter().position(|&known| known == mark));
    let Some(kind) = mark else { return Err("a step begins with ? ~ + or -, then comes the name of a fluent".into()) };
    if kind == Kind::Call as usize {
        return Err("a call is no step that is done (62): record what was done in it".into());
    }
    let name = &text[1..];
    let Some(index) = fluents.iter().position(|fluent| fluent == name) else {
        let meant =
            near(name, fluents.iter().map(String::as_str)).map_or(String::new(), |near| format!("; did you mean `{near}`?"));
        return Err(format!("the sheet has no fluent `{}`{meant}", cropped(name, 0).0));
    };
    Ok((256 * kind + index) as u16)
}

/// What is said of a record.
#[derive(Debug, PartialEq, Eq)]
pub struct Marked {
    pub yes: bool,
    /// The state that the steps leave, as far as they can run.
    pub state: u64,
    /// How many of them can run.
    pub runs: usize,
    pub followed: Followed,
}

/// How far a record can be followed.
#[derive(Debug, PartialEq, Eq)]
pub struct Followed {
    /// How many of its steps some deduction of the goal, finished or not, carries out first.
    pub steps: usize,
    /// The steps with which such deductions can go on there.
    pub next: BTreeSet<u16>,
    /// Whether one of them is finished there.
    pub finished: bool,
}

/// Has the library mark a record.
pub fn marked(question: &Question<'_>, steps: &[Recorded]) -> Result<Marked, Failure> {
    let words: Vec<u16> = steps.iter().map(|step| step.word).collect();
    let mut table = vec![0; MARK_WORDS];
    let yes = lawhemuri::mark(question, &words, &mut table).map_err(|refusal| Failure::Failed(refusal.to_string()))?;
    let (mut state, mut runs) = (question.start, 0);
    while let Some(after) = words.get(runs).and_then(|&word| Step::of(word).after(state)) {
        (state, runs) = (after, runs + 1);
    }
    let mut followed = Follower { question, words: &words[..runs], table: &table }.follow();
    let there = words[..followed.steps].iter().try_fold(question.start, |state, &word| Step::of(word).after(state));
    followed.next.retain(|&word| there.and_then(|state| Step::of(word).after(state)).is_some());
    if yes != (followed.finished && followed.steps == words.len()) {
        return Err(Failure::Internal("the record, followed, does not come to what the library says".into()));
    }
    Ok(Marked { yes, state, runs, followed })
}

/// Follows a record through the bodies that the goal comes to, by the masks of the library's table.
struct Follower<'a> {
    question: &'a Question<'a>,
    /// The steps that can run.
    words: &'a [u16],
    table: &'a [u64],
}

impl Follower<'_> {
    fn follow(&self) -> Followed {
        let mut next = vec![BTreeSet::new(); PLACES];
        let mut entered = vec![false; MARK_WORDS];
        let mut open = Vec::new();
        let (mut reached, ends) = self.walk(self.question.goal, 0, &mut next, &mut open);
        while let Some((action, place)) = open.pop() {
            if std::mem::replace(&mut entered[PLACES * action + place], true) {
                continue;
            }
            for rule in self.question.rules.chunks_exact(RULE_WORDS).filter(|rule| usize::from(rule[0]) == action) {
                reached |= self.walk(&rule[2..2 + usize::from(rule[1])], place, &mut next, &mut open).0;
            }
        }
        let steps = reached.ilog2() as usize;
        Followed { steps, next: std::mem::take(&mut next[steps]), finished: ends >> steps & 1 == 1 }
    }

    /// Walks a body from a place: all places come to on the way, and those at its end. Steps in front go to `next`, calls to `open`.
    fn walk(&self, body: &[u16], place: usize, next: &mut [BTreeSet<u16>], open: &mut Vec<(usize, usize)>) -> (u64, u64) {
        let (mut mask, mut reached) = (1u64 << place, 0);
        for &word in body {
            reached |= mask;
            let places = (0..PLACES).filter(|p| mask >> p & 1 == 1);
            let step = Step::of(word);
            mask = if step.kind == Kind::Call {
                open.extend(places.clone().map(|p| (step.index, p)));
                places.fold(0, |to, p| to | self.table[PLACES * step.index + p])
            } else {
                places.clone().for_each(|p| _ = next[p].insert(word));
                places.filter(|&p| self.words.get(p) == Some(&word)).fold(0, |to, p| to | 2 << p)
            };
        }
        (reached | mask, mask)
    }
}

/// The names of some steps, in the order of the sheet's words.
fn named(words: &BTreeSet<u16>, fluents: &[String]) -> String {
    let name = |&word: &u16| {
        let step = Step::of(word);
        format!("{}{}", MARKS[step.kind as usize], fluents[step.index])
    };
    words.iter().map(name).collect::<Vec<_>>().join(", ")
}

/// What is said of a record, in lines: yes or no; for no, how far it can be followed, and what stands in the way there.
pub fn said(marked: &Marked, steps: &[Recorded], fluents: &[String]) -> String {
    let all = count(steps.len(), "step");
    if marked.yes {
        let left = holding_words(fluents, marked.state);
        return format!(
            "yes\t{all}\n  these steps, in this order and no others, are a way through the goal; it leaves: {left}\n"
        );
    }
    let followed = &marked.followed;
    let mut out = format!("no\tfollowed through {} of {all}\n", followed.steps);
    let mut goes_on: Vec<String> = Vec::new();
    if followed.finished {
        goes_on.push("is finished".into());
    }
    if !followed.next.is_empty() {
        goes_on.push(format!("goes on with {}", named(&followed.next, fluents)));
    }
    let procedure = if goes_on.is_empty() { "cannot go on".into() } else { goes_on.join(", or ") };
    match steps.get(followed.steps) {
        None => out += &format!("  the record ends there: the procedure {procedure}\n"),
        Some(step) if followed.steps == marked.runs => {
            let holds = if Step::of(step.word).kind == Kind::Query { "does not hold" } else { "holds" };
            let fluent = &fluents[Step::of(step.word).index];
            out += &format!(
                "  step {}, {} (line {}), cannot run: {fluent} {holds} there\n",
                followed.steps + 1,
                step.text,
                step.line
            );
        }
        Some(step) => {
            out += &format!(
                "  not with step {}, {} (line {}): there the procedure {procedure}\n",
                followed.steps + 1,
                step.text,
                step.line
            );
        }
    }
    out
}

#[cfg(test)]
mod tests {
    use super::*;

    fn names() -> Vec<String> {
        vec!["a".into(), "b".into()]
    }

    /// Drill D2: g: !g ?a +b; g: +a.
    fn rules() -> Vec<u16> {
        let mut rules = vec![0; 36];
        rules[..5].copy_from_slice(&[0, 3, 768, 0, 257]);
        rules[18..21].copy_from_slice(&[0, 1, 256]);
        rules
    }

    fn of(record: &str) -> Marked {
        let rules = rules();
        let question = Question { fluents: 2, actions: 1, rules: &rules, goal: &[768], start: 0 };
        marked(&question, &steps("record", record.as_bytes(), &names()).unwrap()).unwrap()
    }

    #[test]
    fn records_followed() {
        let next = |words: &[u16]| words.iter().copied().collect::<BTreeSet<u16>>();
        assert!(of("+a").yes && of("+a ?a\n# again\n+b\t?a\r\n+b\n").yes);
        assert_eq!(of("").followed, Followed { steps: 0, next: next(&[256]), finished: false });
        assert_eq!(of("+a ?a").followed, Followed { steps: 2, next: next(&[257]), finished: false });
        assert_eq!(of("+a +b").followed, Followed { steps: 1, next: next(&[0]), finished: true });
        let stuck = of("+a ?b +b");
        assert_eq!((stuck.runs, stuck.followed.steps, stuck.state), (1, 1, 1));
    }

    #[test]
    fn faults_are_told() {
        for (record, said) in [
            ("+a\n!g\n", "record:2: `!g`: a call is no step that is done (62)"),
            ("open", "a step begins with ? ~ + or -"),
            ("+c", "the sheet has no fluent `c`"),
            ("é", "a step begins with"),
            ("+", "the sheet has no fluent ``"),
            ("\u{1b}[2J", "record:1: `␛[2J`: a step begins with"),
            ("+a\0", "record:1: `+a␀`: the sheet has no fluent `a␀`"),
            (&format!("+{}", "x".repeat(60_000)), "x …`: the sheet has no fluent `x"),
        ] {
            let Err(Failure::Failed(words)) = steps("record", record.as_bytes(), &names()) else { panic!("{record}") };
            assert!(words.contains(said), "{words}");
        }
    }
}
