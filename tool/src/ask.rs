//! Which ends are asked for: by number, by names, with and without fluents.

use crate::drill::Drill;
use crate::failure::Failure;
use crate::near::near;
use crate::refusal::is_name;
use crate::words::{count, grouped};

/// Fluents that must hold, and fluents that must not.
#[derive(Clone, Debug, Default, PartialEq, Eq)]
pub struct Ask {
    pub with: Vec<String>,
    pub without: Vec<String>,
}

/// Ends named in a message at most.
const MOST_NAMED: usize = 20;

impl Ask {
    pub fn is_empty(&self) -> bool {
        self.with.is_empty() && self.without.is_empty()
    }

    /// What is asked, in words.
    pub fn words(&self) -> String {
        let with = self.with.iter().map(|name| format!("with {name}"));
        with.chain(self.without.iter().map(|name| format!("without {name}"))).collect::<Vec<_>>().join(", ")
    }

    /// The numbers of the ends that are so, from 1.
    pub fn ends(&self, drill: &Drill) -> Result<Vec<usize>, Failure> {
        let (with, without) = (mask(drill, &self.with)?, mask(drill, &self.without)?);
        let fits = |end: u64| end & with == with && end & without == 0;
        Ok((1..).zip(drill.ends()).filter(|(_, &end)| fits(end)).map(|(number, _)| number).collect())
    }
}

/// The set of some fluents.
fn mask(drill: &Drill, names: &[String]) -> Result<u64, Failure> {
    names.iter().try_fold(0, |mask, name| Ok(mask | 1 << fluent(&drill.file, drill.fluents(), name)?))
}

/// The number of a fluent of a sheet's file.
pub fn fluent(file: &str, known: &[String], name: &str) -> Result<usize, Failure> {
    known.iter().position(|known| known == name).ok_or_else(|| {
        let meant =
            near(name, known.iter().map(String::as_str)).map_or(String::new(), |near| format!("; did you mean `{near}`?"));
        let fault = if is_name(name) { format!("{file} has no fluent `{name}`") } else { format!("`{name}` is no name") };
        Failure::Use(fault + &meant)
    })
}

/// The one end that a word names: its number, or names parted by commas that hold in it.
pub fn one_end(drill: &Drill, word: &str) -> Result<usize, Failure> {
    let ends = drill.ends();
    let has = match ends.len() {
        0 => "no end".to_string(),
        1 => "end 1 alone".to_string(),
        n => format!("ends 1 to {}", grouped(n)),
    };
    if word.chars().all(|c| c.is_ascii_digit()) {
        let number = word.parse().ok().filter(|number| (1..=ends.len()).contains(number));
        return number.ok_or_else(|| Failure::Use(format!("no end {word}: {} has {has}", drill.name)));
    }
    let names: Vec<String> = word.split(',').map(String::from).collect();
    let (ask, exactly) = (Ask { with: names.clone(), without: Vec::new() }, mask(drill, &names)?);
    let fitting = ask.ends(drill)?;
    match fitting[..] {
        [] => Err(Failure::Use(format!("no end {}: {} has {has}", ask.words(), drill.name))),
        [number] => Ok(number),
        _ => fitting.iter().copied().find(|&number| ends[number - 1] == exactly).ok_or_else(|| {
            let numbers: Vec<String> = fitting.iter().take(MOST_NAMED).map(usize::to_string).collect();
            let more = if fitting.len() > MOST_NAMED { " …" } else { "" };
            Failure::Use(format!("{} {}: {}{more}", count(fitting.len(), "end"), ask.words(), numbers.join(", ")))
        }),
    }
}
