//! The command line: commands, their options, and what each does in a line.

use crate::failure::Failure;
use crate::near::near;

/// An option of a command.
struct Flag {
    name: &'static str,
    /// What stands after it, if anything does.
    takes: Option<&'static str>,
    says: &'static str,
}

/// A command. A further one is a row of `COMMANDS` and an arm in `main`.
struct Usage {
    name: &'static str,
    operands: &'static str,
    most_operands: usize,
    says: &'static str,
    flags: &'static [Flag],
}

const WITH: Flag = Flag { name: "--with", takes: Some("NAME"), says: "only ends in which NAME holds (may be given again)" };
const WITHOUT: Flag = Flag { name: "--without", takes: Some("NAME"), says: "only ends in which it does not" };

const COMMANDS: [Usage; 10] = [
    Usage {
        name: "ends",
        operands: "SHEET",
        most_operands: 1,
        says: "every end, in lines of fields parted by TABs",
        flags: &[Flag { name: "--json", takes: None, says: "as JSON" }, WITH, WITHOUT],
    },
    Usage {
        name: "check",
        operands: "SHEET",
        most_operands: 1,
        says: "is the sheet accepted, where is it at fault, and what should its author look at",
        flags: &[],
    },
    Usage {
        name: "path",
        operands: "SHEET [END]",
        most_operands: 2,
        says: "how an end is come to, by valve and step by step; without END, each end",
        flags: &[
            WITH,
            WITHOUT,
            Flag { name: "--most", takes: Some("N"), says: "so many ends at most (16 unless said)" },
            Flag { name: "--all", takes: None, says: "all states and steps of a long way" },
        ],
    },
    Usage {
        name: "page",
        operands: "SHEET",
        most_operands: 1,
        says: "one page for the class, to show or to print: ends, ways, charts, steps",
        flags: &[
            Flag {
                name: "-o",
                takes: Some("FILE"),
                says: "where to write it (SHEET's name with .html unless said; - is standard output)",
            },
            Flag { name: "--ends", takes: Some("LIST"), says: "draw the ways to these ends alone: 3 or 3,17" },
            Flag {
                name: "--most",
                takes: Some("N"),
                says: "draw so many ways at most (64, of more than 256 ends 16, unless said)",
            },
            WITH,
            WITHOUT,
        ],
    },
    Usage {
        name: "write",
        operands: "SHEET",
        most_operands: 1,
        says: "the sheet as its one fixed text: no comments, plain line ends, start in the order of the fluents",
        flags: &[Flag { name: "-o", takes: Some("FILE"), says: "where to write it (standard output unless said)" }],
    },
    Usage {
        name: "merge",
        operands: "MAKER SITE",
        most_operands: 2,
        says: "two sheets as one: the maker's names, rules and start, what the site's sheet adds to them, and the maker's goal",
        flags: &[Flag { name: "-o", takes: Some("FILE"), says: "where to write it (standard output unless said)" }],
    },
    Usage {
        name: "archive",
        operands: "SHEET [END]",
        most_operands: 2,
        says: "the states on the way to an end, kept by valve: for each 64 states one word per fluent",
        flags: &[],
    },
    Usage {
        name: "class",
        operands: "SHEET STARTS",
        most_operands: 2,
        says: "the goal from many starts in one go: a table with a row for each",
        flags: &[
            Flag { name: "--ends", takes: None, says: "with the ends of each start" },
            Flag { name: "--json", takes: None, says: "as JSON, with the ends" },
        ],
    },
    Usage {
        name: "report",
        operands: "SHEET STARTS",
        most_operands: 2,
        says: "figures over a class: the share of ends in which each fluent holds, and two means, as exact fractions",
        flags: &[Flag { name: "--json", takes: None, says: "as JSON: each a numerator and a denominator" }],
    },
    Usage {
        name: "mark",
        operands: "SHEET RECORD",
        most_operands: 2,
        says: "are the recorded steps a way through the goal; where not, how far they can be followed",
        flags: &[],
    },
];

const GENERAL: [Flag; 2] = [
    Flag { name: "--help", takes: None, says: "this text; after a command, its options" },
    Flag { name: "--version", takes: None, says: "the version" },
];

/// What was given: a command, its operands, its options with their values.
#[derive(Debug, PartialEq, Eq)]
pub struct Given {
    pub command: &'static str,
    pub operands: Vec<String>,
    options: Vec<(&'static str, String)>,
}

/// What is asked for.
#[derive(Debug, PartialEq, Eq)]
pub enum Asked {
    Command(Given),
    /// A text for standard output.
    Text(String),
}

impl Given {
    pub fn has(&self, name: &str) -> bool {
        self.options.iter().any(|(given, _)| *given == name)
    }

    /// All values of an option.
    pub fn all(&self, name: &str) -> Vec<String> {
        self.options.iter().filter(|(given, _)| *given == name).map(|(_, value)| value.clone()).collect()
    }

    /// The last value of an option.
    pub fn last(&self, name: &str) -> Option<&str> {
        self.options.iter().rev().find(|(given, _)| *given == name).map(|(_, value)| value.as_str())
    }

    /// The number given with an option.
    pub fn number(&self, name: &str) -> Result<Option<usize>, Failure> {
        let wrong = |text: &str| Failure::Use(format!("{name} takes a number from 1 on, and not `{text}`"));
        self.last(name).map(|text| text.parse().ok().filter(|&n| n > 0).ok_or_else(|| wrong(text))).transpose()
    }
}

/// The version of the tool and that of the library in it, as `--version` prints them.
pub fn version() -> String {
    let library = lawhemuri::version();
    format!("lawhemuri {} (library {}.{}.{})\n", env!("CARGO_PKG_VERSION"), library / 10_000, library / 100 % 100, library % 100)
}

/// The text of `--help`.
pub fn help() -> String {
    let mut out = String::from("lawhemuri: how a written procedure can end, and how each end is come to\n\n");
    for usage in &COMMANDS {
        out += &format!("  {:<30} {}\n", format!("lawhemuri {} {}", usage.name, usage.operands), usage.says);
    }
    out += "\n";
    GENERAL.iter().for_each(|flag| out += &flag.line());
    out + "\nSHEET is a file, - for standard input, or the name of a sheet in the folder that LAWHEMURI_SHEETS names;\n\
           where it is not set, of a sheet that is installed with the program.\n\
           RECORD is a file of steps that were done, or - for standard input: +open ?open ~lit -open, on one line or several.\n\
           END is the number of an end, or names that hold in it: 3, or pilot_valve, or pilot_valve,locked_out.\n\
           STARTS is a file, - for standard input, with a line for each start: `start` and the names that hold, or\n\
           somebody's name and a colon, and the names that hold.\n\
           Results go to standard output; refusals, errors and progress to standard error.\n\
           Exit status: 0 a result (also where there is no end), 1 refused or failed, 2 wrong use, 3 an internal error.\n"
}

impl Flag {
    fn line(&self) -> String {
        format!("  {:<16} {}\n", format!("{} {}", self.name, self.takes.unwrap_or("")).trim_end(), self.says)
    }
}

impl Usage {
    fn help(&self) -> String {
        let options = if self.flags.is_empty() { "" } else { " [OPTIONS]" };
        let mut out = format!("lawhemuri {} {}{options}: {}\n\n", self.name, self.operands, self.says);
        self.flags.iter().chain(&GENERAL).for_each(|flag| out += &flag.line());
        out
    }
}

fn meant(word: &str, known: impl IntoIterator<Item = &'static str>) -> String {
    near(word, known).map_or(String::new(), |near| format!("; did you mean `{near}`?"))
}

/// Takes the words of the command line apart.
pub fn parse(words: Vec<String>) -> Result<Asked, Failure> {
    let mut words = words.into_iter();
    let Some(first) = words.next() else { return Err(Failure::Use(format!("a command is missing\n\n{}", help()))) };
    match first.as_str() {
        "--help" | "-h" | "help" => return Ok(Asked::Text(help())),
        "--version" => return Ok(Asked::Text(version())),
        _ => {}
    }
    let Some(usage) = COMMANDS.iter().find(|usage| usage.name == first) else {
        let meant = meant(&first, COMMANDS.iter().map(|usage| usage.name));
        return Err(Failure::Use(format!("no command `{first}`{meant}\n\n{}", help())));
    };
    usage.parse(words)
}

impl Usage {
    fn parse(&self, mut words: impl Iterator<Item = String>) -> Result<Asked, Failure> {
        let mut given = Given { command: self.name, operands: Vec::new(), options: Vec::new() };
        while let Some(word) = words.next() {
            match word.as_str() {
                "--help" | "-h" => return Ok(Asked::Text(self.help())),
                "--version" => return Ok(Asked::Text(version())),
                "-" => given.operands.push(word),
                option if option.starts_with('-') => given.options.push(self.option(option, &mut words)?),
                _ => given.operands.push(word),
            }
        }
        if given.operands.is_empty() {
            return Err(Failure::Use(format!("{} needs a sheet: lawhemuri {} {}", self.name, self.name, self.operands)));
        }
        if let Some(extra) = given.operands.get(self.most_operands) {
            let wants = format!("lawhemuri {} {}", self.name, self.operands);
            return Err(Failure::Use(format!("`{extra}` is one word too many: {wants}")));
        }
        Ok(Asked::Command(given))
    }

    /// An option with its value, which may follow it or stand after `=`.
    fn option(&self, word: &str, words: &mut impl Iterator<Item = String>) -> Result<(&'static str, String), Failure> {
        let (name, joined) = word.split_once('=').map_or((word, None), |(name, value)| (name, Some(value.to_string())));
        let Some(flag) = self.flags.iter().find(|flag| flag.name == name) else {
            let meant = meant(name, self.flags.iter().chain(&GENERAL).map(|flag| flag.name));
            return Err(Failure::Use(format!("{} has no option `{name}`{meant}", self.name)));
        };
        match (flag.takes, joined) {
            (None, None) => Ok((flag.name, String::new())),
            (None, Some(_)) => Err(Failure::Use(format!("{name} takes no value"))),
            (Some(_), Some(value)) => Ok((flag.name, value)),
            (Some(what), None) => {
                words.next().map(|value| (flag.name, value)).ok_or_else(|| Failure::Use(format!("{name} needs {what} after it")))
            }
        }
    }
}

#[cfg(test)]
mod tests {
    use super::*;

    fn words(line: &str) -> Result<Asked, Failure> {
        parse(line.split_whitespace().map(String::from).collect())
    }

    #[test]
    fn options_and_operands() {
        let Ok(Asked::Command(given)) = words("path a.sheet 3 --with x --with=y --all") else { panic!() };
        assert_eq!(
            (given.command, given.operands.len(), given.all("--with")),
            ("path", 2, vec!["x".to_string(), "y".to_string()])
        );
        assert!(given.has("--all") && !given.has("--most"));
    }

    #[test]
    fn wrong_use_is_told() {
        let cases =
            [("", "a command is missing"), ("end x", "did you mean `ends`"), ("ends", "needs a sheet"), ("ends a b", "too many")];
        let more = [
            ("ends a --wiht x", "did you mean `--with`"),
            ("ends a --with", "needs NAME"),
            ("ends a --json=1", "takes no value"),
        ];
        for (line, said) in cases.into_iter().chain(more) {
            let Err(Failure::Use(words)) = words(line) else { panic!("{line}") };
            assert!(words.contains(said), "{line}: {words}");
        }
    }
}
