//! `lawhemuri`: for instructors and authors of rehearsal sheets. The proved library judges; this program lends it memory, keeps
//! names and lines, and draws.

mod args;
mod ask;
mod choices;
mod class;
mod drill;
mod failure;
mod layout;
mod lines;
mod load;
mod marking;
mod near;
mod notes;
mod page;
mod progress;
mod refusal;
mod report;
mod sha256;
mod sheet;
mod terminal;
mod valve;
mod words;

use std::collections::BTreeSet;
use std::io::{self, Write};
use std::path::Path;
use std::process::ExitCode;

use args::{Asked, Given};
use ask::{one_end, Ask};
use choices::Answers;
use drill::Drill;
use failure::{say, Failure};
use lawhemuri::{Unmerged, Unread, Way};
use layout::{Layout, MOST_ROWS};
use load::{Source, Undrilled};
use progress::Progress;
use refusal::Told;
use sheet::Sheet;
use valve::ByValve;
use words::{count, grouped};

/// Bytes that a sheet may have, and so a text.
const MOST_BYTES: usize = 65536;
/// Ways that `path` shows unless it is told how many.
const MOST_WAYS: usize = 16;
/// Ways that `page` draws unless it is told how many; and where there are more ends than stand in one table.
const MOST_DRAWN: usize = 64;
const FEW_DRAWN: usize = 16;

fn main() -> ExitCode {
    failure::tell_panics();
    let work = || {
        let words = std::env::args_os().skip(1).map(|word| word.to_string_lossy().into_owned()).collect();
        match args::parse(words)? {
            Asked::Text(text) => print(&text),
            Asked::Command(given) => run(&given),
        }
    };
    failure::guarded(work).map_or_else(Failure::told, |()| ExitCode::SUCCESS)
}

fn run(given: &Given) -> Result<(), Failure> {
    if ["class", "report"].contains(&given.command) && given.operands.iter().filter(|operand| *operand == "-").count() == 2 {
        return Err(Failure::Use("the sheet and the starts cannot both be standard input".into()));
    }
    if given.command == "merge" {
        return merged(given);
    }
    let source = load::source(&given.operands[0])?;
    match given.command {
        "ends" => ends(given, &drilled(&source)?),
        "check" => print(&terminal::accepted(&drilled(&source)?)),
        "path" => path(given, &drilled(&source)?),
        "page" => page(given, &source),
        "write" => written(given, &source),
        "archive" => archive(given, &drilled(&source)?),
        "class" => class(given, &read(&source)?),
        "report" => report(given, &read(&source)?),
        "mark" => mark(given, &source),
        command => Err(Failure::Internal(format!("no command `{command}`"))),
    }
}

/// Writes a result. A reader that wants no more of it is no fault.
fn print(text: &str) -> Result<(), Failure> {
    let mut out = io::stdout().lock();
    match out.write_all(text.as_bytes()).and_then(|()| out.flush()) {
        Err(error) if error.kind() != io::ErrorKind::BrokenPipe => {
            Err(Failure::Failed(format!("standard output cannot be written: {error}")))
        }
        _ => Ok(()),
    }
}

/// The rehearsed sheet; a refusal is told on standard error.
fn drilled(source: &Source) -> Result<Drill, Failure> {
    load::drill(source).map_err(|undrilled| match undrilled {
        Undrilled::Failed(failure) => failure,
        Undrilled::Refused(told) => refused(&told, source),
    })
}

/// The sheet, read and not evaluated; a refusal is told on standard error.
fn read(source: &Source) -> Result<Sheet, Failure> {
    Sheet::of(source).map_err(|told| refused(&told, source))
}

/// Tells a refusal on standard error.
fn refused(told: &Told, source: &Source) -> Failure {
    say(&terminal::refusal(told, &source.file, &source.text));
    Failure::Failed(String::new())
}

fn asked(given: &Given) -> Ask {
    Ask { with: given.all("--with"), without: given.all("--without") }
}

fn ends(given: &Given, drill: &Drill) -> Result<(), Failure> {
    let ask = asked(given);
    let numbers = ask.ends(drill)?;
    if !ask.is_empty() {
        let (so, all) = (grouped(numbers.len()), grouped(drill.ends().len()));
        say(&format!("lawhemuri: {}: {so} of {all} ends\n", ask.words()));
    }
    print(&if given.has("--json") { terminal::ends_json(drill, &numbers) } else { terminal::ends(drill, &numbers) })
}

/// The ends to be shown of those that are so, and what is left out, told on standard error.
fn shown(drill: &Drill, ask: &Ask, most: usize) -> Result<Vec<usize>, Failure> {
    let mut numbers = ask.ends(drill)?;
    let so = if ask.is_empty() { String::new() } else { format!(" {}", ask.words()) };
    if numbers.len() > most {
        let (of, left) = (count(numbers.len(), "end"), grouped(numbers.len() - most));
        say(&format!("lawhemuri: ways to {} of {of}{so}: {left} left out (--most N shows more)\n", grouped(most)));
        numbers.truncate(most);
    }
    Ok(numbers)
}

/// Refuses ends that are named one by one where they are asked for by a question or a count too.
fn one_question(given: &Given, named: bool, name: &str) -> Result<(), Failure> {
    if named && ["--with", "--without", "--most"].iter().any(|option| given.has(option)) {
        return Err(Failure::Use(format!("give {name}, or --with, --without and --most, and not both")));
    }
    Ok(())
}

/// That a sheet has ends and none of them is as was asked.
fn none_so(drill: &Drill, ask: &Ask) -> String {
    format!("{}: no end {}\n", drill.name, ask.words())
}

fn path(given: &Given, drill: &Drill) -> Result<(), Failure> {
    one_question(given, given.operands.len() > 1, "END")?;
    let (ask, most) = (asked(given), given.number("--most")?.unwrap_or(MOST_WAYS));
    let numbers = match given.operands.get(1) {
        Some(end) => vec![one_end(drill, end)?],
        None => shown(drill, &ask, most)?,
    };
    let answers = Answers::of(drill);
    if drill.ends().is_empty() {
        let stops = terminal::unanswered(drill, &answers);
        return print(&format!("{}: no end: the procedure can never be finished from this start\n\n{stops}", drill.name));
    }
    if numbers.is_empty() {
        return print(&none_so(drill, &ask));
    }
    let progress = Progress::begin("unfolding the ways");
    let all = given.has("--all");
    let mut parts = Vec::new();
    for number in numbers {
        let layout = way(drill, &answers, number, if all { usize::MAX } else { MOST_ROWS })?;
        parts.push(terminal::path(drill, &layout, number, all));
    }
    drop(progress);
    print(&parts.join("\n"))
}

/// Draws the page of a sheet; a refused sheet has a page too, that shows where it is at fault.
fn page(given: &Given, source: &Source) -> Result<(), Failure> {
    let named = format!("{}.html", if given.operands[0] == "-" { "sheet" } else { &source.name });
    let file = given.last("-o").unwrap_or(&named);
    not_the_sheet(file, source)?;
    one_question(given, given.has("--ends"), "--ends")?;
    let drill = match load::drill(source) {
        Ok(drill) => drill,
        Err(Undrilled::Failed(failure)) => return Err(failure),
        Err(Undrilled::Refused(told)) => {
            say(&terminal::refusal(&told, &source.file, &source.text));
            write(file, &page::refused(&told, source))?;
            return Err(Failure::Failed(if file == "-" { String::new() } else { format!("{file} shows this to the class") }));
        }
    };
    let numbers = drawn(given, &drill)?;
    let none = if numbers.is_empty() && !drill.ends().is_empty() { none_so(&drill, &asked(given)) } else { String::new() };
    let text = page_of(&drill, numbers)?;
    write(file, &text)?;
    if file == "-" {
        say(&none);
        return Ok(());
    }
    let ends = words::count_or_no(drill.ends().len(), "end");
    print(&format!("{none}{file}: {ends}, {} bytes; open it in a browser, or print it on A4\n", grouped(text.len())))
}

/// The ends to which the page draws ways.
fn drawn(given: &Given, drill: &Drill) -> Result<Vec<usize>, Failure> {
    if let Some(list) = given.last("--ends") {
        let ends: BTreeSet<usize> = list.split(',').map(|end| one_end(drill, end)).collect::<Result<_, _>>()?;
        return Ok(ends.into_iter().collect());
    }
    let unless_said = if drill.ends().len() > page::MOST_ENDS_IN_ROWS { FEW_DRAWN } else { MOST_DRAWN };
    shown(drill, &asked(given), given.number("--most")?.unwrap_or(unless_said))
}

/// The page with the ways to some ends.
fn page_of(drill: &Drill, numbers: Vec<usize>) -> Result<String, Failure> {
    let _progress = Progress::begin("drawing the page");
    let answers = Answers::of(drill);
    let mut ways = Vec::new();
    for number in numbers {
        let mut layout = way(drill, &answers, number, MOST_ROWS)?;
        layout.keep_bars(&page::parts(layout.states.len()).0);
        ways.push((number, layout));
    }
    Ok(page::page(drill, &answers, &ways))
}

/// Writes the sheet's one fixed text; it is never longer than the sheet.
fn written(given: &Given, source: &Source) -> Result<(), Failure> {
    let file = given.last("-o").unwrap_or("-");
    not_the_sheet(file, source)?;
    let mut text = vec![0; source.text.len()];
    match lawhemuri::write(&source.text, &mut text) {
        Ok(length) => write(file, &String::from_utf8_lossy(&text[..length])),
        Err(unread) => Err(refused(&refusal::told(&source.text, source.length, unread), source)),
    }
}

/// Writes the one fixed text of two sheets together. A sheet's own fault is told as that of the sheet.
fn merged(given: &Given) -> Result<(), Failure> {
    let [maker, site] = given.operands.as_slice() else {
        return Err(Failure::Use("merge needs two sheets: lawhemuri merge MAKER SITE".into()));
    };
    if given.operands.iter().all(|file| file == "-") {
        return Err(Failure::Use("standard input is one sheet: give a file for the other".into()));
    }
    let (maker, site) = (load::source(maker)?, load::source(site)?);
    let file = given.last("-o").unwrap_or("-");
    not_the_sheet(file, &maker)?;
    not_the_sheet(file, &site)?;
    let mut text = vec![0; MOST_BYTES];
    let Unmerged { refusal, sheet, line } = match lawhemuri::merge(&maker.text, &site.text, &mut text) {
        Ok(length) => return write(file, &String::from_utf8_lossy(&text[..length])),
        Err(unmerged) => unmerged,
    };
    say(&match sheet {
        0 => {
            let told = refusal::told_of_two(&maker.text, &site.text, refusal);
            terminal::refusal(&told, &format!("{} and {}", maker.file, site.file), b"")
        }
        _ => {
            let source = if sheet == 1 { &maker } else { &site };
            terminal::refusal(&refusal::told(&source.text, source.length, Unread { refusal, line }), &source.file, &source.text)
        }
    });
    Err(Failure::Failed(String::new()))
}

/// Prints the states on the way to an end by valve, once the library has given the same states back.
fn archive(given: &Given, drill: &Drill) -> Result<(), Failure> {
    let number = match given.operands.get(1) {
        Some(end) => one_end(drill, end)?,
        None if drill.ends().len() == 1 => 1,
        None => {
            return Err(Failure::Use(format!("which end? {} has {}", drill.name, words::count_or_no(drill.ends().len(), "end"))))
        }
    };
    let states = whole_way(drill, number)?.states;
    let stored = |refusal| Failure::Internal(format!("the states of end {number} are not stored: {refusal}"));
    let by_valve = ByValve::of(drill.fluents().len(), &states).map_err(stored)?;
    if by_valve.states(states.len()).map_err(stored)? != states {
        return Err(Failure::Internal(format!("the states of end {number} do not come back")));
    }
    print(&terminal::archive(drill, &by_valve, states.len()))
}

/// Runs the sheet's goal from the starts of a class, and prints what each comes to.
fn class(given: &Given, sheet: &Sheet) -> Result<(), Failure> {
    let (starts, told) = class_run(given, sheet)?;
    print(&if given.has("--json") {
        class::json(sheet, &starts, &told)
    } else {
        class::table(sheet, &starts, &told, given.has("--ends"))
    })
}

/// Runs the sheet's goal from the starts of a class, and prints the figures over it.
fn report(given: &Given, sheet: &Sheet) -> Result<(), Failure> {
    let (_, told) = class_run(given, sheet)?;
    let figures = report::figures(sheet, &told)?;
    print(&if given.has("--json") { report::json(sheet, &told, &figures) } else { report::table(sheet, &told, &figures) })
}

/// The starts of the file given, and what the sheet's goal comes to from each. The sheet is read alone: its own start plays no part.
fn class_run(given: &Given, sheet: &Sheet) -> Result<(Vec<class::Start>, Vec<lawhemuri::OfStart>), Failure> {
    let command = given.command;
    let none = || Failure::Use(format!("{command} needs a file of starts: lawhemuri {command} SHEET STARTS"));
    let file = given.operands.get(1).ok_or_else(none)?;
    let called = if file == "-" { "standard input" } else { file };
    let starts = class::starts(&class::read(file)?, called, sheet)?;
    let progress = Progress::begin("running the class");
    let told = class::run(sheet, &starts)?;
    drop(progress);
    Ok((starts, told))
}

/// Marks a record. The sheet is read alone: its goal need not be one whose run fits the tables.
fn mark(given: &Given, source: &Source) -> Result<(), Failure> {
    let Some(record) = given.operands.get(1) else {
        return Err(Failure::Use("mark needs a record: lawhemuri mark SHEET RECORD".into()));
    };
    if record == "-" && given.operands[0] == "-" {
        return Err(Failure::Use("standard input is the sheet or the record, and not both".into()));
    }
    let sheet = read(source)?;
    let (file, text) = load::record(record)?;
    let steps = marking::steps(&file, &text, &sheet.fluents)?;
    let marked = marking::marked(&sheet.question(), &steps)?;
    print(&marking::said(&marked, &steps, &sheet.fluents))
}

/// Refuses to write over the sheet that was read, by whatever path it is named.
fn not_the_sheet(file: &str, source: &Source) -> Result<(), Failure> {
    let read = source.path.as_ref().and_then(|path| path.canonicalize().ok());
    if file != "-" && read.is_some() && read == Path::new(file).canonicalize().ok() {
        return Err(Failure::Use(format!("{file} is the sheet itself, and would be overwritten: give another file after -o")));
    }
    Ok(())
}

/// Writes a file, or standard output for `-`.
fn write(file: &str, text: &str) -> Result<(), Failure> {
    if file == "-" {
        return print(text);
    }
    std::fs::write(file, text).map_err(|error| Failure::Failed(format!("{file} cannot be written: {error}")))
}

/// The way to an end, held against the library's path and laid out.
fn way(drill: &Drill, answers: &Answers<'_>, number: usize, most: usize) -> Result<Layout, Failure> {
    let way = way_to(drill, number)?;
    let by_valve = ByValve::of(drill.fluents().len(), &way.states)
        .map_err(|refusal| Failure::Internal(format!("the states of end {number} are not stored: {refusal}")))?;
    Ok(Layout::of(answers, way, by_valve, number, most))
}

fn way_to(drill: &Drill, number: usize) -> Result<Way, Failure> {
    let end = drill.ends()[number - 1];
    drill.rehearsal.way_to(end)?.ok_or_else(|| Failure::Internal(format!("end {number} has no answer record")))
}

/// The way to an end, if it is not so long that only a part of it is unfolded.
fn whole_way(drill: &Drill, number: usize) -> Result<Way, Failure> {
    let way = way_to(drill, number)?;
    if way.whole {
        return Ok(way);
    }
    Err(Failure::Failed(format!("the way to end {number} is too long to be kept")))
}
