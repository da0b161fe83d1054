//! A sheet from a file or from standard input, and its rehearsal.

use std::fs::File;
use std::io::{self, Read};
use std::path::{Path, PathBuf};

use lawhemuri::{Rehearsal, Trouble};

use crate::drill::Drill;
use crate::failure::Failure;
use crate::near::near;
use crate::progress::Progress;
use crate::refusal::{told, too_large, Told, MOST_BYTES};

/// Names the folder of sheets that may be asked for by their names alone.
const SHEETS: &str = "LAWHEMURI_SHEETS";
/// Where the sheets stand that are installed with the program, from the folder above the program's.
const INSTALLED: &str = "share/lawhemuri/sheets";
/// What a sheet's file name ends with.
const ENDING: &str = ".sheet";

/// A sheet's bytes, and what it is called.
pub struct Source {
    pub file: String,
    pub name: String,
    /// Where it was read; nowhere if from standard input.
    pub path: Option<PathBuf>,
    /// Its bytes; of a sheet that is too long, one more than a sheet may have.
    pub text: Vec<u8>,
    /// How many bytes it has, if that is known.
    pub length: Option<usize>,
}

/// Why there is no drill: a refusal, told in words; or a failure.
pub enum Undrilled {
    Refused(Box<Told>),
    Failed(Failure),
}

/// Reads the sheet that an operand names.
pub fn source(operand: &str) -> Result<Source, Failure> {
    if operand == "-" {
        let text = beginning(io::stdin()).map_err(|e| Failure::Failed(format!("standard input cannot be read: {e}")))?;
        return Ok(Source { file: "standard input".into(), name: "standard input".into(), path: None, text, length: None });
    }
    let path = found(operand);
    let (text, length) = read(&path).map_err(|error| unreadable(operand, &error))?;
    let file = path.file_name().map_or(operand.into(), |name| name.to_string_lossy().into_owned());
    let name = without_ending(&file).to_string();
    Ok(Source { file, name, path: Some(path), text, length })
}

/// What a record is called, and its text. One that is longer than any sheet may be is none.
pub fn record(operand: &str) -> Result<(String, Vec<u8>), Failure> {
    let (file, text) = if operand == "-" {
        (
            "standard input".to_string(),
            beginning(io::stdin()).map_err(|e| Failure::Failed(format!("standard input cannot be read: {e}")))?,
        )
    } else {
        let unread = |error: io::Error| match error.kind() {
            io::ErrorKind::NotFound => Failure::Failed(format!("no file {operand}")),
            _ => Failure::Failed(format!("{operand} cannot be read: {error}")),
        };
        (operand.to_string(), read(Path::new(operand)).map_err(unread)?.0)
    };
    if text.len() > MOST_BYTES {
        return Err(Failure::Failed(format!("{file} is too long for a record")));
    }
    Ok((file, text))
}

/// The bytes of a file as far as they are read, and how many it has; that is not known of what is no plain file.
fn read(path: &Path) -> io::Result<(Vec<u8>, Option<usize>)> {
    let file = File::open(path)?;
    let size = usize::try_from(file.metadata()?.len()).ok();
    let text = beginning(file)?;
    let length = size.filter(|&size| size >= text.len());
    Ok((text, length))
}

/// Reads no more than tells that a sheet is too long.
fn beginning(from: impl Read) -> io::Result<Vec<u8>> {
    let mut text = Vec::new();
    from.take(MOST_BYTES as u64 + 1).read_to_end(&mut text)?;
    Ok(text)
}

fn without_ending(file: &str) -> &str {
    file.strip_suffix(ENDING).unwrap_or(file)
}

/// The folder of sheets that are known by name: the one that is named, else the one installed with the program.
fn shared() -> Option<PathBuf> {
    if let Some(folder) = std::env::var_os(SHEETS).filter(|folder| !folder.is_empty()) {
        return Some(folder.into());
    }
    let program = std::env::current_exe().ok()?;
    Some(program.parent()?.parent()?.join(INSTALLED)).filter(|folder| folder.is_dir())
}

/// The file itself; if there is none, the sheet of that name in the folder of sheets. A folder is no sheet.
fn found(operand: &str) -> PathBuf {
    let path = PathBuf::from(operand);
    if path.exists() && !path.is_dir() {
        return path;
    }
    let known = shared().map(|folder| folder.join(format!("{}{ENDING}", without_ending(operand))));
    known.filter(|sheet| sheet.is_file()).unwrap_or(path)
}

fn unreadable(operand: &str, error: &io::Error) -> Failure {
    if error.kind() != io::ErrorKind::NotFound {
        return Failure::Failed(format!("{operand} cannot be read: {error}"));
    }
    let meant = meant(Path::new(operand)).map_or(String::new(), |sheet| format!("; did you mean {sheet}?"));
    Failure::Failed(format!("no file {operand}{meant}"))
}

/// The sheet that was probably meant: one beside the path, or one that is known by name.
fn meant(path: &Path) -> Option<String> {
    let asked = path.file_name()?.to_string_lossy();
    let asked = without_ending(&asked);
    let folder = path.parent().filter(|folder| !folder.as_os_str().is_empty()).unwrap_or(Path::new("."));
    let beside = nearest(asked, folder).map(|name| path.with_file_name(name + ENDING).display().to_string());
    beside.or_else(|| nearest(asked, &shared()?))
}

/// The name of the sheet in a folder that is so called, or nearly.
fn nearest(asked: &str, folder: &Path) -> Option<String> {
    let entries = std::fs::read_dir(folder).into_iter().flatten().flatten();
    let files = entries.map(|entry| entry.file_name().to_string_lossy().into_owned());
    let mut names: Vec<String> = files.filter_map(|file| Some(file.strip_suffix(ENDING)?.to_string())).collect();
    names.sort();
    let same = names.iter().find(|name| *name == asked).map(String::as_str);
    same.or_else(|| near(asked, names.iter().map(String::as_str))).map(String::from)
}

/// Rehearses a sheet.
pub fn drill(source: &Source) -> Result<Drill, Undrilled> {
    let progress = Progress::begin("working out the ends");
    let rehearsal = Rehearsal::new(source.text.clone()).map_err(|trouble| match trouble {
        Trouble::Sheet(unread) => Undrilled::Refused(Box::new(told(&source.text, source.length, unread))),
        Trouble::TooLarge => Undrilled::Refused(Box::new(too_large())),
        other => Undrilled::Failed(other.into()),
    })?;
    drop(progress);
    Drill::new(source.file.clone(), source.name.clone(), rehearsal).map_err(Undrilled::Failed)
}
