//! Running the program, and outputs that are stored. `LAWHEMURI_STORE=1` stores them anew instead of comparing.

#![allow(dead_code)]

use std::path::{Path, PathBuf};
use std::process::{Command, Output};

/// The folder of the tool.
pub fn here() -> &'static Path {
    Path::new(env!("CARGO_MANIFEST_DIR"))
}

/// A folder of the repository.
pub fn folder(path: &str) -> PathBuf {
    here().join("..").join(path)
}

/// A folder for a test's own files.
pub fn scratch(name: &str) -> PathBuf {
    let folder = Path::new(env!("CARGO_TARGET_TMPDIR")).join(name);
    let _ = std::fs::remove_dir_all(&folder);
    std::fs::create_dir_all(&folder).unwrap();
    folder
}

/// Runs the program.
pub fn run<S: AsRef<std::ffi::OsStr>>(words: &[S]) -> Output {
    Command::new(env!("CARGO_BIN_EXE_lawhemuri")).args(words).env_remove("LAWHEMURI_SHEETS").output().unwrap()
}

/// Runs the program and gives exit status, standard output, and standard error without the lines about slow work.
pub fn told<S: AsRef<std::ffi::OsStr>>(words: &[S]) -> (i32, String, String) {
    parts(run(words))
}

/// The same, with a file on standard input.
pub fn told_from<S: AsRef<std::ffi::OsStr>>(words: &[S], input: std::fs::File) -> (i32, String, String) {
    parts(Command::new(env!("CARGO_BIN_EXE_lawhemuri")).args(words).env_remove("LAWHEMURI_SHEETS").stdin(input).output().unwrap())
}

fn parts(output: Output) -> (i32, String, String) {
    let text = |bytes: Vec<u8>| String::from_utf8(bytes).expect("what is printed is UTF-8");
    let err: String = text(output.stderr).split_inclusive('\n').filter(|line| !line.ends_with(" s …\n")).collect();
    (output.status.code().expect("no signal"), text(output.stdout), err)
}

/// The sheets of a folder, by name.
pub fn sheets(folder: &Path) -> Vec<PathBuf> {
    let files = std::fs::read_dir(folder).unwrap().map(|entry| entry.unwrap().path());
    let mut sheets: Vec<PathBuf> = files.filter(|path| path.extension().is_some_and(|end| end == "sheet")).collect();
    sheets.sort();
    assert!(!sheets.is_empty(), "{} has no sheet", folder.display());
    sheets
}

/// The name of a sheet's file without its ending.
pub fn name(sheet: &Path) -> String {
    sheet.file_stem().unwrap().to_string_lossy().into_owned()
}

/// Holds what is printed to a stored file.
pub fn stored(file: &Path, printed: &str) {
    if std::env::var_os("LAWHEMURI_STORE").is_some() {
        std::fs::write(file, printed).unwrap();
    }
    let kept = std::fs::read_to_string(file).unwrap_or_else(|error| panic!("{}: {error}", file.display()));
    assert!(printed == kept, "{} differs; printed was\n{printed}", file.display());
}
