//! What ends a command without its result, and the exit status that says so.

use std::io::{self, Write};
use std::panic::{self, UnwindSafe};
use std::process::ExitCode;

use lawhemuri::Trouble;

/// Why there is no result.
#[derive(Debug)]
pub enum Failure {
    /// Refused or failed; the words were said already, or are here.
    Failed(String),
    /// The command was not used as it can be.
    Use(String),
    /// What was drawn differs from what the library says: a fault of this program.
    Internal(String),
}

/// Says something on standard error. Where that is closed or full nobody can be told, and the work goes on.
pub fn say(text: &str) {
    let _ = io::stderr().write_all(text.as_bytes());
}

/// Panics are told with their words and their place, without a backtrace.
pub fn tell_panics() {
    panic::set_hook(Box::new(|info| say(&format!("lawhemuri: {info}\n"))));
}

/// Does the work; a panic in it is an internal error.
pub fn guarded(work: impl FnOnce() -> Result<(), Failure> + UnwindSafe) -> Result<(), Failure> {
    panic::catch_unwind(work).unwrap_or_else(|_| Err(Failure::Internal("the work broke off".into())))
}

const NOT_DRAWN: &str = "Nothing was drawn. This is a fault of lawhemuri and not of the sheet: please report it.";
const FAILED: u8 = 1;
const WRONG_USE: u8 = 2;
const INTERNAL: u8 = 3;

impl Failure {
    /// Says it on standard error and gives the exit status.
    pub fn told(self) -> ExitCode {
        let (words, status) = match self {
            Failure::Failed(words) => (words, FAILED),
            Failure::Use(words) => (words, WRONG_USE),
            Failure::Internal(words) => (format!("internal error: {words}\n{NOT_DRAWN}"), INTERNAL),
        };
        if !words.is_empty() {
            say(&format!("lawhemuri: {words}\n"));
        }
        ExitCode::from(status)
    }
}

impl From<Trouble> for Failure {
    /// For a way: sheets and runs that are refused are told before one is asked for.
    fn from(trouble: Trouble) -> Failure {
        match trouble {
            Trouble::Difference(difference) => {
                Failure::Internal(format!("the steps do not give what the library's tables and path say: {difference}"))
            }
            Trouble::Thread(error) => Failure::Failed(format!("no thread could be started: {error}")),
            other => Failure::Internal(other.to_string()),
        }
    }
}

#[cfg(test)]
mod tests {
    use super::*;

    #[test]
    fn a_panic_is_an_internal_error() {
        let Err(Failure::Internal(words)) = guarded(|| panic!("planted, to be caught")) else { panic!("not caught") };
        assert_eq!(words, "the work broke off");
        assert!(guarded(|| Ok(())).is_ok());
        assert!(matches!(guarded(|| Err(Failure::Use(String::new()))), Err(Failure::Use(_))));
    }
}
