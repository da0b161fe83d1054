//! The table of runs: the library's evaluator beside the plain one, on each size of each family.

use crate::book::Book;
use crate::families::FAMILIES;
use crate::lent::Lent;
use crate::plain;
use crate::timing::{least, race, timed, verdict};
use std::io::{stdout, Write};
use std::process::{exit, Command};
use std::sync::mpsc::{channel, RecvTimeoutError::Timeout};
use std::thread::spawn;
use std::time::Duration;

/// All families; whether all results are the same. Each family has a process of its own, since a run that takes too long can only
/// be ended with its process.
pub fn print(limit: f64) -> bool {
    println!("family     size    ends   calls answers         ms   plain ms   ratio  growth plain's");
    let program = std::env::current_exe().expect("this program has a path");
    let mut same = true;
    for family in &FAMILIES {
        let status = Command::new(&program).arg(limit.to_string()).arg(family.name).status();
        same &= status.is_ok_and(|status| status.success());
    }
    same
}

/// The lines of one family; whether all results are the same. Ends the process after the line of a run that takes longer than
/// `limit`.
pub fn print_family(name: &str, limit: f64) -> bool {
    let Some(family) = FAMILIES.iter().find(|family| family.name == name) else {
        eprintln!("there is no family {name}");
        return false;
    };
    let mut same = true;
    let mut before = None;
    for size in family.sizes {
        let book = (family.book)(size);
        let (run, plain) = least(|| plain::evaluate(&book));
        print!("{name:<10}{size:>5}{:>8}{:>8}{:>8}", run.ends.len(), run.calls, run.answers);
        stdout().flush().expect("standard output takes the line");
        let broken_off = move || {
            let most = 1e3 * limit;
            println!("{:>11}{plain:>11.3}{:>8}  broken off", format!("> {most}"), format!("> {:.0}", most / plain));
            exit(i32::from(!same));
        };
        let mut lent = Lent::fitting(&run);
        let (_, ours) = within(limit, broken_off, || timed(|| lent.evaluate(&book)));
        let mut figures = measure(&book, &run, &mut lent);
        figures.ours = figures.ours.min(ours);
        figures.plain = figures.plain.min(plain);
        figures.print(before.as_ref());
        same &= figures.same;
        before = Some(figures);
    }
    same
}

/// Does the work, and `late` as well if the work is not done after so many seconds.
fn within<T>(seconds: f64, late: impl FnOnce() + Send + 'static, work: impl FnOnce() -> T) -> T {
    let (done, wait) = channel::<()>();
    spawn(move || {
        if wait.recv_timeout(Duration::from_secs_f64(seconds)) == Err(Timeout) {
            late();
        }
    });
    let result = work();
    drop(done);
    result
}

/// What is measured of one book: times in milliseconds.
struct Figures {
    records: usize,
    ours: f64,
    plain: f64,
    same: bool,
}

/// Both evaluators on a book of which the plain one's run is known.
fn measure(book: &Book, known: &plain::Run, lent: &mut Lent) -> Figures {
    let ((run, ours), (_, plain)) = race(|| lent.evaluate(book), || plain::evaluate(book));
    let same = known.agrees(run, &lent.ends);
    Figures { records: known.calls + known.answers, ours, plain, same }
}

impl Figures {
    /// The rest of the line. Growth is the time for each record against that of the size before: 1 where time is linear in the
    /// records.
    fn print(&self, before: Option<&Figures>) {
        print!("{:>11.3}{:>11.3}{:>8.2}", self.ours, self.plain, self.ours / self.plain);
        let more = |b: &Figures| self.records as f64 / b.records as f64;
        match before {
            Some(b) => print!("{:>8.2}{:>8.2}", self.ours / b.ours / more(b), self.plain / b.plain / more(b)),
            None => print!("{:>8}{:>8}", "-", "-"),
        }
        println!("  {}", verdict(self.same));
    }
}
