//! Times of the library beside plain programs that do the same; `bench/run` says what is printed. `bench [SECONDS [FAMILY]]`: the
//! exit status is 1, after all is printed, if a result differs or a marking took too long.

mod book;
mod classes;
mod families;
mod hash;
mod lent;
mod lists;
mod marks;
mod paths;
mod plain;
mod runs;
mod shares;
mod timing;

use std::env::args;
use std::process::ExitCode;

fn main() -> ExitCode {
    let limit = args().nth(1).map_or(5.0, |seconds| seconds.parse().expect("SECONDS is a number"));
    let same = match args().nth(2).as_deref() {
        Some("marks") => vec![marks::print()],
        Some("shares") => vec![shares::print()],
        Some(family) => vec![runs::print_family(family, limit)],
        None => vec![runs::print(limit), paths::print(), classes::print(), marks::print(), shares::print()],
    };
    ExitCode::from(u8::from(same.contains(&false)))
}
