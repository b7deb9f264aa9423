//! Runs, makes and compares test cases of the backtest kernel's `advance`.

use std::env;
use std::io::{self, BufReader, BufWriter};
use std::path::Path;
use std::process::ExitCode;

mod bench;
mod case;
mod diff;
mod make;
mod mutants;
mod run;
mod stand_ins;
mod stats;

use run::Which;
pub use stand_ins::{Decimal, execution, position, risk, types};

/// The published files, with stand-ins for their absent neighbours.
#[allow(dead_code, unused, clippy::all)]
mod backtest {
    include!(concat!(env!("OUT_DIR"), "/backtest.rs"));
}

/// The same with what document 02 asks for (`changes.rs`).
#[allow(dead_code, unused, clippy::all)]
mod requests {
    include!(concat!(env!("OUT_DIR"), "/requests.rs"));
}

const USAGE: &str = "\
oracle run [requests] < CASES > OUTCOMES
oracle gen KIND SEED COUNT [FIRST] > CASES     KIND: replay, wild or edge
oracle stats [families] < OUTCOMES
oracle diff A B
oracle mutants DIR
oracle bench DAY ROWS ORDERS REPEATS         DAY: 1 to 4, or 0 for all";

const BUFFER: usize = 1 << 20;

fn command(args: &[&str]) -> io::Result<Option<bool>> {
    let from = || BufReader::with_capacity(BUFFER, io::stdin().lock());
    let to = || BufWriter::with_capacity(BUFFER, io::stdout().lock());
    let good = match args {
        ["run"] => run::all(from(), to(), Which::Asked)?,
        ["run", "requests"] => run::all(from(), to(), Which::Requests)?,
        ["gen", kind, seed, count, first @ ..] if first.len() <= 1 => {
            let first = first.first().map_or(Ok(0), |n| n.parse());
            match (seed.parse(), count.parse(), first) {
                (Ok(seed), Ok(count), Ok(first)) => make::cases(kind, seed, first, count, to())?,
                _ => return Ok(None),
            }
        }
        ["stats"] => stats::all(from(), false)?,
        ["stats", "families"] => stats::all(from(), true)?,
        ["diff", a, b] => diff::all(Path::new(a), Path::new(b))?,
        ["bench", numbers @ ..] => {
            let numbers: Result<Vec<u64>, _> = numbers.iter().map(|n| n.parse()).collect();
            let Ok([day, rows, orders, repeats]) = numbers.as_deref() else {
                return Ok(None);
            };
            bench::all(*day, *rows, *orders, *repeats);
            true
        }
        ["mutants", to] => mutants::all(Path::new(to))?,
        _ => return Ok(None),
    };
    Ok(Some(good))
}

fn main() -> ExitCode {
    let args: Vec<String> = env::args().skip(1).collect();
    let args: Vec<&str> = args.iter().map(String::as_str).collect();
    match command(&args) {
        Ok(Some(true)) => ExitCode::SUCCESS,
        Ok(Some(false)) => ExitCode::FAILURE,
        Ok(None) => {
            eprintln!("{USAGE}");
            ExitCode::from(2)
        }
        // A reader that has seen enough is no error.
        Err(error) if error.kind() == io::ErrorKind::BrokenPipe => ExitCode::SUCCESS,
        Err(error) => {
            eprintln!("{error}");
            ExitCode::from(2)
        }
    }
}
