//! The product beside a plain twin: the same work in turn, and the ratios of the times.
//!
//! `bench FILE` measures all and writes the table to the file; `bench FILE NAME..` only what has these names. With other first
//! words it is a process of its own for one piece of that.

mod codes;
mod counting;
mod measured;
mod overview;
mod processes;
mod processors;
mod product;
mod reasons;
mod rounds;
mod rows;
mod schedules;
mod spread;
mod sqlite;
mod sqlite_library;
mod table;
mod trees;
mod twin;

use std::process::ExitCode;
use std::{env, fs};

use table::{Made, Table};

/// The few rows that `bench/peers/run` writes.
const PEERS: &str = concat!(env!("CARGO_MANIFEST_DIR"), "/peers/summary.md");

fn main() -> ExitCode {
    let words: Vec<String> = env::args().skip(1).collect();
    let Some((first, rest)) = words.split_first() else {
        eprintln!("usage: bench FILE [{}]..", rows::NAMES.join("|"));
        return ExitCode::from(2);
    };
    match first.as_str() {
        processes::ENGINES => processes::run_engines(rest).unwrap_or(ExitCode::FAILURE),
        processes::MEMORY => processes::run_for_memory(rest).unwrap_or(ExitCode::FAILURE),
        path => write_table(path, rest),
    }
}

fn write_table(path: &str, names: &[String]) -> ExitCode {
    let all = rows::NAMES.map(String::from);
    let names = if names.is_empty() { &all[..] } else { names };
    counting::take_at_first();
    let passes = (0..rounds::PASSES).map(|_| rows::measured(names)).collect::<Result<_, _>>();
    let written = passes.and_then(table::together).and_then(|parts| {
        let table = Table { made: made(), peers: fs::read_to_string(PEERS).ok(), parts };
        print!("{table}");
        fs::write(path, table.to_string()).map_err(|error| error.to_string())
    });
    match written {
        Ok(()) => ExitCode::SUCCESS,
        Err(error) => {
            eprintln!("there is no table: {error}");
            ExitCode::FAILURE
        }
    }
}

/// What `bench/run` says of how both sides were built.
fn made() -> Made {
    let said = |name| env::var(name).unwrap_or_else(|_| "not said".to_string());
    Made { date: said("BENCH_DATE"), product: said("BENCH_PRODUCT"), twin: said("BENCH_TWIN") }
}
