//! treedb's server beside Redis and PostgreSQL: the same calls over a socket in turn, and the ratios of their speeds. Where calls are kept on a disk, SQLite stands beside them.
//!
//! `bench/peers/run` starts the peers, and this program with their ports.

mod calls;
mod connection;
mod keeping;
mod lines;
mod machine;
mod measuring;
mod messages;
mod resp;
mod rounds;
mod sides;
#[path = "../../src/spread.rs"]
mod spread;
#[path = "../../src/sqlite_library.rs"]
mod sqlite_library;
mod table;
mod ways;
mod words;

use std::process::ExitCode;
use std::{env, fs};

use keeping::Keeping;
use sides::postgresql::PostgreSql;
use sides::redis::{Form, Redis};
use sides::sqlite::Sqlite;
use sides::treedb::TreeDb;
use sides::Sides;
use table::{Disk, Durable, Made, Summary, Tables};
use words::Words;

pub type Result<T> = std::result::Result<T, Box<dyn std::error::Error + Send + Sync>>;

fn main() -> ExitCode {
    let words = match Words::read(env::args().skip(1)) {
        Ok(words) => words,
        Err(error) => {
            eprintln!("peers: {error}\n{}", words::USAGE);
            return ExitCode::from(2);
        }
    };
    match compare(&words) {
        Ok(()) => ExitCode::SUCCESS,
        Err(error) => {
            eprintln!("peers: there is no table: {error}");
            ExitCode::FAILURE
        }
    }
}

/// Makes the tables, prints the few rows that say which side is faster, and writes both.
fn compare(words: &Words) -> Result<()> {
    let (mut sides, skipped) = sides_of(words)?;
    let disk = disk(words)?;
    let made = Made {
        date: env::var("BENCH_DATE").unwrap_or_else(|_| "a day that isn't said".to_string()),
        product: env::var("BENCH_PRODUCT").unwrap_or_else(|_| "how it was built isn't said".to_string()),
        machine: machine::name(),
        rounds: words.rounds,
        sides: sides.iter_mut().map(|side| side.made()).collect::<Result<_>>()?,
        skipped,
    };
    let results = rounds::rounds(&mut sides, &words.works, words.keeping, words.rounds)?;
    let names: Vec<&'static str> = sides.iter().map(|side| side.name()).collect();
    let notes: Vec<String> = sides.iter().filter_map(|side| side.note()).collect();
    let tables =
        Tables { made: &made, names: &names, works: &words.works, ways: words.keeping.ways(), results: &results, notes: &notes };
    match disk {
        None => {
            let summary = Summary(&tables).to_string();
            print!("{summary}");
            fs::write(words.results.join("summary.md"), summary)?;
            Ok(fs::write(words.results.join("results.md"), tables.to_string())?)
        }
        Some(disk) => {
            let durable = Durable { tables: &tables, disk: &disk }.to_string();
            print!("{durable}");
            Ok(fs::write(words.results.join("durable.md"), durable)?)
        }
    }
}

/// What the files stand on, where calls are kept on a disk.
fn disk(words: &Words) -> Result<Option<Disk>> {
    match words.keeping {
        Keeping::Memory => Ok(None),
        Keeping::Disk => {
            let name = env::var("BENCH_DISK").unwrap_or_else(|_| "a disk that isn't said".to_string());
            Ok(Some(Disk { name, sync: machine::sync(&words.folder)? }))
        }
    }
}

/// The sides that are there, and the names of those that aren't.
fn sides_of(words: &Words) -> Result<(Sides, Vec<String>)> {
    let mut sides: Sides = vec![Box::new(TreeDb::new(&words.treedb, &words.procedures, &words.folder, words.keeping)?)];
    let mut skipped = Vec::new();
    match words.redis {
        Some(port) => sides.push(Box::new(Redis::new(port, Form::Function, words.keeping))),
        None => skipped.push("Redis".to_string()),
    }
    match words.postgresql {
        Some(port) => sides.push(Box::new(PostgreSql::new(port, words.keeping))),
        None => skipped.push("PostgreSQL".to_string()),
    }
    if let Some(port) = words.redis {
        sides.push(Box::new(Redis::new(port, Form::Command, words.keeping)));
    }
    if words.keeping == Keeping::Disk {
        match Sqlite::find(&words.folder) {
            Some(side) => sides.push(Box::new(side)),
            None => skipped.push("SQLite".to_string()),
        }
    }
    Ok((sides, skipped))
}
