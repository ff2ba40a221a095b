//! SQLite, in this process: a transaction for each call, by prepared statements, in a file of its own for each measurement.

use std::ffi::CString;
use std::fs;
use std::path::{Path, PathBuf};
use std::time::{Duration, Instant};

use super::{Answers, Side};
use crate::calls::{record, Call, Record, Work, NODES};
use crate::measuring::Measured;
use crate::sqlite_library::{Database, Library, Statement};
use crate::ways::Way;
use crate::Result;

/// What `PRAGMA synchronous` answers where it is FULL.
const FULL: i64 = 2;

const TABLE: &str = "create table nodes (id integer primary key, f0 integer, f1 integer, f2 integer, f3 integer)";

/// A statement outside of a transaction is one by itself.
const ADD: &str = "update nodes set f0 = f0 + ?2 where id = ?1 returning f0";

pub struct Sqlite {
    file: PathBuf,
}

impl Sqlite {
    /// SQLite with its file in this folder, where its library is installed.
    pub fn find(folder: &Path) -> Option<Sqlite> {
        Library::find().map(|_| Sqlite { file: folder.join("sqlite.db") })
    }

    /// The file that SQLite appends this to the name of.
    fn beside(&self, suffix: &str) -> PathBuf {
        let mut name = self.file.clone().into_os_string();
        name.push(suffix);
        name.into()
    }

    /// A new file with the tree as at the start, which waits for the disk at the end of each transaction.
    fn begin(&self) -> Result<Database> {
        for suffix in ["", "-wal", "-shm"] {
            let file = self.beside(suffix);
            if file.exists() {
                fs::remove_file(file)?;
            }
        }
        let name = CString::new(self.file.to_str().ok_or("the folder's name isn't UTF-8")?)?;
        let library = Library::find().ok_or("SQLite isn't installed")?;
        let database = Database::open(library, &name).ok_or("SQLite opens no file")?;
        for statement in ["pragma journal_mode = wal", "pragma synchronous = full", TABLE, "begin"] {
            database.run(statement).ok_or_else(|| refused(statement))?;
        }
        let insert = prepared(&database, "insert into nodes values (?1, ?2, ?3, ?4, ?5)")?;
        for node in 0..NODES {
            let [f0, f1, f2, f3] = record(node);
            insert.run(&[node, f0, f1, f2, f3]).ok_or("SQLite makes no node")?;
        }
        drop(insert);
        database.run("commit").ok_or_else(|| refused("commit"))?;
        let synchronous = number(&prepared(&database, "pragma synchronous")?, &[])?;
        if synchronous != FULL || !self.beside("-wal").exists() {
            return Err(format!("SQLite has synchronous={synchronous}, or no log").into());
        }
        Ok(database)
    }
}

fn refused(statement: &str) -> String {
    format!("SQLite refuses: {statement}")
}

fn prepared<'a>(database: &'a Database, statement: &str) -> Result<Statement<'a>> {
    Ok(database.prepare(statement).ok_or_else(|| refused(statement))?)
}

/// The number that a statement answers.
fn number(statement: &Statement<'_>, values: &[i64]) -> Result<i64> {
    Ok(statement.run(values).flatten().ok_or("SQLite answers no number")?)
}

/// The library's version. Its letters are asked for one by one, since statements answer numbers here.
fn version(database: &Database) -> Result<String> {
    let letter = prepared(database, "select unicode(substr(sqlite_version(), ?1, 1))")?;
    let letters = (1..).map_while(|place| letter.run(&[place]).flatten().filter(|&code| code != 0));
    Ok(letters.filter_map(|code| u8::try_from(code).ok()).map(char::from).collect())
}

fn records(database: &Database) -> Result<Vec<Record>> {
    let fields = ["f0", "f1", "f2", "f3"].map(|field| format!("select {field} from nodes where id = ?1"));
    let fields = fields.iter().map(|field| prepared(database, field)).collect::<Result<Vec<_>>>()?;
    let mut records = vec![Record::default(); NODES as usize];
    for (node, record) in (0..).zip(&mut records) {
        for (value, field) in record.iter_mut().zip(&fields) {
            *value = number(field, &[node])?;
        }
    }
    Ok(records)
}

impl Side for Sqlite {
    fn name(&self) -> &'static str {
        "SQLite"
    }

    fn made(&mut self) -> Result<String> {
        let version = version(&self.begin()?)?;
        Ok(format!("SQLite {version}; in the client's own process, without a socket; `PRAGMA journal_mode=WAL`, `PRAGMA synchronous=FULL`; a prepared statement, which is a transaction by itself"))
    }

    fn serves(&self, work: Work) -> bool {
        work == Work::Add
    }

    fn ways(&self) -> &'static [Way] {
        &[Way::OneByOne]
    }

    fn measure(&mut self, _work: Work, _way: Way, before: &[Call], timed: &[Call]) -> Result<Measured> {
        let database = self.begin()?;
        let add = prepared(&database, ADD)?;
        for call in before {
            number(&add, &call.args)?;
        }
        let (mut bursts, mut answers) = (Vec::with_capacity(timed.len()), Answers::default());
        let start = Instant::now();
        let mut took = Duration::ZERO;
        for call in timed {
            answers.add(Answers::one(number(&add, &call.args)?));
            let now = start.elapsed();
            bursts.push(now - took);
            took = now;
        }
        drop(add);
        Ok(Measured { took, bursts, answers, records: records(&database)? })
    }
}

#[cfg(test)]
mod tests {
    use super::*;
    use crate::calls::calls;

    /// SQLite adds as the procedure says. Where it isn't installed there is nothing to test.
    #[test]
    fn sqlite_adds() {
        let folder = std::env::temp_dir().join(format!("peers-{}", std::process::id()));
        fs::create_dir(&folder).unwrap();
        let measured = Sqlite::find(&folder).map(|mut side| {
            assert!(side.made().unwrap().starts_with("SQLite 3."));
            let calls = calls(Work::Add, 8, 1);
            (side.measure(Work::Add, Way::OneByOne, &calls[..3], &calls[3..]).unwrap(), calls)
        });
        fs::remove_dir_all(&folder).unwrap();
        let Some((measured, calls)) = measured else { return };
        let mut wanted: Vec<Record> = (0..NODES).map(record).collect();
        let mut sums = Vec::new();
        for Call { args, .. } in &calls {
            let total = &mut wanted[args[0] as usize][0];
            *total += args[1];
            sums.push(*total);
        }
        assert_eq!(measured.answers, Answers { count: 5, sum: sums[3..].iter().sum() });
        assert_eq!((measured.records, measured.bursts.len()), (wanted, 5));
    }
}
