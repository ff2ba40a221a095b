//! SQLite in memory, where its library is installed.

use std::time::Instant;

use crate::measured::Measured;
use crate::sqlite_library::{Database, Library};

/// A table of the tree's nodes, each with its number among its siblings.
fn filled(parents: &[u32]) -> Option<Database> {
    let database = Database::open(Library::find()?, c":memory:")?;
    database.run("CREATE TABLE nodes (id INTEGER PRIMARY KEY, parent INTEGER, number INTEGER, a INTEGER, b INTEGER, c INTEGER, d INTEGER, e INTEGER, f INTEGER, g INTEGER, h INTEGER)")?;
    database.run("CREATE UNIQUE INDEX ways ON nodes (parent, number)")?;
    let insert = database.prepare("INSERT INTO nodes VALUES (?1, ?2, ?3, ?1, 2 * ?1, 3 * ?1, 4 * ?1, 5 * ?1, 6 * ?1, 7 * ?1, 8 * ?1)")?;
    let mut children = vec![0; parents.len()];
    insert.run(&[0, -1, 0])?;
    for (node, &parent) in (0..).zip(parents).skip(1) {
        let number = &mut children[parent as usize];
        insert.run(&[node, parent.into(), *number])?;
        *number += 1;
    }
    drop(insert);
    Some(database)
}

/// For each call a transaction with prepared statements: from the root down to the head that is its argument and on to the end of that
/// chain, where it adds 1 to the first field, which it answers. The same in so many databases, one after another. None where the library
/// isn't installed.
pub fn descend(parents: &[u32], args: &[i64], chain: u32, databases: u32) -> Option<Measured> {
    let mut measured = Measured::default();
    for _ in 0..databases {
        let database = filled(parents)?;
        let replies = run_all(&database, args, chain, &mut measured)?;
        mix_nodes(&database, parents.len(), &mut measured)?;
        measured.mix(replies);
        // As many events as an engine has: of each call an admission and an end, and two of each node from the root on.
        measured.mix(args.len() as u64 * (2 * (u64::from(chain) + 1) + 2));
    }
    Some(measured)
}

/// The sum of what the calls answer.
fn run_all(database: &Database, args: &[i64], chain: u32, measured: &mut Measured) -> Option<u64> {
    let begin = database.prepare("BEGIN IMMEDIATE")?;
    let child = database.prepare("SELECT id FROM nodes WHERE parent = ?1 AND number = ?2")?;
    let add = database.prepare("UPDATE nodes SET a = a + 1 WHERE id = ?1 RETURNING a")?;
    let commit = database.prepare("COMMIT")?;
    let mut replies = 0u64;
    let start = Instant::now();
    for &head in args {
        begin.run(&[])?;
        let mut node = child.run(&[0, (head - 1) / i64::from(chain)])??;
        for _ in 1..chain {
            node = child.run(&[node, 0])??;
        }
        replies = replies.wrapping_add(add.run(&[node])?? as u64);
        commit.run(&[])?;
    }
    measured.nanos += start.elapsed().as_nanos() as u64;
    measured.count += args.len() as u64;
    Some(replies)
}

fn mix_nodes(database: &Database, nodes: usize, measured: &mut Measured) -> Option<()> {
    let field = |name| database.prepare(&format!("SELECT {name} FROM nodes WHERE id = ?1"));
    let fields = [field("a")?, field("b")?, field("c")?, field("d")?, field("e")?, field("f")?, field("g")?, field("h")?];
    for node in 0..nodes as i64 {
        for field in &fields {
            measured.mix(field.run(&[node])?? as u64);
        }
    }
    Some(())
}
