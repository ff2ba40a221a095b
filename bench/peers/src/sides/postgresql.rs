//! PostgreSQL: functions in PL/pgSQL, by prepared statements.

use super::{Answers, Server, Side};
use crate::calls::{parent, place, record, Call, Record, Work, NODES};
use crate::connection::{Connection, Found};
use crate::keeping::Keeping;
use crate::measuring::{measure, Measured};
use crate::messages::{self, Rows};
use crate::ways::Way;
use crate::Result;

const FUNCTIONS: &str = include_str!("../../procedures/postgresql.sql");

/// Has all changes of the table written to the log.
const LOGGED: &str = "alter table peers.nodes set logged";

/// What the server says of its settings, and what it has to say where calls are kept on a disk.
const SETTINGS: [(&str, &str); 3] = [("fsync", "on"), ("synchronous_commit", "on"), ("full_page_writes", "on")];

/// How the script starts the server.
const USER: &str = "peers";
const DATABASE: &str = "postgres";

pub struct PostgreSql {
    port: u16,
    keeping: Keeping,
    is_ready: bool,
}

impl PostgreSql {
    /// A server that runs on this port, and was started so that it keeps calls there.
    pub fn new(port: u16, keeping: Keeping) -> PostgreSql {
        PostgreSql { port, keeping, is_ready: false }
    }

    fn open(&self) -> Result<Connection> {
        let mut request = Vec::new();
        messages::put_start(USER, DATABASE, &mut request);
        let mut connection = Connection::open(self.port)?;
        connection.ask(&request, messages::rows)?;
        Ok(connection)
    }
}

/// Does statements, and returns the rows of all.
fn done(connection: &mut Connection, statements: &str) -> Result<Rows> {
    let mut request = Vec::new();
    messages::put_query(statements, &mut request);
    connection.ask(&request, messages::rows)
}

/// The first column of the first row that a statement answers.
fn said(connection: &mut Connection, statement: &str) -> Result<String> {
    let Rows(rows) = done(connection, statement)?;
    Ok(rows.into_iter().flatten().next().unwrap_or_default())
}

/// The settings, which have to be those by which calls are kept on a disk.
fn settings(connection: &mut Connection) -> Result<String> {
    let mut told = Vec::new();
    for (name, wanted) in SETTINGS {
        let value = said(connection, &format!("show {name}"))?;
        if value != wanted {
            return Err(format!("PostgreSQL has {name}={value}").into());
        }
        told.push(format!("`{name}={value}`"));
    }
    let method = said(connection, "show wal_sync_method")?;
    told.push(format!("`wal_sync_method={method}`"));
    Ok(told.join(", "))
}

/// Statements that make the tree as at the start.
fn tree() -> String {
    let row = |node: i64| {
        let [f0, f1, f2, f3] = record(node);
        let above = if node == 0 { "null, null".to_string() } else { format!("{}, {}", parent(node), place(node)) };
        format!("({node}, {above}, {f0}, {f1}, {f2}, {f3})")
    };
    let rows: Vec<String> = (0..NODES).map(row).collect();
    format!("truncate peers.nodes; insert into peers.nodes values {}", rows.join(", "))
}

/// A statement that calls a procedure.
fn statement(work: Work) -> String {
    let places: Vec<String> = (1..=work.arity()).map(|place| format!("${place}")).collect();
    format!("select peers.{}({})", work.name(), places.join(", "))
}

fn record_of(columns: Vec<String>) -> Option<Record> {
    let numbers: Option<Vec<i64>> = columns.iter().map(|text| text.parse().ok()).collect();
    numbers?.try_into().ok()
}

impl Side for PostgreSql {
    fn name(&self) -> &'static str {
        "PostgreSQL"
    }

    fn made(&mut self) -> Result<String> {
        let mut connection = self.open()?;
        let version = said(&mut connection, "show server_version")?;
        let kept = match self.keeping {
            Keeping::Memory => "an unlogged table, `synchronous_commit=off`".to_string(),
            Keeping::Disk => format!("a logged table, {}", settings(&mut connection)?),
        };
        Ok(format!("PostgreSQL {version}; {kept}, no autovacuum; PL/pgSQL functions by prepared statements"))
    }

    fn measure(&mut self, work: Work, way: Way, before: &[Call], timed: &[Call]) -> Result<Measured> {
        measure(self, work, way, before, timed)
    }
}

impl Server for PostgreSql {
    fn begin(&mut self, work: Work, connections: usize) -> Result<Vec<Connection>> {
        let mut all = (0..connections).map(|_| self.open()).collect::<Result<Vec<_>>>()?;
        if !self.is_ready {
            done(&mut all[0], FUNCTIONS)?;
            if self.keeping == Keeping::Disk {
                done(&mut all[0], LOGGED)?;
            }
            self.is_ready = true;
        }
        done(&mut all[0], &tree())?;
        done(&mut all[0], "vacuum analyze peers.nodes")?;
        let mut request = Vec::new();
        messages::put_prepare(work.name(), &statement(work), &mut request);
        for connection in &mut all {
            connection.ask(&request, messages::rows)?;
        }
        Ok(all)
    }

    fn put(&self, _way: Way, calls: &[Call], out: &mut Vec<u8>) -> usize {
        calls.iter().for_each(|Call { work, args }| messages::put_call(work.name(), args, out));
        calls.len()
    }

    fn answer(&self, bytes: &[u8]) -> Found<Answers> {
        Ok(messages::number(bytes)?.map(|(number, length)| (Answers::one(number), length)))
    }

    fn end(&mut self, mut connections: Vec<Connection>) -> Result<Vec<Record>> {
        let Rows(rows) = done(&mut connections[0], "select f0, f1, f2, f3 from peers.nodes order by id")?;
        rows.into_iter().map(|columns| record_of(columns).ok_or_else(|| "PostgreSQL has other records".into())).collect()
    }
}
