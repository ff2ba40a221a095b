//! Redis: functions in Lua, and the plain command for `add`.

use super::{Answers, Server, Side};
use crate::calls::{children, record, Call, Record, Work, NODES};
use crate::connection::{Connection, Found};
use crate::keeping::Keeping;
use crate::measuring::{measure, Measured};
use crate::resp::{self, Value};
use crate::ways::Way;
use crate::Result;

const FUNCTIONS: &str = include_str!("../../procedures/redis.lua");

/// What the server says of its settings where calls are kept on a disk.
const SETTINGS: [(&str, &str); 3] = [("save", ""), ("appendonly", "yes"), ("appendfsync", "always")];

/// Whether `add` is a function or the command that does the same.
#[derive(Clone, Copy, PartialEq)]
pub enum Form {
    Function,
    Command,
}

pub struct Redis {
    port: u16,
    form: Form,
    keeping: Keeping,
}

impl Redis {
    /// A server that runs on this port, and was started so that it keeps calls there.
    pub fn new(port: u16, form: Form, keeping: Keeping) -> Redis {
        Redis { port, form, keeping }
    }
}

/// Writes a command.
fn put(words: &[&str], out: &mut Vec<u8>) {
    out.extend(format!("*{}\r\n", words.len()).bytes());
    words.iter().for_each(|word| out.extend(format!("${}\r\n{word}\r\n", word.len()).bytes()));
}

/// Gives a command, and returns what it answers.
fn done(connection: &mut Connection, words: &[&str]) -> Result<Value> {
    let mut request = Vec::new();
    put(words, &mut request);
    connection.ask(&request, resp::value)
}

/// The settings have to be those by which calls are kept on a disk.
fn check_settings(connection: &mut Connection) -> Result<()> {
    for (name, wanted) in SETTINGS {
        let said = done(connection, &["CONFIG", "GET", name])?;
        if said != Value::List(vec![Value::Text(name.to_string()), Value::Text(wanted.to_string())]) {
            return Err(format!("Redis has the setting {said:?}").into());
        }
    }
    Ok(())
}

/// The command that makes a node.
fn put_node(node: i64, out: &mut Vec<u8>) {
    let mut words = vec!["HSET".to_string(), format!("n:{node}")];
    for (field, number) in record(node).iter().enumerate() {
        words.extend([field.to_string(), number.to_string()]);
    }
    for (place, child) in children(node).enumerate() {
        words.extend([format!("c{place}"), child.to_string()]);
    }
    put(&words.iter().map(String::as_str).collect::<Vec<_>>(), out);
}

/// The record that the fields of a node say.
fn record_of(value: Value) -> Option<Record> {
    let Value::List(fields) = value else { return None };
    let numbers: Option<Vec<i64>> = fields.iter().map(Value::number).collect();
    numbers?.try_into().ok()
}

impl Side for Redis {
    fn name(&self) -> &'static str {
        match self.form {
            Form::Function => "Redis function",
            Form::Command => "Redis `HINCRBY`",
        }
    }

    fn made(&mut self) -> Result<String> {
        if self.form == Form::Command {
            return Ok("the same server, and the plain command".to_string());
        }
        let mut connection = Connection::open(self.port)?;
        let Value::Text(said) = done(&mut connection, &["INFO", "server"])? else {
            return Err("Redis doesn't say its version".into());
        };
        let kept = match self.keeping {
            Keeping::Memory => "nothing is saved (`--save \"\" --appendonly no`)",
            Keeping::Disk => {
                check_settings(&mut connection)?;
                "each write is in its log before it is answered (`--save \"\" --appendonly yes --appendfsync always`)"
            }
        };
        let version = said.lines().find_map(|line| line.strip_prefix("redis_version:")).unwrap_or("of an unknown version");
        Ok(format!("Redis {version}; {kept}; Lua functions by `FCALL`"))
    }

    fn serves(&self, work: Work) -> bool {
        self.form == Form::Function || work == Work::Add
    }

    fn measure(&mut self, work: Work, way: Way, before: &[Call], timed: &[Call]) -> Result<Measured> {
        measure(self, work, way, before, timed)
    }
}

impl Server for Redis {
    fn begin(&mut self, _work: Work, connections: usize) -> Result<Vec<Connection>> {
        let mut all = (0..connections).map(|_| Connection::open(self.port)).collect::<Result<Vec<_>>>()?;
        done(&mut all[0], &["FLUSHALL"])?;
        done(&mut all[0], &["FUNCTION", "LOAD", "REPLACE", FUNCTIONS])?;
        let mut requests = Vec::new();
        (0..NODES).for_each(|node| put_node(node, &mut requests));
        all[0].send(&requests)?;
        for _ in 0..NODES {
            all[0].take(resp::value)?;
        }
        Ok(all)
    }

    fn put(&self, _way: Way, calls: &[Call], out: &mut Vec<u8>) -> usize {
        for Call { work, args } in calls {
            let mut words: Vec<String> = match (work, self.form) {
                (Work::Add, Form::Command) => vec!["HINCRBY".into(), format!("n:{}", args[0]), "0".into(), args[1].to_string()],
                (Work::Add, Form::Function) => {
                    vec!["FCALL".into(), "add".into(), "1".into(), format!("n:{}", args[0]), args[1].to_string()]
                }
                (Work::Path, _) => vec!["FCALL".into(), "path".into(), "1".into(), "n:0".into()],
                (Work::Sum, _) => vec!["FCALL".into(), "sum".into(), "1".into(), format!("n:{}", args[0])],
                (Work::Long, _) => vec!["FCALL".into(), "long".into(), "1".into(), format!("n:{}", args[0])],
            };
            if matches!(work, Work::Path | Work::Long) {
                words.extend(args.iter().map(i64::to_string));
            }
            put(&words.iter().map(String::as_str).collect::<Vec<_>>(), out);
        }
        calls.len()
    }

    fn answer(&self, bytes: &[u8]) -> Found<Answers> {
        match resp::value(bytes)? {
            None => Ok(None),
            Some((Value::Integer(number), length)) => Ok(Some((Answers::one(number), length))),
            Some((other, _)) => Err(format!("Redis answers {other:?}").into()),
        }
    }

    fn end(&mut self, mut connections: Vec<Connection>) -> Result<Vec<Record>> {
        let mut requests = Vec::new();
        (0..NODES).for_each(|node| put(&["HMGET", &format!("n:{node}"), "0", "1", "2", "3"], &mut requests));
        connections[0].send(&requests)?;
        let record = |_| record_of(connections[0].take(resp::value)?).ok_or_else(|| "Redis has other records".into());
        (0..NODES).map(record).collect()
    }
}
