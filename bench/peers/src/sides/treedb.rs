//! treedb: a server for each measurement, since only at its end it says which tree is left.

use std::fs;
use std::io::{BufRead, BufReader, ErrorKind, Read};
use std::net::{Ipv4Addr, TcpListener};
use std::path::{Path, PathBuf};
use std::process::{Child, ChildStderr, Command, Stdio};
use std::time::Instant;

use super::{Answers, Server, Side};
use crate::calls::{parent, record, Call, Record, Work, NODES};
use crate::connection::{Connection, Found};
use crate::keeping::Keeping;
use crate::lines;
use crate::measuring::{measure, Measured};
use crate::spread::middle;
use crate::ways::Way;
use crate::Result;

const SEAL: &[u8] = b"{\"op\":\"seal\"}\n";

pub struct TreeDb {
    program: PathBuf,
    /// the file with the tree as at the start
    tree: PathBuf,
    /// the file of the store, where there is one
    store: Option<PathBuf>,
    /// the lines that register the procedures
    registrations: Vec<String>,
    server: Option<Running>,
    /// what the seals behind all calls of a server took, in microseconds
    seals: Vec<f64>,
}

impl TreeDb {
    /// The program, the file with its procedures, a folder for its files, and where calls are kept.
    pub fn new(program: &Path, procedures: &Path, folder: &Path, keeping: Keeping) -> Result<TreeDb> {
        let tree = folder.join("tree.json");
        fs::write(&tree, tree_text())?;
        let registrations = lines::registrations(&printed(program, &["procs".as_ref(), procedures])?)?;
        let store = (keeping == Keeping::Disk).then(|| folder.join("treedb.db"));
        Ok(TreeDb { program: program.to_path_buf(), tree, store, registrations, server: None, seals: Vec::new() })
    }
}

/// What a run of the program prints.
fn printed(program: &Path, words: &[&Path]) -> Result<String> {
    let done = Command::new(program).args(words).stderr(Stdio::inherit()).output()?;
    match done.status.success() {
        true => Ok(String::from_utf8(done.stdout)?),
        false => Err(format!("treedb ends with {}", done.status).into()),
    }
}

fn tree_text() -> String {
    let parents: Vec<i64> = (0..NODES).map(|node| if node == 0 { 0 } else { parent(node) }).collect();
    let records: Vec<Record> = (0..NODES).map(record).collect();
    format!("{{\"parents\":{parents:?},\"records\":{records:?}}}\n")
}

fn free_port() -> Result<u16> {
    Ok(TcpListener::bind((Ipv4Addr::LOCALHOST, 0))?.local_addr()?.port())
}

/// Removes a file, where it is there.
fn remove(file: &Path) -> Result<()> {
    match fs::remove_file(file) {
        Err(error) if error.kind() != ErrorKind::NotFound => Err(error.into()),
        _ => Ok(()),
    }
}

/// A running server. It is ended when this is dropped.
struct Running {
    child: Child,
    port: u16,
    /// where it is asked to stop, if it doesn't end with its connections
    control: Option<u16>,
    /// It stays open, so that the server can write to it.
    _errors: BufReader<ChildStderr>,
}

impl Running {
    /// A server that listens. It ends with its connections, or it makes a new store and is asked to stop.
    fn start(program: &Path, tree: &Path, store: Option<&Path>, connections: usize) -> Result<Running> {
        let port = free_port()?;
        let mut command = Command::new(program);
        command.args(["serve", "--port", &port.to_string(), "--tree"]).arg(tree);
        let mut control = None;
        match store {
            None => drop(command.args(["--connections", &connections.to_string()])),
            Some(file) => {
                remove(file)?;
                remove(&file.with_extension("db-wal"))?;
                let port = free_port()?;
                command.args(["--control", &port.to_string(), "--store"]).arg(file);
                control = Some(port);
            }
        }
        let mut child = command.stdout(Stdio::piped()).stderr(Stdio::piped()).spawn()?;
        let mut errors = BufReader::new(child.stderr.take().ok_or("no standard error")?);
        let mut said = String::new();
        errors.read_line(&mut said)?;
        let server = Running { child, port, control, _errors: errors };
        match said.contains("listening") {
            true => Ok(server),
            false => Err(format!("treedb doesn't listen: {said}").into()),
        }
    }

    /// Waits for its end, and returns what it printed.
    fn printed(mut self, program: &Path) -> Result<String> {
        if let Some(port) = self.control {
            printed(program, &["stop".as_ref(), "--port".as_ref(), port.to_string().as_ref()])?;
        }
        let mut printed = String::new();
        let mut out = self.child.stdout.take().ok_or("no standard output")?;
        out.read_to_string(&mut printed)?;
        match self.child.wait()? {
            status if status.success() => Ok(printed),
            status => Err(format!("treedb ends with {status}").into()),
        }
    }
}

impl Drop for Running {
    fn drop(&mut self) {
        // One that has ended isn't killed, which is no matter.
        let _ = self.child.kill();
        let _ = self.child.wait();
    }
}

impl Side for TreeDb {
    fn name(&self) -> &'static str {
        "treedb"
    }

    fn made(&mut self) -> Result<String> {
        let version = printed(&self.program, &["--version".as_ref()])?;
        let version = version.split(" (").next().unwrap_or_default();
        let kept = match self.store {
            None => "",
            Some(_) => "each call is in a file before it is answered (`--store`); ",
        };
        Ok(format!("{}; {kept}a server for each measurement, whose start isn't timed", version.trim()))
    }

    fn ways(&self) -> &'static [Way] {
        match self.store {
            None => Keeping::Memory.ways(),
            Some(_) => Keeping::Disk.ways(),
        }
    }

    fn measure(&mut self, work: Work, way: Way, before: &[Call], timed: &[Call]) -> Result<Measured> {
        measure(self, work, way, before, timed)
    }

    fn note(&self) -> Option<String> {
        let micros = middle(&self.seals);
        Some(format!("treedb has room for 4,096 calls in an epoch, which then has to be sealed. A seal took {micros:.0} microseconds, and isn't in these numbers."))
    }
}

impl Server for TreeDb {
    fn begin(&mut self, _work: Work, connections: usize) -> Result<Vec<Connection>> {
        let server = Running::start(&self.program, &self.tree, self.store.as_deref(), connections)?;
        let mut all = (0..connections).map(|_| Connection::open(server.port)).collect::<Result<Vec<_>>>()?;
        self.server = Some(server);
        for line in &self.registrations {
            all[0].ask(line.as_bytes(), answered("{\"bounds\":"))?;
        }
        Ok(all)
    }

    fn put(&self, way: Way, calls: &[Call], out: &mut Vec<u8>) -> usize {
        let mut lines = String::new();
        let answers = match way {
            Way::Batch { workers } => {
                lines::put_batch(calls, workers, &mut lines);
                1
            }
            _ => {
                calls.iter().for_each(|call| lines::put_call(call, &mut lines));
                calls.len()
            }
        };
        out.extend(lines.bytes());
        answers
    }

    fn answer(&self, bytes: &[u8]) -> Found<Answers> {
        lines::answers(bytes)
    }

    fn end(&mut self, mut connections: Vec<Connection>) -> Result<Vec<Record>> {
        let start = Instant::now();
        connections[0].ask(SEAL, answered("{\"sealed\":"))?;
        self.seals.push(start.elapsed().as_secs_f64() * 1e6);
        drop(connections);
        let server = self.server.take().ok_or("no server runs")?;
        let printed = server.printed(&self.program)?;
        lines::records(printed.lines().last().unwrap_or_default())
    }
}

/// A reader of a line that begins so.
fn answered(beginning: &str) -> impl Fn(&[u8]) -> Found<()> + '_ {
    move |bytes| match lines::line(bytes)? {
        None => Ok(None),
        Some((line, length)) if line.starts_with(beginning) => Ok(Some(((), length))),
        Some((line, _)) => Err(format!("treedb answers {line}").into()),
    }
}
