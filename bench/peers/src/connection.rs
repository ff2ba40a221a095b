//! A connection to a server of whatever kind.

use std::io::{Read, Write};
use std::net::{Ipv4Addr, TcpStream};
use std::thread;
use std::time::{Duration, Instant};

use crate::Result;

/// How long a server that starts is waited for.
const START: Duration = Duration::from_secs(20);

/// How long an answer is waited for.
const PATIENCE: Duration = Duration::from_secs(60);

/// How many bytes are read at once at most.
const PIECE: usize = 1 << 16;

/// What a reader of answers finds at the front of some bytes: an answer and its length, or nothing where it isn't whole yet.
pub type Found<A> = Result<Option<(A, usize)>>;

pub struct Connection {
    stream: TcpStream,
    /// The bytes that were read and not yet taken stand from `taken` to `filled`.
    bytes: Vec<u8>,
    taken: usize,
    filled: usize,
}

impl Connection {
    /// A connection to a local port, where a server may only be starting.
    pub fn open(port: u16) -> Result<Connection> {
        let start = Instant::now();
        let stream = loop {
            match TcpStream::connect((Ipv4Addr::LOCALHOST, port)) {
                Ok(stream) => break stream,
                Err(error) if start.elapsed() > START => return Err(error.into()),
                Err(_) => thread::sleep(Duration::from_millis(20)),
            }
        };
        stream.set_nodelay(true)?;
        stream.set_read_timeout(Some(PATIENCE))?;
        stream.set_write_timeout(Some(PATIENCE))?;
        Ok(Connection { stream, bytes: vec![0; 4 * PIECE], taken: 0, filled: 0 })
    }

    pub fn send(&mut self, bytes: &[u8]) -> Result<()> {
        Ok(self.stream.write_all(bytes)?)
    }

    /// The next answer.
    pub fn take<A>(&mut self, read: impl Fn(&[u8]) -> Found<A>) -> Result<A> {
        loop {
            if let Some((answer, length)) = read(&self.bytes[self.taken..self.filled])? {
                self.taken += length;
                return Ok(answer);
            }
            self.fill()?;
        }
    }

    /// Sends a request, and takes its answer.
    pub fn ask<A>(&mut self, request: &[u8], read: impl Fn(&[u8]) -> Found<A>) -> Result<A> {
        self.send(request)?;
        self.take(read)
    }

    /// Reads more bytes, at least one.
    fn fill(&mut self) -> Result<()> {
        self.bytes.copy_within(self.taken..self.filled, 0);
        self.filled -= self.taken;
        self.taken = 0;
        if self.bytes.len() < self.filled + PIECE {
            self.bytes.resize(2 * self.bytes.len(), 0);
        }
        let read = self.stream.read(&mut self.bytes[self.filled..])?;
        if read == 0 {
            return Err("the server ended the connection".into());
        }
        self.filled += read;
        Ok(())
    }
}
