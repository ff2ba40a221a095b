//! A server is asked for calls, by the clock.

use std::sync::Barrier;
use std::thread;
use std::time::{Duration, Instant};

use crate::calls::{Call, Record, Work};
use crate::connection::Connection;
use crate::sides::{Answers, Server};
use crate::ways::Way;
use crate::Result;

/// What came of a side's calls.
pub struct Measured {
    /// From the first request to the last answer.
    pub took: Duration,
    /// What each burst took: a call, where calls are asked for one by one.
    pub bursts: Vec<Duration>,
    pub answers: Answers,
    /// The records in the end.
    pub records: Vec<Record>,
}

/// Requests that are sent in one write, before their answers are read.
struct Burst {
    bytes: Vec<u8>,
    answers: usize,
}

/// The requests of a connection: those that only warm up, and those that are timed. All are written beforehand.
struct Script {
    before: Vec<Burst>,
    timed: Vec<Burst>,
}

/// What a connection's requests came to.
struct Done {
    start: Instant,
    end: Instant,
    bursts: Vec<Duration>,
    answers: Answers,
}

/// All calls are made from the tree as at the start; those of `before` are made before the clock starts.
pub fn measure(server: &mut dyn Server, work: Work, way: Way, before: &[Call], timed: &[Call]) -> Result<Measured> {
    let mut connections = server.begin(work, way.connections())?;
    let scripts = (0..way.connections())
        .map(|nth| Script { before: bursts(server, way, before, nth), timed: bursts(server, way, timed, nth) });
    let done = all_done(server, &mut connections, scripts.collect())?;
    let records = server.end(connections)?;
    let start = done.iter().map(|done| done.start).min().ok_or("no connection")?;
    let end = done.iter().map(|done| done.end).max().ok_or("no connection")?;
    let mut answers = Answers::default();
    done.iter().for_each(|done| answers.add(done.answers));
    if answers.count != timed.len() {
        return Err(format!("{} calls, and {} answers", timed.len(), answers.count).into());
    }
    Ok(Measured { took: end - start, bursts: done.into_iter().flat_map(|done| done.bursts).collect(), answers, records })
}

/// The bursts of one connection, which makes each so manieth call.
fn bursts(server: &dyn Server, way: Way, calls: &[Call], connection: usize) -> Vec<Burst> {
    let own: Vec<Call> = calls.iter().skip(connection).step_by(way.connections()).cloned().collect();
    let burst = |calls: &[Call]| {
        let mut bytes = Vec::new();
        let answers = server.put(way, calls, &mut bytes);
        Burst { bytes, answers }
    };
    own.chunks(way.burst()).map(burst).collect()
}

/// Each connection does its script, all at once where there are several.
fn all_done(server: &dyn Server, connections: &mut [Connection], scripts: Vec<Script>) -> Result<Vec<Done>> {
    let ready = Barrier::new(scripts.len());
    thread::scope(|scope| {
        let start = |(connection, script)| {
            let ready = &ready;
            scope.spawn(move || done(server, connection, &script, ready))
        };
        let threads: Vec<_> = connections.iter_mut().zip(scripts).map(start).collect();
        threads.into_iter().map(|thread| thread.join().map_err(|_| "a connection's thread panicked")?).collect()
    })
}

fn done(server: &dyn Server, connection: &mut Connection, script: &Script, ready: &Barrier) -> Result<Done> {
    let warmed = script.before.iter().try_for_each(|burst| ask(server, connection, burst).map(drop));
    // The others wait for this one even where it fails.
    ready.wait();
    warmed?;
    let (mut bursts, mut answers) = (Vec::with_capacity(script.timed.len()), Answers::default());
    let start = Instant::now();
    let mut end = start;
    for burst in &script.timed {
        answers.add(ask(server, connection, burst)?);
        let now = Instant::now();
        bursts.push(now - end);
        end = now;
    }
    Ok(Done { start, end, bursts, answers })
}

/// Sends a burst, and takes all its answers.
fn ask(server: &dyn Server, connection: &mut Connection, burst: &Burst) -> Result<Answers> {
    connection.send(&burst.bytes)?;
    let mut answers = Answers::default();
    for _ in 0..burst.answers {
        answers.add(connection.take(|bytes| server.answer(bytes))?);
    }
    Ok(answers)
}
