//! Engines, whose calls run on threads, and SQLite beside them.

use std::path::PathBuf;
use std::{env, fs, process};

use super::TWIN;
use crate::codes;
use crate::measured::Measured;
use crate::processes::Engines;
use crate::processors;
use crate::rounds::{are_alike, as_planned, in_turn, Plan, Side, Times, USUAL};
use crate::sqlite;
use crate::table::{Goal, Part, Row};
use crate::trees::{chains, heads, CALLS, CHAIN, NODES};

/// How many workers run the batches of an engine.
const WORKERS: [usize; 3] = [1, 2, 4];

/// How many times as fast more workers are goes by how many processors the host really gives at that moment, so that takes more rounds
/// than other work.
const PLAN: Plan = Plan { rounds: 10, ..USUAL };

/// Calls on threads: what they do, their code, the tree's nodes and the length of its chains, and how many engines are made.
struct OnThreads {
    work: &'static str,
    code: Vec<u8>,
    nodes: u32,
    chain: u32,
    engines: u32,
    /// How many turns a call takes: its locks, its frees and its return.
    turns: f64,
    /// How fast an engine is to be, beside the twin's.
    least: f64,
    /// What is asked of 2 workers against 1, and of 4 against 1.
    speedups: [Goal; 2],
}

/// Calls that lock two nodes of a subtree of their own, and do five local instructions at each so many times.
fn apart(work: &'static str, fives: u16, engines: u32, least: f64, speedups: [f64; 2]) -> OnThreads {
    OnThreads {
        work,
        code: codes::two_locks(fives),
        nodes: NODES,
        chain: CHAIN,
        engines,
        turns: 5.0,
        least,
        speedups: speedups.map(Goal::AtLeast),
    }
}

fn workloads() -> [OnThreads; 6] {
    [
        apart("two nodes of a subtree of its own, 10,000 local instructions at each", 2_000, 1, 0.9, [1.8, 3.4]),
        apart("two nodes of a subtree of its own, 1,000 local instructions at each", 200, 4, 0.9, [0.95, 1.2]),
        apart("two nodes of a subtree of its own, 300 local instructions at each", 60, 8, 0.8, [0.95, 0.95]),
        apart("two nodes of a subtree of its own, 100 local instructions at each", 20, 10, 0.7, [0.95, 0.95]),
        apart("two nodes of a subtree of its own, 20 local instructions at each", 4, 10, 0.6, [0.95, 0.95]),
        OnThreads {
            work: "walks of 127 nodes on one path",
            code: codes::walk(127),
            nodes: CHAIN + 1,
            chain: CHAIN,
            engines: 1,
            turns: 255.0,
            least: 0.9,
            speedups: [Goal::Speed, Goal::AtLeast(0.4)],
        },
    ]
}

/// A container in a file, which is gone when this is dropped.
struct Container(PathBuf);

impl Container {
    fn new(code: &[u8]) -> Result<Container, String> {
        let path = env::temp_dir().join(format!("treedb-bench-{}.tlp", process::id()));
        fs::write(&path, code).map_err(|error| error.to_string())?;
        Ok(Container(path))
    }
}

impl Drop for Container {
    fn drop(&mut self) {
        let _ = fs::remove_file(&self.0);
    }
}

/// Both sides' times, by the numbers of workers.
fn times_of(it: &OnThreads) -> Result<[[Times; 2]; WORKERS.len()], String> {
    let container = Container::new(&it.code)?;
    let engines = WORKERS.map(|workers| Engines {
        container: &container.0,
        workers,
        nodes: it.nodes,
        chain: it.chain,
        engines: it.engines,
    });
    let [one, two, four] = engines;
    let sides: [Side; 6] = [
        &mut || one.of_product(),
        &mut || one.of_twin(),
        &mut || two.of_product(),
        &mut || two.of_twin(),
        &mut || four.of_product(),
        &mut || four.of_twin(),
    ];
    let [a, b, c, d, e, f] = as_planned(it.work, PLAN, sides)?;
    [&b, &c, &d, &e, &f].into_iter().try_for_each(|other| are_alike(it.work, &a, other))?;
    Ok([[a, b], [c, d], [e, f]])
}

/// The same goal, where there are as many processors as workers.
fn if_they_fit(workers: usize, goal: Goal) -> Goal {
    if processors::count() >= workers {
        goal
    } else {
        goal.only_told()
    }
}

fn rows_of(it: &OnThreads) -> Result<Vec<Row>, String> {
    let times = times_of(it)?;
    let calls = times[0][0].came_to.count as f64;
    let mut rows = Vec::new();
    for ([ours, theirs], workers) in times.iter().zip(WORKERS) {
        let goal = if_they_fit(workers, Goal::AtLeast(it.least));
        let work = format!("{}, workers: {workers}", it.work);
        rows.push(Row::of_times(work, "ns a call", [ours, theirs], calls, goal));
    }
    let [one, ..] = &times;
    let turn = format!("a turn with one worker: {}", it.work);
    rows.push(Row::of_times(turn, "ns a turn", [&one[0], &one[1]], calls * it.turns, Goal::AtLeast(it.least)));
    for place in [1, 2] {
        let workers = WORKERS[place];
        let goal = if_they_fit(workers, it.speedups[place - 1]);
        let work = format!("product alone: {workers} workers, and 1");
        rows.push(Row::of_times(work, "ns a call", [&times[place][0], &one[0]], calls, goal));
    }
    Ok(rows)
}

pub fn threads() -> Result<Vec<Part>, String> {
    let of_workload = |it: OnThreads| {
        let heading = format!("Engines, 4,096 calls each in batches of 256: {}", it.work);
        Ok(Part::new(heading, TWIN, rows_of(&it)?))
    };
    workloads().into_iter().map(of_workload).collect()
}

const SQLITE: &str = "A procedure a transaction, beside SQLite in memory";

/// How many nodes a call locks below the root.
const WAY: u32 = 5;

/// How many cores, engines or databases run the calls in a round.
const ANEW: u32 = 4;

pub fn sqlite() -> Result<Part, String> {
    let (parents, args) = (chains(NODES, WAY), heads(CALLS, NODES, WAY));
    if sqlite::descend(&parents, &args, WAY, 1).is_none() {
        return Ok(Part::left_out(SQLITE, "Left out: SQLite isn't installed, or is too old (3.35 is needed)."));
    }
    let container = Container::new(&codes::descend(WAY as u16))?;
    // Without a worker a core is driven by one thread, one call after another.
    let [engine, core] = [1, 0].map(|workers| Engines {
        container: &container.0,
        workers,
        nodes: NODES,
        chain: WAY,
        engines: ANEW,
    });
    let [core, engine, theirs] = in_turn(
        SQLITE,
        [
            &mut || core.of_product(),
            &mut || engine.of_product(),
            &mut || sqlite::descend(&parents, &args, WAY, ANEW).unwrap_or(Measured::REFUSED),
        ],
    )?;
    let work = "the way down to a leaf of 4,096 nodes, five below the root; add to it, and answer";
    let row_of = |how: &str, ours: &Times, least: f64| -> Result<Row, String> {
        are_alike(SQLITE, ours, &theirs)?;
        let work = format!("{work}: {how}");
        Ok(Row::of_times(work, "ns a call", [ours, &theirs], f64::from(ANEW) * f64::from(CALLS), Goal::AtLeast(least)))
    };
    let rows = vec![
        row_of("a core whose order is kept, one thread", &core, 10.0)?,
        row_of("an engine with one worker, in batches of 256", &engine, 5.0)?,
    ];
    Ok(Part::new(SQLITE, "SQLite", rows))
}
