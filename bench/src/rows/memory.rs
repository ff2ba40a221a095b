//! How much memory it takes.

use std::{env, fs, process};

use super::walks;
use crate::codes;
use crate::counting::most_bytes;
use crate::processes::memory_of_treedb;
use crate::product;
use crate::table::{Goal, Part, Row};
use crate::trees::{chains, heads, CALLS, CHAIN, NODES};
use crate::twin::turns as twin;

/// What a stored event is at least: a kind, a call, a node and eight fields.
const EVENT: f64 = 71.0;

/// What a done call is at least: a procedure's number, eight arguments and 32 emitted values, and how many.
const DONE_CALL: f64 = 326.0;

/// What a node is at least: a parent, two records and a holder.
const NODE: f64 = 135.0;

/// Bytes on both sides: the product's, and the twin's.
type Bytes = [f64; 2];

/// The most bytes that a core of so many nodes takes for so many calls with so many locks each.
fn bytes(nodes: u32, calls: u32, locks: u16) -> Bytes {
    let (code, parents, args) = (codes::walk(locks), chains(nodes, CHAIN), heads(calls, nodes, CHAIN));
    let ours = most_bytes(|| {
        product::interleave(&code, &parents, &args, &mut [], &mut []);
    });
    let theirs = most_bytes(|| {
        twin::interleave(&code, &parents, &args, &mut [], &mut []);
    });
    [ours as f64, theirs as f64]
}

/// How much one more of something takes.
fn each(more: Bytes, less: Bytes, count: f64) -> Bytes {
    [0, 1].map(|side| (more[side] - less[side]) / count)
}

fn row(work: &str, [ours, theirs]: Bytes, plain: f64) -> Row {
    let work = format!("{work}; the twin takes {theirs:.0}");
    Row::paired(work, "bytes", &[ours], &[plain], Goal::AtMost(2.0))
}

pub fn structures() -> Part {
    // Each call has an event for its admission and one for its end, and two of each lock.
    let events = each(bytes(NODES, CALLS, 100), bytes(NODES, CALLS, 2), f64::from(CALLS) * 196.0);
    let both = each(bytes(NODES, CALLS, 2), bytes(NODES, CALLS / 2, 2), f64::from(CALLS / 2));
    let calls = [0, 1].map(|side| both[side] - 6.0 * events[side]);
    let nodes = each(bytes(NODES, 64, 63), bytes(NODES / 2, 64, 63), f64::from(NODES / 2));
    let rows = vec![
        row("an event", events, EVENT),
        row("a done call, of which only what it was asked and what it answered is needed", calls, DONE_CALL),
        row("a node", nodes, NODE),
    ];
    Part::new("Memory of a core", "plain data", rows)
}

const HEADING: &str = "Memory of `treedb audit`";

pub fn audit() -> Result<Part, String> {
    let text = walks(127)?;
    let path = env::temp_dir().join(format!("treedb-bench-{}.json", process::id()));
    fs::write(&path, &text).map_err(|error| error.to_string())?;
    let most = path.to_str().and_then(|path| memory_of_treedb(&["audit", path]));
    fs::remove_file(&path).map_err(|error| error.to_string())?;
    let Some(most) = most else {
        return Ok(Part::left_out(HEADING, "Left out: the program isn't built."));
    };
    let of_file = most as f64 / text.len() as f64;
    let row = Row::alone("a trail of 1,048,576 events", "bytes a byte of the file", &[of_file], Goal::Within(5.0));
    Ok(Part::new(HEADING, "", vec![row]))
}
