//! Many calls in turns.

use std::ops::Range;

use super::TWIN;
use crate::codes;
use crate::measured::Measured;
use crate::product;
use crate::rounds::{are_alike, both, in_turn};
use crate::table::{Goal, Part, Row};
use crate::trees::{chain, chains, heads, wide, CALLS, CHAIN, NODES, OPEN};
use crate::twin::turns as twin;

/// How many groups of 64 calls a core has one after another.
const GROUPS: usize = (CALLS / OPEN) as usize;

/// Calls of one code, one for each argument, on a tree.
struct Work {
    name: &'static str,
    code: Vec<u8>,
    parents: Vec<u32>,
    args: Vec<i64>,
}

fn walks() -> Work {
    Work {
        name: "4,096 walks of 127 nodes, nobody in the way",
        code: codes::walk(127),
        parents: chains(NODES, CHAIN),
        args: heads(CALLS, NODES, CHAIN),
    }
}

/// Calls that lock one node each.
fn touches(name: &'static str, parents: Vec<u32>, node_of: impl Fn(u32) -> u32) -> Work {
    let args = (0..CALLS).map(|call| i64::from(node_of(call % OPEN))).collect();
    Work { name, code: codes::touch(), parents, args }
}

/// The times of a core's groups of calls, and how many steps each had.
struct Groups {
    nanos: Vec<u64>,
    steps: Vec<u64>,
}

impl Groups {
    fn new() -> Groups {
        Groups { nanos: vec![0; GROUPS], steps: vec![0; GROUPS] }
    }

    fn per_step(&self, some: Range<usize>) -> f64 {
        let nanos: u64 = self.nanos[some.clone()].iter().sum();
        nanos as f64 / self.steps[some].iter().sum::<u64>() as f64
    }
}

/// The first and the last of the groups, by rounds: ns a step.
#[derive(Default)]
struct Ends {
    first: Vec<f64>,
    last: Vec<f64>,
}

pub fn core() -> Result<Part, String> {
    let Work { name, code, parents, args } = walks();
    let (mut groups, mut theirs) = (Groups::new(), Groups::new());
    let mut ends = Ends::default();
    let eighth = GROUPS / 8;
    let mut product = || {
        let measured = product::interleave(&code, &parents, &args, &mut groups.nanos, &mut groups.steps);
        ends.first.push(groups.per_step(0..eighth));
        ends.last.push(groups.per_step(GROUPS - eighth..GROUPS));
        measured
    };
    let mut twin = || twin::interleave(&code, &parents, &args, &mut theirs.nanos, &mut theirs.steps);
    let times = both(name, &mut product, &mut twin)?;
    if groups.steps != theirs.steps {
        return Err(format!("{name}: the steps differ"));
    }
    let steps = groups.steps.iter().sum::<u64>() as f64;
    let rows = vec![
        Row::of_times(format!("{name}: 1,048,576 events"), "ns a step", [&times[0], &times[1]], steps, Goal::AtLeast(0.9)),
        Row::paired(
            "product alone: a step in the last eighth of the calls, and in the first",
            "ns a step",
            &ends.last[1..],
            &ends.first[1..],
            Goal::AtMost(1.2),
        ),
    ];
    Ok(Part::new("A core, 64 open calls in turn, 4,096 nodes", TWIN, rows))
}

/// A core whose order is kept up to date beside the twin's, and what that adds to a core's step.
fn kept_rows(Work { name, code, parents, args }: &Work, more: Goal) -> Result<[Row; 2], String> {
    let [core, ours, theirs] = in_turn(
        name,
        [
            &mut || product::interleave(code, parents, args, &mut [], &mut []),
            &mut || product::keep(code, parents, args),
            &mut || twin::keep(code, parents, args),
        ],
    )?;
    are_alike(name, &ours, &theirs)?;
    let events = ours.came_to.count as f64;
    let beyond = format!("product alone: with the order kept, and without: {name}");
    Ok([
        Row::of_times(*name, "ns an event", [&ours, &theirs], events, Goal::AtLeast(0.8)),
        Row::of_times(beyond, "ns an event", [&ours, &core], events, more),
    ])
}

pub fn running() -> Result<Part, String> {
    let deep = touches("64 open, each below the one before, at the end of a chain", chain(NODES), |place| {
        NODES - OPEN + place
    });
    let spread = touches("64 open, nodes of eight children", wide(NODES), |place| 1 + 60 * place);
    let mut rows = Vec::from(kept_rows(&walks(), Goal::AtMostMore(10.0))?);
    rows.extend(kept_rows(&deep, Goal::Cost)?);
    rows.extend(kept_rows(&spread, Goal::Cost)?);
    Ok(Part::new("`Running`: a core whose order is kept up to date, 64 open calls in turn", TWIN, rows))
}

/// Both sides' work, a unit of which is what they count.
fn counted_row(
    name: &str,
    unit: &'static str,
    goal: Goal,
    ours: impl Fn() -> Measured,
    theirs: impl Fn() -> Measured,
) -> Result<Row, String> {
    let [ours, theirs] = both(name, &mut || ours(), &mut || theirs())?;
    Ok(Row::of_times(name, unit, [&ours, &theirs], ours.came_to.count as f64, goal))
}

pub fn others() -> Result<Part, String> {
    let Work { code, parents, args, .. } = walks();
    let (touch, asked) = (codes::touch(), 200_000);
    let nodes: Vec<i64> = (0..i64::from(CALLS)).collect();
    let rows = vec![
        counted_row(
            "`admit`: 4,096 calls that lock a node each",
            "ns a call",
            Goal::AtLeast(0.9),
            || product::admit(&touch, &parents, &nodes),
            || twin::admit(&touch, &parents, &nodes),
        )?,
        counted_row(
            "`replay`: 4,096 walks of 127 nodes",
            "ns a call",
            Goal::Speed,
            || product::replay(&code, &parents, &args),
            || twin::replay(&code, &parents, &args),
        )?,
        counted_row(
            "a seal: 4,096 calls that locked a node each are done, 4,096 nodes",
            "ns a seal",
            Goal::Speed,
            || product::seal(&touch, &parents, &nodes),
            || twin::seal(&touch, &parents, &nodes),
        )?,
        counted_row(
            "a step that is blocked",
            "ns a step",
            Goal::Speed,
            || product::block(&touch, asked),
            || twin::block(&touch, asked),
        )?,
    ];
    Ok(Part::new("What else a core does", TWIN, rows))
}
