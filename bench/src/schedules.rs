//! Trails that no core made: which nodes are locked when, with deep chains and many calls open at once.

use crate::codes;
use crate::trees::{chain, wide, NODES, OPEN};
use crate::twin::core::{Event, Procedures};
use crate::twin::instruction::decode;
use crate::twin::reader::read_trail;
use crate::twin::trail::{write_trail, ToldCall, Trail};
use crate::twin::tree::Tree;
use crate::twin::verifier::verify;

/// How many calls a trail takes.
const CALLS: u32 = 4_096;

/// The node that each call locks, and the order in which calls come, lock, free and end.
struct Schedule {
    events: Vec<Event>,
    nodes: Vec<u32>,
}

impl Schedule {
    /// The call of that number locks this node.
    fn new(node_of: impl Fn(u32) -> u32) -> Schedule {
        Schedule { events: Vec::new(), nodes: (0..CALLS).map(node_of).collect() }
    }

    fn admit(&mut self, call: u32) {
        self.events.push(Event::Admit { call });
    }

    fn lock(&mut self, call: u32) {
        self.events.push(Event::Lock { call, node: self.nodes[call as usize], record: [0; 8] });
    }

    fn leave(&mut self, call: u32) {
        self.events.push(Event::Free { call, node: self.nodes[call as usize], record: [0; 8] });
        self.events.push(Event::Done { call });
    }

    /// All of these calls come, then all lock their nodes, and then all leave.
    fn together(&mut self, calls: impl Iterator<Item = u32> + Clone) {
        calls.clone().for_each(|call| self.admit(call));
        calls.clone().for_each(|call| self.lock(call));
        calls.for_each(|call| self.leave(call));
    }

    /// The same, so many calls at a time.
    fn in_groups(mut self, size: u32) -> Schedule {
        for first in (0..CALLS).step_by(size as usize) {
            self.together(first..first + size);
        }
        self
    }

    /// The trail's text on the tree of these parents.
    fn text(self, parents: Vec<u32>) -> Option<String> {
        let tree = Tree::new(parents, vec![[0; 8]; NODES as usize]).ok()?;
        let mut procedures = Procedures::default();
        procedures.add("touch", verify(decode(&codes::touch()).ok()?).ok()?).ok()?;
        let told = |node: &u32| ToldCall { procedure: 0, args: vec![i64::from(*node)], reply: Some(Vec::new()) };
        let calls = self.nodes.iter().map(told).collect();
        let ends = tree.records.clone();
        Some(write_trail(&Trail { tree, procedures, calls, events: self.events, ends }))
    }
}

/// One call after another locks the end of a chain while call 0 holds its root.
fn below_the_root() -> Schedule {
    let mut schedule = Schedule::new(|call| if call == 0 { 0 } else { NODES - 1 });
    schedule.admit(0);
    schedule.lock(0);
    (1..CALLS).for_each(|call| schedule.together(call..call + 1));
    schedule.leave(0);
    schedule
}

/// Of each 64 calls 8 hold inner nodes of a wide tree, and the others come below them.
fn in_the_way(call: u32) -> u32 {
    let place = (call % u32::from(OPEN)) as u32;
    if place < 8 { 1 + place } else { 900 + 50 * place }
}

/// Each schedule's name, and its trail's text.
pub fn all() -> Option<Vec<(&'static str, String)>> {
    let end_of_chain = |call: u32| NODES - OPEN + (call % u32::from(OPEN)) as u32;
    Some(vec![
        ("one after another at the end of a chain", Schedule::new(|_| NODES - 1).in_groups(1).text(chain(NODES))?),
        ("the same while call 0 holds the root", below_the_root().text(chain(NODES))?),
        ("64 open, each below the one before, at the end of a chain", Schedule::new(end_of_chain).in_groups(OPEN.into()).text(chain(NODES))?),
        ("4,096 open, each below the one before", Schedule::new(|call| call as u32).in_groups(CALLS).text(chain(NODES))?),
        ("64 open in each other's way, nodes of eight children", Schedule::new(in_the_way).in_groups(OPEN.into()).text(wide(NODES))?),
    ])
}

/// The trail's text with its last event changed, so that it breaks a rule.
pub fn broken(text: &str) -> Option<String> {
    let mut trail = read_trail(text).ok()?;
    *trail.events.last_mut()? = Event::Admit { call: 0 };
    Some(write_trail(&trail))
}
