//! The order by its definition, for any history.

use super::core::Event;
use super::tree::Shape;

/// What a call has done to a node so far.
#[derive(Clone, Copy, Debug, PartialEq, Eq)]
enum Mark {
    Untouched,
    Held,
    Freed,
}

/// What one call has locked and freed so far.
#[derive(Clone, Debug, Default)]
struct Part {
    /// one a node, or empty while nothing was locked
    marks: Vec<Mark>,
    held: usize,
}

impl Part {
    fn locked_any(&self) -> bool {
        !self.marks.is_empty()
    }

    fn holds_any(&self) -> bool {
        self.held > 0
    }

    fn has_locked(&self, node: u32) -> bool {
        self.locked_any() && self.marks[node as usize] != Mark::Untouched
    }

    fn holds(&self, node: u32) -> bool {
        self.locked_any() && self.marks[node as usize] == Mark::Held
    }

    fn lock(&mut self, node: u32, shape: &Shape) {
        if self.marks.is_empty() {
            self.marks = vec![Mark::Untouched; shape.node_count()];
        }
        if !self.holds(node) {
            self.held += 1;
        }
        self.marks[node as usize] = Mark::Held;
    }

    fn free(&mut self, node: u32) {
        if self.holds(node) {
            self.held -= 1;
            self.marks[node as usize] = Mark::Freed;
        }
    }

    /// Whether the call may still lock the node: it hasn't yet, and of the nodes above, it holds the nearest that it
    /// locked.
    fn may_come(&self, node: u32, shape: &Shape) -> bool {
        if !self.holds_any() || self.has_locked(node) {
            return false;
        }
        let mut node = node;
        while node != 0 {
            node = shape.parent(node);
            match self.marks[node as usize] {
                Mark::Untouched => {}
                mark => return mark == Mark::Held,
            }
        }
        false
    }
}

/// The order of any history. At its first lock a call is put in just before the first call that may still come to that node, or at the end. A
/// call that is done without a lock goes to the end.
pub fn order_of(events: &[Event], shape: &Shape) -> Vec<u32> {
    let mut parts: Vec<Part> = Vec::new();
    let mut stands: Vec<bool> = Vec::new();
    let mut order: Vec<u32> = Vec::new();
    for event in events {
        let call = event.call() as usize;
        if call >= parts.len() {
            parts.resize_with(call + 1, Part::default);
            stands.resize(call + 1, false);
        }
        match *event {
            Event::Lock { node, .. } => {
                if !stands[call] {
                    let place = order.iter().position(|&other| parts[other as usize].may_come(node, shape));
                    order.insert(place.unwrap_or(order.len()), call as u32);
                    stands[call] = true;
                }
                parts[call].lock(node, shape);
            }
            Event::Free { node, .. } => parts[call].free(node),
            Event::Done { .. } if !stands[call] => {
                order.push(call as u32);
                stands[call] = true;
            }
            Event::Admit { .. } | Event::Done { .. } => {}
        }
    }
    order
}
