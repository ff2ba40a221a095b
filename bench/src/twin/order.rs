//! The serial order that a history gives, kept up to date event by event.

use super::core::Event;
use super::tree::Shape;

/// Stands where there is no call.
pub const NOBODY: u32 = u32::MAX;

/// The order of a history that keeps the rules.
pub struct Placer {
    order: Vec<u32>,
    /// one a call: whether it stands in the order
    standing: Vec<bool>,
    /// one a node: the call that holds it
    holders: Vec<u32>,
    /// how many nodes are held
    held: usize,
    /// one a node: the call that was the last to lock it while it held the parent
    under: Vec<u32>,
}

impl Placer {
    pub fn new(nodes: usize, calls: usize) -> Placer {
        Placer {
            order: Vec::with_capacity(calls),
            standing: vec![false; calls],
            holders: vec![NOBODY; nodes],
            held: 0,
            under: vec![NOBODY; nodes],
        }
    }

    pub fn stands(&self, call: u32) -> bool {
        self.standing[call as usize]
    }

    /// The call that holds the node.
    pub fn holder(&self, node: u32) -> u32 {
        self.holders[node as usize]
    }

    /// The call that was the last to lock the node while it held the parent.
    pub fn under(&self, node: u32) -> u32 {
        self.under[node as usize]
    }

    /// The first in order of the calls that may still come to the node: the first that a climb to the root meets. The climb ends where
    /// it has met as many held nodes as there are.
    fn nearest_coming(&self, node: u32, shape: &Shape) -> u32 {
        let mut node = node;
        let mut left = self.held;
        while node != 0 && left > 0 {
            let above = shape.parent(node);
            let holder = self.holder(above);
            if holder != NOBODY {
                if self.under(node) != holder {
                    return holder;
                }
                left -= 1;
            }
            node = above;
        }
        NOBODY
    }

    fn put(&mut self, place: usize, call: u32) {
        self.order.insert(place, call);
        self.standing[call as usize] = true;
    }

    /// Puts the call before the first that may still come to the node. That one came not long ago, so it is looked for from
    /// the end.
    fn put_at_node(&mut self, call: u32, node: u32, shape: &Shape) {
        let place = match self.nearest_coming(node, shape) {
            NOBODY => None,
            first => self.order.iter().rposition(|&other| other == first),
        };
        self.put(place.unwrap_or(self.order.len()), call);
    }

    pub fn lock(&mut self, call: u32, node: u32, shape: &Shape) {
        if self.stands(call) {
            self.under[node as usize] = call;
        } else {
            self.put_at_node(call, node, shape);
        }
        self.holders[node as usize] = call;
        self.held += 1;
    }

    pub fn free(&mut self, node: u32) {
        self.holders[node as usize] = NOBODY;
        self.held -= 1;
    }

    pub fn end(&mut self, call: u32) {
        if !self.stands(call) {
            self.put(self.order.len(), call);
        }
    }

    /// Takes the next event.
    #[inline]
    pub fn note(&mut self, event: &Event, shape: &Shape) {
        match *event {
            Event::Admit { .. } => {}
            Event::Lock { call, node, .. } => self.lock(call, node, shape),
            Event::Free { node, .. } => self.free(node),
            Event::Done { call } => self.end(call),
        }
    }

    /// Makes room for one more call.
    pub fn admit(&mut self) {
        self.standing.push(false);
    }

    pub fn order(&self) -> &[u32] {
        &self.order
    }

    pub fn into_order(self) -> Vec<u32> {
        self.order
    }
}

/// The order of a history of so many calls that keeps the rules.
pub fn order_of(events: &[Event], calls: usize, shape: &Shape) -> Vec<u32> {
    let mut placer = Placer::new(shape.node_count(), calls);
    events.iter().for_each(|event| placer.note(event, shape));
    placer.into_order()
}
