//! Trees: a shape, and a record for each node.

use std::sync::Arc;

use super::fault::Fault;

pub const FIELDS: usize = 8;
/// The fields of a record of the first version.
pub const NARROW_FIELDS: usize = 4;
pub const MAX_NODES: usize = 4_096;

pub type Record = [i64; FIELDS];

/// The parents of a tree's nodes, and each node's children, all in one array.
#[derive(Clone, Debug, PartialEq)]
pub struct Shape {
    parents: Vec<u32>,
    /// one a node and one more: where its children begin
    starts: Vec<u32>,
    children: Vec<u32>,
}

impl Shape {
    pub fn new(parents: Vec<u32>) -> Result<Shape, Fault> {
        if parents.is_empty() {
            return Err(Fault::plain(101));
        }
        if parents.len() > MAX_NODES {
            return Err(Fault::plain(102));
        }
        if parents[0] != 0 {
            return Err(Fault::plain(103));
        }
        if let Some((node, _)) = parents.iter().enumerate().skip(1).find(|&(node, &parent)| parent as usize >= node) {
            return Err(Fault::at(104, node));
        }
        let (starts, children) = children_of(&parents);
        Ok(Shape { parents, starts, children })
    }

    pub fn node_count(&self) -> usize {
        self.parents.len()
    }

    pub fn parents(&self) -> &[u32] {
        &self.parents
    }

    /// The parent of a node; the root's is the root.
    pub fn parent(&self, node: u32) -> u32 {
        self.parents[node as usize]
    }

    /// The children of a node, by rising number.
    #[inline]
    pub fn children(&self, node: u32) -> &[u32] {
        let node = node as usize;
        &self.children[(self.starts[node] as usize)..self.starts[node + 1] as usize]
    }
}

/// Where each node's children begin, and the children, node by node.
fn children_of(parents: &[u32]) -> (Vec<u32>, Vec<u32>) {
    let mut starts = vec![0; parents.len() + 1];
    for &parent in &parents[1..] {
        starts[parent as usize + 1] += 1;
    }
    for node in 0..parents.len() {
        starts[node + 1] += starts[node];
    }
    let mut places = starts.clone();
    let mut children = vec![0; parents.len() - 1];
    for (node, &parent) in parents.iter().enumerate().skip(1) {
        let place = &mut places[parent as usize];
        children[*place as usize] = node as u32;
        *place += 1;
    }
    (starts, children)
}

#[derive(Clone, Debug, PartialEq)]
pub struct Tree {
    pub shape: Arc<Shape>,
    pub records: Vec<Record>,
}

impl Tree {
    pub fn new(parents: Vec<u32>, records: Vec<Record>) -> Result<Tree, Fault> {
        let shape = Arc::new(Shape::new(parents)?);
        if records.len() != shape.node_count() {
            return Err(Fault::plain(105));
        }
        Ok(Tree { shape, records })
    }
}
