//! The trees and the arguments of the measured calls.

/// How many calls a core takes.
pub const CALLS: u32 = 4_096;

/// How many nodes a tree has at most.
pub const NODES: u32 = 4_096;

/// How many calls are open at a time.
pub const OPEN: u32 = 64;

/// Chains below the root, of so many nodes each.
pub const CHAIN: u32 = 128;

/// The parents of one chain.
pub fn chain(nodes: u32) -> Vec<u32> {
    (0..nodes).map(|node| node.saturating_sub(1)).collect()
}

/// The parents of a tree of chains of that length below the root.
pub fn chains(nodes: u32, chain: u32) -> Vec<u32> {
    (0..nodes).map(|node| if node == 0 || (node - 1) % chain == 0 { 0 } else { node - 1 }).collect()
}

/// The parents of a tree where each node has eight children.
pub fn wide(nodes: u32) -> Vec<u32> {
    (0..nodes).map(|node| node.saturating_sub(1) / 8).collect()
}

/// Of each call the head of a chain, the chains in turn.
pub fn heads(calls: u32, nodes: u32, chain: u32) -> Vec<i64> {
    let count = nodes / chain;
    (0..calls).map(|call| i64::from(1 + (call % count) * chain)).collect()
}
