//! The plain twin of treedb: the same work in ordinary Rust, with the standard library alone.

pub mod assembler;
pub mod audit;
mod checked;
pub mod core;
mod crew;
mod defined;
pub mod engine;
pub mod fault;
mod help;
pub mod instruction;
pub mod json;
pub mod machine;
pub mod order;
pub mod reader;
pub mod running;
pub mod trail;
pub mod tree;
pub mod turns;
pub mod verifier;
pub mod work;

#[cfg(test)]
mod tests;
