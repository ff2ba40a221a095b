//! What is measured.

mod calls;
mod cores;
mod language;
mod memory;
mod orders;
mod texts;
mod threads;

use crate::product;
use crate::table::Part;
use crate::trees::{chains, heads, CALLS, CHAIN, NODES};
use crate::twin::turns;

/// What can be measured, by name.
pub const NAMES: [&str; 9] = ["calls", "codes", "core", "order", "text", "language", "threads", "sqlite", "memory"];

/// What stands beside the product in most parts.
const TWIN: &str = "twin";

/// What is measured under that name.
fn parts(name: &str) -> Result<Vec<Part>, String> {
    match name {
        "calls" => Ok(vec![calls::alone()?]),
        "codes" => Ok(vec![calls::codes()?]),
        "core" => Ok(vec![cores::core()?, cores::running()?, cores::others()?]),
        "order" => Ok(vec![orders::sizes()?, orders::schedules()?]),
        "text" => texts::texts(),
        "language" => Ok(vec![language::compiling()?]),
        "threads" => threads::threads(),
        "sqlite" => Ok(vec![threads::sqlite()?]),
        "memory" => Ok(vec![memory::structures(), memory::audit()?]),
        _ => Err(format!("nothing is named {name}")),
    }
}

/// All that is measured under these names.
pub fn measured(names: &[String]) -> Result<Vec<Part>, String> {
    let mut all = Vec::new();
    for name in names {
        eprintln!("measuring {name}");
        all.extend(parts(name)?);
    }
    Ok(all)
}

/// The text of the trail of 4,096 walks of so many nodes, which both sides write.
fn walks(locks: u16) -> Result<String, String> {
    let (code, parents, args) = (crate::codes::walk(locks), chains(NODES, CHAIN), heads(CALLS, NODES, CHAIN));
    let text = turns::tell(&code, &parents, &args).ok_or("the twin's trail")?;
    let mut ours = vec![0; text.len()];
    let told = product::tell(&code, &parents, &args, &mut ours);
    if told.count != text.len() as u64 || ours != text.as_bytes() {
        return Err(format!("the trail of {locks} locks: {told:?} of {} bytes", text.len()));
    }
    Ok(text)
}

/// A number with commas between thousands.
fn grouped(number: u64) -> String {
    let digits = number.to_string();
    let mut text = String::new();
    for (place, digit) in digits.chars().enumerate() {
        if place > 0 && (digits.len() - place) % 3 == 0 {
            text.push(',');
        }
        text.push(digit);
    }
    text
}
