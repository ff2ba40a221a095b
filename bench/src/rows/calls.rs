//! Calls alone, and codes.

use super::{grouped, TWIN};
use crate::codes;
use crate::measured::Measured;
use crate::product;
use crate::rounds::both;
use crate::table::{Goal, Part, Row};
use crate::trees::NODES;
use crate::twin::assembler::disassemble;
use crate::twin::instruction::decode;
use crate::twin::work as twin;

const LEAST: Goal = Goal::AtLeast(0.9);

fn run_row(name: &str, code: &[u8], nodes: u32, args: &[i64], times: u32) -> Result<Row, String> {
    let [ours, theirs] = both(
        name,
        &mut || product::run(code, nodes, args, times),
        &mut || twin::run(code, nodes, args, times),
    )?;
    let steps = ours.came_to.count;
    let work = format!("{name}, {} steps", grouped(steps / u64::from(times)));
    Ok(Row::of_times(work, "ns a step", [&ours, &theirs], steps as f64, LEAST))
}

fn local_row() -> Result<Row, String> {
    let (code, times) = (codes::arithmetic_loop(), 4);
    let name = "`local`: the same loop of arithmetic up to the return";
    let [ours, theirs] =
        both(name, &mut || product::local(&code, &[], times), &mut || twin::local(&code, &[], times))?;
    let steps = ours.came_to.count as f64;
    Ok(Row::of_times(name, "ns a step", [&ours, &theirs], steps, LEAST))
}

pub fn alone() -> Result<Part, String> {
    let rows = vec![
        run_row("a loop of arithmetic", &codes::arithmetic_loop(), 1, &[], 4)?,
        run_row("a loop of `get` and `put`", &codes::field_loop(), 1, &[], 4)?,
        run_row("loops of `rep` and `end` alone", &codes::bare_loops(), 1, &[], 4)?,
        run_row("a walk down a chain of 4,096 nodes", &codes::bare_walk(NODES as u16), NODES, &[0], 60)?,
        local_row()?,
    ];
    Ok(Part::new("A call alone", TWIN, rows))
}

/// How often a code is made or looked at in a round.
const TIMES: u32 = 200;

const INSTRUCTIONS: f64 = 1_024.0;

fn code_row(name: &str, product: impl Fn() -> Measured, twin: impl Fn() -> Measured) -> Result<Row, String> {
    let [ours, theirs] = both(name, &mut || product(), &mut || twin())?;
    Ok(Row::of_times(name, "ns an instruction", [&ours, &theirs], f64::from(TIMES) * INSTRUCTIONS, LEAST))
}

fn check_row(name: &str, code: &[u8]) -> Result<Row, String> {
    code_row(name, || product::check(code, TIMES), || twin::check(code, TIMES))
}

pub fn codes() -> Result<Part, String> {
    let flat = codes::flat();
    let text = decode(&flat).map(|code| disassemble(&code)).map_err(|fault| format!("{fault:?}"))?;
    let rows = vec![
        check_row("`verify`: flat", &flat)?,
        check_row("`verify`: loops four deep", &codes::nested())?,
        check_row("`verify`: refused at the end", &codes::refused())?,
        code_row("`decode`: flat", || product::decode(&flat, TIMES), || twin::decode(&flat, TIMES))?,
        code_row(
            "`assemble`: flat",
            || product::assemble(text.as_bytes(), TIMES),
            || twin::assemble(&text, TIMES),
        )?,
    ];
    Ok(Part::new("Codes of 1,024 instructions", TWIN, rows))
}
