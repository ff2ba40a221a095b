//! What is measured of one call, one code or one trail.

use std::time::Instant;

use crate::measured::Measured;

use super::assembler::{assemble as assemble_text, disassemble};
use super::audit::audit as audit_trail;
use super::core::Event;
use super::fault::Fault;
use super::instruction::{decode as decode_bytes, Code};
use super::machine::{run_alone, Call, Outside};
use super::reader::read_trail;
use super::trail::{write_trail, Trail};
use super::tree::{Record, Shape, Tree};
use super::verifier::{verify, Procedure};
use super::{checked, order as placing};

/// Does some work, and adds its time. What it answers is dropped by the caller, outside of that time.
pub fn timed<T>(nanos: &mut u64, work: impl FnOnce() -> T) -> T {
    let start = Instant::now();
    let answer = work();
    *nanos += start.elapsed().as_nanos() as u64;
    answer
}

pub fn procedure_of(code: &[u8]) -> Result<Procedure, Fault> {
    decode_bytes(code).and_then(verify)
}

fn record_of(node: usize) -> Record {
    std::array::from_fn(|field| (field as i64 + 1) * node as i64)
}

pub fn tree_of(parents: Vec<u32>) -> Result<Tree, Fault> {
    let records = (0..parents.len()).map(record_of).collect();
    Tree::new(parents, records)
}

pub fn mix_records(measured: &mut Measured, records: &[Record]) {
    records.as_flattened().iter().for_each(|&field| measured.mix(field as u64));
}

pub fn mix_events(measured: &mut Measured, events: &[Event]) {
    for event in events {
        let (kind, touched) = match event {
            Event::Admit { .. } => (0, None),
            Event::Lock { node, record, .. } => (1, Some((*node, record))),
            Event::Free { node, record, .. } => (2, Some((*node, record))),
            Event::Done { .. } => (3, None),
        };
        measured.mix(kind);
        measured.mix(event.call().into());
        if let Some((node, record)) = touched {
            measured.mix(node.into());
            mix_records(measured, std::slice::from_ref(record));
        }
    }
}

fn mix_fault(measured: &mut Measured, fault: Fault) {
    let parts = [Some(fault.number.into()), fault.at.map(u64::from), fault.register.map(u64::from)];
    parts.into_iter().flatten().for_each(|part| measured.mix(part));
}

pub fn mix_order(measured: &mut Measured, order: &[u32]) {
    order.iter().for_each(|&call| measured.mix(call.into()));
}

fn mix_trail(measured: &mut Measured, trail: &Trail) {
    trail.tree.shape.parents().iter().for_each(|&parent| measured.mix(parent.into()));
    mix_records(measured, &trail.tree.records);
    for (name, procedure) in trail.procedures.iter() {
        measured.mix_bytes(name.as_bytes());
        measured.mix_bytes(disassemble(&procedure.code).as_bytes());
    }
    for call in &trail.calls {
        measured.mix(call.procedure as u64);
        measured.mix_all(&call.args);
        match &call.reply {
            Some(reply) => measured.mix_all(reply),
            None => measured.mix(u64::MAX),
        }
    }
    mix_events(measured, &trail.events);
    mix_records(measured, &trail.ends);
}

/// Runs the procedure alone on a chain of nodes, again and again.
pub fn run(code: &[u8], nodes: u32, args: &[i64], times: u32) -> Measured {
    let parents = (0..nodes).map(|node| node.saturating_sub(1)).collect();
    let (Ok(procedure), Ok(mut tree)) = (procedure_of(code), tree_of(parents)) else { return Measured::REFUSED };
    let mut measured = Measured::default();
    for _ in 0..times {
        let answer = timed(&mut measured.nanos, || run_alone(&procedure, args, &mut tree));
        let Some((reply, steps)) = answer else { return Measured::REFUSED };
        measured.count += u64::from(steps);
        measured.mix_all(reply.values());
    }
    mix_records(&mut measured, &tree.records);
    measured
}

/// Runs a call by itself up to its first lock or its return, again and again.
pub fn local(code: &[u8], args: &[i64], times: u32) -> Measured {
    let (Ok(procedure), Ok(tree)) = (procedure_of(code), tree_of(vec![0])) else { return Measured::REFUSED };
    let mut measured = Measured::default();
    for _ in 0..times {
        let Some(mut call) = Call::start(&procedure, args) else { return Measured::REFUSED };
        // Where it stops is looked at below.
        let _ = timed(&mut measured.nanos, || call.run(&procedure, &tree.shape, &mut Outside));
        measured.count += u64::from(call.steps());
        measured.mix(call.position().into());
        measured.mix_all(call.values());
        measured.mix_all(call.reply().values());
    }
    measured
}

/// Verifies the code again and again.
pub fn check(code: &[u8], times: u32) -> Measured {
    let mut measured = Measured::default();
    for _ in 0..times {
        let Ok(code) = decode_bytes(code) else { return Measured::REFUSED };
        match timed(&mut measured.nanos, || verify(code)) {
            Ok(Procedure { bounds, .. }) => {
                measured.count += 1;
                [bounds.steps, bounds.locks, bounds.emits].into_iter().for_each(|bound| measured.mix(bound));
            }
            Err(fault) => mix_fault(&mut measured, fault),
        }
    }
    measured
}

/// Makes a code again and again.
fn made(times: u32, make: impl Fn() -> Result<Code, Fault>) -> Measured {
    let mut measured = Measured::default();
    for _ in 0..times {
        let Ok(code) = timed(&mut measured.nanos, &make) else { return Measured::REFUSED };
        measured.count += code.instructions.len() as u64;
        measured.mix_bytes(disassemble(&code).as_bytes());
    }
    measured
}

pub fn decode(bytes: &[u8], times: u32) -> Measured {
    made(times, || decode_bytes(bytes))
}

pub fn assemble(text: &str, times: u32) -> Measured {
    made(times, || assemble_text(text))
}

/// Reads the trail again and again.
pub fn read(text: &[u8], times: u32) -> Measured {
    let mut measured = Measured::default();
    for _ in 0..times {
        let read = || read_trail(std::str::from_utf8(text).ok()?).ok();
        let Some(trail) = timed(&mut measured.nanos, read) else { return Measured::REFUSED };
        measured.count = trail.events.len() as u64;
        mix_trail(&mut measured, &trail);
    }
    measured
}

/// Writes the trail again and again.
pub fn write(trail: &Trail, times: u32) -> Measured {
    let mut measured = Measured::default();
    for _ in 0..times {
        let written = timed(&mut measured.nanos, || write_trail(trail));
        measured.count = written.len() as u64;
        measured.mix_bytes(written.as_bytes());
    }
    measured
}

/// Finds the order of the trail's calls again and again, by that function.
fn ordered(trail: &Trail, times: u32, order_of: fn(&[Event], usize, &Shape) -> Vec<u32>) -> Measured {
    let mut measured = Measured::default();
    for _ in 0..times {
        let order = timed(&mut measured.nanos, || order_of(&trail.events, trail.calls.len(), &trail.tree.shape));
        measured.count = order.len() as u64;
        mix_order(&mut measured, &order);
    }
    measured
}

/// The order of any history, as the product's.
pub fn order(trail: &Trail, times: u32) -> Measured {
    ordered(trail, times, checked::order_of)
}

/// The order of a history that keeps the rules: whether it does isn't asked.
pub fn trusting_order(trail: &Trail, times: u32) -> Measured {
    ordered(trail, times, placing::order_of)
}

/// Audits the trail again and again: the order, or the numbers of what is wrong first.
pub fn audit(trail: &Trail, times: u32) -> Measured {
    let mut measured = Measured { count: trail.events.len() as u64, ..Measured::default() };
    for _ in 0..times {
        match timed(&mut measured.nanos, || audit_trail(trail)) {
            Ok(order) => mix_order(&mut measured, &order),
            Err(fault) => mix_fault(&mut measured, fault),
        }
    }
    measured
}
