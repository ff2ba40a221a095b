//! Trails: what calls did to a tree, as somebody tells it.

use super::assembler::disassemble;
use super::core::{Core, Event, Procedures};
use super::json::{write_integer, write_list, write_string, Tail};
use super::tree::{Record, Tree};

#[derive(Clone, Debug, PartialEq)]
pub struct Trail {
    pub tree: Tree,
    pub procedures: Procedures,
    pub calls: Vec<ToldCall>,
    pub events: Vec<Event>,
    pub ends: Vec<Record>,
}

#[derive(Clone, Debug, PartialEq)]
pub struct ToldCall {
    pub procedure: usize,
    pub args: Vec<i64>,
    pub reply: Option<Vec<i64>>,
}

/// The trail of a core.
pub fn trail_of(core: &Core) -> Trail {
    let told = |call| {
        let (procedure, args) = core.request(call);
        ToldCall { procedure, args: args.to_vec(), reply: core.reply(call).map(<[i64]>::to_vec) }
    };
    Trail {
        tree: core.opening().clone(),
        procedures: core.procedures().clone(),
        calls: (0..core.call_count()).map(told).collect(),
        events: core.history().to_vec(),
        ends: core.records().to_vec(),
    }
}

/// The text of a trail.
pub fn write_trail(trail: &Trail) -> String {
    let mut text = Vec::new();
    text.extend_from_slice(b"{\"calls\":");
    write_list(&mut text, &trail.calls, |text, call| write_call(text, call, &trail.procedures));
    text.extend_from_slice(b",\"end\":");
    write_list(&mut text, &trail.ends, write_record);
    text.extend_from_slice(b",\"events\":");
    write_list(&mut text, &trail.events, write_event);
    text.extend_from_slice(b",\"procs\":");
    write_list(&mut text, trail.procedures.iter(), |text, (name, procedure)| {
        text.push(b'[');
        write_string(text, name);
        text.push(b',');
        write_string(text, &disassemble(&procedure.code));
        text.push(b']');
    });
    text.extend_from_slice(b",\"tree\":{\"parents\":");
    write_list(&mut text, trail.tree.shape.parents(), |text, &parent| write_integer(text, parent));
    text.extend_from_slice(b",\"records\":");
    write_list(&mut text, &trail.tree.records, write_record);
    text.extend_from_slice(b"}}");
    String::from_utf8(text).expect("names and texts are UTF-8")
}

fn write_record(text: &mut Vec<u8>, record: &Record) {
    let mut tail = Tail::new();
    tail.integers(record);
    text.extend_from_slice(tail.text());
}

fn write_integers(text: &mut Vec<u8>, integers: &[i64]) {
    write_list(text, integers, |text, &integer| write_integer(text, integer));
}

fn write_call(text: &mut Vec<u8>, call: &ToldCall, procedures: &Procedures) {
    text.push(b'[');
    write_string(text, procedures.name(call.procedure));
    text.push(b',');
    write_integers(text, &call.args);
    text.push(b',');
    match &call.reply {
        Some(reply) => write_integers(text, reply),
        None => text.extend_from_slice(b"null"),
    }
    text.push(b']');
}

fn write_event(text: &mut Vec<u8>, event: &Event) {
    let (letter, touched) = match event {
        Event::Admit { .. } => (b'a', None),
        Event::Lock { node, record, .. } => (b'l', Some((*node, record))),
        Event::Free { node, record, .. } => (b'f', Some((*node, record))),
        Event::Done { .. } => (b'd', None),
    };
    let mut tail = Tail::new();
    tail.push(b']');
    if let Some((node, record)) = touched {
        tail.integers(record);
        tail.push(b',');
        tail.integer(node.into());
        tail.push(b',');
    }
    tail.integer(event.call().into());
    for byte in [b',', b'"', letter, b'"', b'['] {
        tail.push(byte);
    }
    text.extend_from_slice(tail.text());
}
