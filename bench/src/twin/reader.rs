//! Reading of trails: item by item, where the members stand in the order in which they are written, and else through a value.

use super::assembler::assemble;
use super::core::{Event, Procedures, MAX_CALLS, MAX_EVENTS};
use super::json::{self, Parser, Value};
use super::trail::{ToldCall, Trail};
use super::tree::{Record, Tree, FIELDS, NARROW_FIELDS};
use super::verifier::verify;

const MAX_REPLY: usize = 32;

/// The trail of a text, where it stands for one.
pub fn read_trail(text: &str) -> Result<Trail, ()> {
    let through_value = || json::parse(text).and_then(|value| parts_from(&value)?.into_trail());
    streamed(text).and_then(Parts::into_trail).or_else(through_value).ok_or(())
}

/// How many numbers the records of a text have, once one was read: all have as many.
#[derive(Default)]
struct Width(Option<usize>);

impl Width {
    /// Whether a record of so many numbers may stand beside those before it.
    fn takes(&mut self, count: usize) -> Option<()> {
        let is_width = count == FIELDS || count == NARROW_FIELDS;
        (is_width && *self.0.get_or_insert(count) == count).then_some(())
    }
}

/// What a text tells, not yet looked at as a whole.
struct Parts {
    calls: Vec<RawCall>,
    ends: Vec<Record>,
    events: Vec<Event>,
    procedures: Vec<(String, String)>,
    parents: Vec<u32>,
    records: Vec<Record>,
}

struct RawCall {
    procedure: String,
    args: Vec<i64>,
    reply: Option<Vec<i64>>,
}

impl Parts {
    fn into_trail(self) -> Option<Trail> {
        let Parts { calls, ends, events, procedures: texts, parents, records } = self;
        let tree = Tree::new(parents, records).ok()?;
        let mut procedures = Procedures::default();
        for (name, text) in texts {
            procedures.add(&name, verify(assemble(&text).ok()?).ok()?).ok()?;
        }
        if calls.len() > MAX_CALLS || events.len() > MAX_EVENTS || ends.len() != tree.records.len() {
            return None;
        }
        let is_there = |event: &Event| {
            (event.call() as usize) < calls.len() && event.node().is_none_or(|node| (node as usize) < ends.len())
        };
        if !events.iter().all(is_there) {
            return None;
        }
        let calls: Option<_> = calls.into_iter().map(|call| told(call, &procedures)).collect();
        Some(Trail { tree, procedures, calls: calls?, events, ends })
    }
}

fn told(RawCall { procedure, args, reply }: RawCall, procedures: &Procedures) -> Option<ToldCall> {
    let procedure = procedures.number_of(&procedure)?;
    let arity = usize::from(procedures.get(procedure).code.arity);
    let fits = args.len() == arity && reply.as_ref().is_none_or(|values| values.len() <= MAX_REPLY);
    fits.then_some(ToldCall { procedure, args, reply })
}

// ---- item by item

fn streamed(text: &str) -> Option<Parts> {
    let mut parser = Parser::new(text);
    parser.expect(b'{')?;
    member(&mut parser, "calls")?;
    let calls = parser.list(call)?;
    parser.expect(b',')?;
    member(&mut parser, "end")?;
    let mut width = Width::default();
    let ends = parser.list(|parser| record(parser, &mut width))?;
    parser.expect(b',')?;
    member(&mut parser, "events")?;
    let events = parser.list(|parser| event(parser, &mut width))?;
    parser.expect(b',')?;
    member(&mut parser, "procs")?;
    let procedures = parser.list(procedure)?;
    parser.expect(b',')?;
    member(&mut parser, "tree")?;
    let (parents, records) = tree(&mut parser, &mut width)?;
    parser.expect(b'}')?;
    parser.is_over().then_some(Parts { calls, ends, events, procedures, parents, records })
}

/// Passes the name of the member that is next, where that is this one.
fn member(parser: &mut Parser, name: &str) -> Option<()> {
    (parser.plain_string()? == name).then_some(())?;
    parser.expect(b':')
}

fn tree(parser: &mut Parser, width: &mut Width) -> Option<(Vec<u32>, Vec<Record>)> {
    parser.expect(b'{')?;
    member(parser, "parents")?;
    let parents = parser.list(number)?;
    parser.expect(b',')?;
    member(parser, "records")?;
    let records = parser.list(|parser| record(parser, width))?;
    parser.expect(b'}')?;
    Some((parents, records))
}

fn number<T: TryFrom<i64>>(parser: &mut Parser) -> Option<T> {
    parser.integer()?.try_into().ok()
}

/// The fields that a record doesn't tell are 0.
fn record(parser: &mut Parser, width: &mut Width) -> Option<Record> {
    let mut record = Record::default();
    let mut count = 0;
    parser.expect(b'[')?;
    loop {
        *record.get_mut(count)? = parser.integer()?;
        count += 1;
        if !parser.take(b',') {
            break;
        }
    }
    parser.expect(b']')?;
    width.takes(count)?;
    Some(record)
}

fn procedure(parser: &mut Parser) -> Option<(String, String)> {
    parser.expect(b'[')?;
    let name = parser.string()?;
    parser.expect(b',')?;
    let text = parser.string()?;
    parser.expect(b']')?;
    Some((name, text))
}

fn call(parser: &mut Parser) -> Option<RawCall> {
    parser.expect(b'[')?;
    let procedure = parser.string()?;
    parser.expect(b',')?;
    let args = parser.list(Parser::integer)?;
    parser.expect(b',')?;
    let reply = if parser.null() { None } else { Some(parser.list(Parser::integer)?) };
    parser.expect(b']')?;
    Some(RawCall { procedure, args, reply })
}

fn event(parser: &mut Parser, width: &mut Width) -> Option<Event> {
    parser.expect(b'[')?;
    let letter = parser.plain_string()?;
    parser.expect(b',')?;
    let call = number(parser)?;
    let event = match letter {
        "a" => Event::Admit { call },
        "d" => Event::Done { call },
        "l" => {
            let (node, record) = touched(parser, width)?;
            Event::Lock { call, node, record }
        }
        "f" => {
            let (node, record) = touched(parser, width)?;
            Event::Free { call, node, record }
        }
        _ => return None,
    };
    parser.expect(b']')?;
    Some(event)
}

fn touched(parser: &mut Parser, width: &mut Width) -> Option<(u32, Record)> {
    parser.expect(b',')?;
    let node = number(parser)?;
    parser.expect(b',')?;
    Some((node, record(parser, width)?))
}

// ---- through a value

fn parts_from(value: &Value) -> Option<Parts> {
    let [calls, ends, events, procedures, tree] = value.members(["calls", "end", "events", "procs", "tree"])?;
    let [parents, records] = tree.members(["parents", "records"])?;
    let mut width = Width::default();
    Some(Parts {
        calls: each_from(calls, call_from)?,
        ends: each_from(ends, |value| record_from(value, &mut width))?,
        events: each_from(events, |value| event_from(value, &mut width))?,
        procedures: each_from(procedures, procedure_from)?,
        parents: each_from(parents, number_from)?,
        records: each_from(records, |value| record_from(value, &mut width))?,
    })
}

fn each_from<T>(value: &Value, item_from: impl FnMut(&Value) -> Option<T>) -> Option<Vec<T>> {
    value.as_array()?.iter().map(item_from).collect()
}

fn number_from<T: TryFrom<i64>>(value: &Value) -> Option<T> {
    value.as_integer()?.try_into().ok()
}

fn record_from(value: &Value, width: &mut Width) -> Option<Record> {
    let numbers = each_from(value, Value::as_integer)?;
    width.takes(numbers.len())?;
    let mut record = Record::default();
    record[..numbers.len()].copy_from_slice(&numbers);
    Some(record)
}

fn procedure_from(value: &Value) -> Option<(String, String)> {
    let [name, text] = value.as_array()? else { return None };
    Some((name.as_str()?.to_string(), text.as_str()?.to_string()))
}

fn call_from(value: &Value) -> Option<RawCall> {
    let [procedure, args, reply] = value.as_array()? else { return None };
    let reply = match reply {
        Value::Null => None,
        list => Some(each_from(list, Value::as_integer)?),
    };
    Some(RawCall { procedure: procedure.as_str()?.to_string(), args: each_from(args, Value::as_integer)?, reply })
}

fn event_from(value: &Value, width: &mut Width) -> Option<Event> {
    match value.as_array()? {
        [letter, call] => {
            let call = number_from(call)?;
            match letter.as_str()? {
                "a" => Some(Event::Admit { call }),
                "d" => Some(Event::Done { call }),
                _ => None,
            }
        }
        [letter, call, node, record] => {
            let (call, node, record) = (number_from(call)?, number_from(node)?, record_from(record, width)?);
            match letter.as_str()? {
                "l" => Some(Event::Lock { call, node, record }),
                "f" => Some(Event::Free { call, node, record }),
                _ => None,
            }
        }
        _ => None,
    }
}
