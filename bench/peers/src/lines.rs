//! The lines that treedb reads and writes.

use crate::calls::{Call, Record};
use crate::connection::Found;
use crate::sides::Answers;
use crate::Result;

/// A call.
pub fn put_call(call: &Call, out: &mut String) {
    out.push_str(&format!("{{\"args\":{},\"op\":\"call\",\"proc\":\"{}\"}}\n", list(&call.args), call.work.name()));
}

/// A batch of these calls.
pub fn put_batch(calls: &[Call], workers: u8, out: &mut String) {
    let calls: Vec<String> = calls.iter().map(|Call { work, args }| format!("[\"{}\",{}]", work.name(), list(args))).collect();
    out.push_str(&format!("{{\"calls\":[{}],\"op\":\"batch\",\"workers\":{workers}}}\n", calls.join(",")));
}

/// A list of numbers without spaces.
fn list(numbers: &[i64]) -> String {
    let numbers: Vec<String> = numbers.iter().map(i64::to_string).collect();
    format!("[{}]", numbers.join(","))
}

/// The lines that register procedures, of what `treedb procs` prints: a list of pairs, each a name and a text. Both are handed on as they
/// are written, since one form of JSON is read and the other is written.
pub fn registrations(procs: &str) -> Result<Vec<String>> {
    let bare = |pairs: &str| Some(pairs.trim().strip_prefix("[[\"")?.strip_suffix("\"]]")?.to_string());
    let pairs = bare(procs).ok_or("treedb prints no procedures")?;
    let line = |pair: &str| {
        let (name, text) = pair.split_once("\",\"").ok_or("treedb prints a procedure without a text")?;
        Ok(format!("{{\"asm\":\"{text}\",\"name\":\"{name}\",\"op\":\"register\"}}\n"))
    };
    pairs.split("\"],[\"").map(line).collect()
}

/// A line at the front of some bytes, without its end.
pub fn line(bytes: &[u8]) -> Found<&str> {
    let Some(end) = bytes.iter().position(|&byte| byte == b'\n') else { return Ok(None) };
    Ok(Some((std::str::from_utf8(&bytes[..end])?, end + 1)))
}

/// The answer to a line: a number of each call.
pub fn answers(bytes: &[u8]) -> Found<Answers> {
    let Some((line, length)) = line(bytes)? else { return Ok(None) };
    if line.contains("\"error\"") {
        return Err(format!("treedb refuses: {line}").into());
    }
    let mut answers = Answers::default();
    for rest in line.split("\"reply\":[").skip(1) {
        let (number, _) = rest.split_once(']').ok_or("treedb writes half a reply")?;
        answers.add(Answers::one(number.parse()?));
    }
    Ok(Some((answers, length)))
}

/// The records of a tree's text.
pub fn records(tree: &str) -> Result<Vec<Record>> {
    let (_, rest) = tree.split_once("\"records\":[[").ok_or("treedb prints no tree")?;
    let (records, _) = rest.split_once("]]").ok_or("treedb prints half a tree")?;
    records.split("],[").map(record).collect()
}

/// The record of these numbers, of which those that no side compares are 0.
fn record(text: &str) -> Result<Record> {
    let numbers = text.split(',').map(|number| Ok(number.trim().parse()?)).collect::<Result<Vec<i64>>>()?;
    match numbers.split_first_chunk() {
        Some((record, rest)) if rest.iter().all(|&number| number == 0) => Ok(*record),
        _ => Err(format!("treedb leaves the record {text}").into()),
    }
}

#[cfg(test)]
mod tests {
    use super::*;
    use crate::calls::Work;

    #[test]
    fn what_is_asked() {
        let calls = [Call { work: Work::Add, args: vec![3, -1] }, Call { work: Work::Sum, args: vec![5] }];
        let mut out = String::new();
        put_call(&calls[0], &mut out);
        put_batch(&calls, 2, &mut out);
        let wanted =
            [r#"{"args":[3,-1],"op":"call","proc":"add"}"#, r#"{"calls":[["add",[3,-1]],["sum",[5]]],"op":"batch","workers":2}"#];
        assert_eq!(out.lines().collect::<Vec<_>>(), wanted);
    }

    #[test]
    fn procedures_are_handed_on() {
        let procs = "[[\"add\",\"arity 1\\nret\\n\"],[\"sum\",\"arity 0\\nret\\n\"]]\n";
        let wanted = [
            "{\"asm\":\"arity 1\\nret\\n\",\"name\":\"add\",\"op\":\"register\"}\n",
            "{\"asm\":\"arity 0\\nret\\n\",\"name\":\"sum\",\"op\":\"register\"}\n",
        ];
        assert_eq!(registrations(procs).unwrap(), wanted);
        assert!(registrations("{\"error\":[270,1,1]}\n").is_err());
    }

    #[test]
    fn answers_to_calls_and_batches() {
        let one = "{\"call\":7,\"reply\":[-4]}\n";
        assert_eq!(answers(format!("{one}{{").as_bytes()).unwrap(), Some((Answers { count: 1, sum: -4 }, one.len())));
        let batch = "{\"batch\":[{\"call\":7,\"reply\":[-4]},{\"call\":8,\"epoch\":1,\"reply\":[10]}]}\n";
        assert_eq!(answers(batch.as_bytes()).unwrap(), Some((Answers { count: 2, sum: 6 }, batch.len())));
        assert_eq!(answers(&batch.as_bytes()[..batch.len() - 1]).unwrap(), None);
    }

    #[test]
    fn refusals_are_errors() {
        assert!(answers(b"{\"error\":[603]}\n").is_err());
        assert!(answers(b"{\"batch\":[{\"call\":7,\"reply\":[4]},{\"error\":[603]}]}\n").is_err());
        assert!(answers(b"{\"call\":7,\"reply\":[]}\n").is_err());
        assert!(answers(b"{\"call\":7,\"reply\":[1,2]}\n").is_err());
    }

    #[test]
    fn records_of_a_tree() {
        let tree = "{\"parents\":[0,0],\"records\":[[1,2,-3,4,0,0,0,0],[5,0,0,0,0,0,0,0]]}\n";
        assert_eq!(records(tree).unwrap(), [[1, 2, -3, 4], [5, 0, 0, 0]]);
        assert!(records("{\"parents\":[0],\"records\":[[1,2,3,4,5,0,0,0]]}").is_err());
        assert!(records("{\"error\":[831]}\n").is_err());
    }
}
