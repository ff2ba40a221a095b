//! What Redis answers, in the second version of its protocol.

use crate::connection::Found;

#[derive(Clone, Debug, PartialEq)]
pub enum Value {
    Integer(i64),
    Text(String),
    Nothing,
    List(Vec<Value>),
}

impl Value {
    /// The number that it is, or that its text says.
    pub fn number(&self) -> Option<i64> {
        match self {
            Value::Integer(number) => Some(*number),
            Value::Text(text) => text.parse().ok(),
            _ => None,
        }
    }
}

/// A value at the front of some bytes. An error that Redis answers is an error here.
pub fn value(bytes: &[u8]) -> Found<Value> {
    let Some(end) = bytes.windows(2).position(|two| two == b"\r\n") else { return Ok(None) };
    let line = std::str::from_utf8(&bytes[..end])?;
    let behind = end + 2;
    let Some(kind) = line.chars().next() else { return Err("Redis answers an empty line".into()) };
    let rest = &line[kind.len_utf8()..];
    match kind {
        ':' => Ok(Some((Value::Integer(rest.parse()?), behind))),
        '+' => Ok(Some((Value::Text(rest.to_string()), behind))),
        '-' => Err(format!("Redis refuses: {rest}").into()),
        '$' => text(bytes, behind, rest.parse()?),
        '*' => list(bytes, behind, rest.parse()?),
        _ => Err(format!("Redis answers {line:?}").into()),
    }
}

/// A text of so many bytes from a place on, or nothing where that is below 0.
fn text(bytes: &[u8], start: usize, length: i64) -> Found<Value> {
    let Ok(length) = usize::try_from(length) else { return Ok(Some((Value::Nothing, start))) };
    let end = start + length;
    if bytes.len() < end + 2 {
        return Ok(None);
    }
    let text = std::str::from_utf8(&bytes[start..end])?;
    Ok(Some((Value::Text(text.to_string()), end + 2)))
}

/// So many values from a place on, or nothing where that is below 0.
fn list(bytes: &[u8], start: usize, count: i64) -> Found<Value> {
    if count < 0 {
        return Ok(Some((Value::Nothing, start)));
    }
    let (mut values, mut at) = (Vec::new(), start);
    for _ in 0..count {
        let Some((value, length)) = value(&bytes[at..])? else { return Ok(None) };
        values.push(value);
        at += length;
    }
    Ok(Some((Value::List(values), at)))
}

#[cfg(test)]
mod tests {
    use super::*;

    fn whole(bytes: &[u8]) -> Value {
        let (value, length) = value(bytes).unwrap().unwrap();
        assert_eq!(length, bytes.len());
        value
    }

    #[test]
    fn each_kind_of_value() {
        assert_eq!(whole(b":-12\r\n"), Value::Integer(-12));
        assert_eq!(whole(b"+OK\r\n"), Value::Text("OK".into()));
        assert_eq!(whole(b"$4\r\na\r\nb\r\n"), Value::Text("a\r\nb".into()));
        assert_eq!(whole(b"$0\r\n\r\n"), Value::Text(String::new()));
        assert_eq!(whole(b"$-1\r\n"), Value::Nothing);
        assert_eq!(whole(b"*-1\r\n"), Value::Nothing);
        let list = vec![Value::Text("7".into()), Value::Nothing, Value::List(vec![Value::Integer(3)])];
        assert_eq!(whole(b"*3\r\n$1\r\n7\r\n$-1\r\n*1\r\n:3\r\n"), Value::List(list));
    }

    #[test]
    fn a_part_is_no_value_yet() {
        for bytes in [&b":12\r\n"[..], b"$4\r\nabcd\r\n", b"*2\r\n:1\r\n$2\r\nab\r\n"] {
            for length in 0..bytes.len() {
                assert_eq!(value(&bytes[..length]).unwrap(), None, "{length} bytes of {bytes:?}");
            }
        }
    }

    #[test]
    fn what_comes_behind_stays() {
        assert_eq!(value(b":1\r\n:2\r\n").unwrap(), Some((Value::Integer(1), 4)));
    }

    #[test]
    fn refusals_and_other_bytes_are_errors() {
        for bytes in [&b"-ERR no such function\r\n"[..], b"\r\n", b":x\r\n", b"$x\r\n", b"!1\r\n", b"\xff\r\n"] {
            assert!(value(bytes).is_err(), "{bytes:?}");
        }
    }

    #[test]
    fn numbers_of_values() {
        assert_eq!(whole(b"$2\r\n-7\r\n").number(), Some(-7));
        assert_eq!(whole(b"$1\r\nx\r\n").number(), None);
        assert_eq!(Value::Nothing.number(), None);
    }
}
