//! What PostgreSQL is asked and answers, in the third version of its protocol.

use crate::connection::Found;
use crate::Result;

const VERSION: i32 = 3 << 16;

/// Ends what was asked: the server answers that it is ready.
const SYNC: &[u8] = b"S\0\0\0\x04";

/// Rows with their columns, as texts.
#[derive(Debug, Default, PartialEq)]
pub struct Rows(pub Vec<Vec<String>>);

/// Writes a message of a kind: its length, and then what it says.
fn put(kind: Option<u8>, says: &[u8], out: &mut Vec<u8>) {
    out.extend(kind);
    out.extend((says.len() as i32 + 4).to_be_bytes());
    out.extend(says);
}

/// The first message of a connection.
pub fn put_start(user: &str, database: &str, out: &mut Vec<u8>) {
    let mut says = VERSION.to_be_bytes().to_vec();
    says.extend(format!("user\0{user}\0database\0{database}\0\0").bytes());
    put(None, &says, out);
}

/// Statements, to be done one after another.
pub fn put_query(statements: &str, out: &mut Vec<u8>) {
    put(Some(b'Q'), format!("{statements}\0").as_bytes(), out);
}

/// Prepares a statement under a name.
pub fn put_prepare(name: &str, statement: &str, out: &mut Vec<u8>) {
    put(Some(b'P'), format!("{name}\0{statement}\0\0\0").as_bytes(), out);
    out.extend(SYNC);
}

/// Does a prepared statement with numbers.
pub fn put_call(name: &str, args: &[i64], out: &mut Vec<u8>) {
    // No portal's name, and all that follows is text.
    let mut says = format!("\0{name}\0\0\0").into_bytes();
    says.extend((args.len() as i16).to_be_bytes());
    for arg in args {
        let text = arg.to_string();
        says.extend((text.len() as i32).to_be_bytes());
        says.extend(text.bytes());
    }
    says.extend(0i16.to_be_bytes());
    put(Some(b'B'), &says, out);
    // All rows of that portal.
    put(Some(b'E'), b"\0\0\0\0\0", out);
    out.extend(SYNC);
}

/// A message at the front of some bytes: its kind, and what it says.
fn message(bytes: &[u8]) -> Found<(u8, &[u8])> {
    let Some((&[kind, a, b, c, d], rest)) = bytes.split_first_chunk::<5>() else { return Ok(None) };
    let length = usize::try_from(i32::from_be_bytes([a, b, c, d]) - 4).map_err(|_| "PostgreSQL sends a message of no length")?;
    Ok(rest.get(..length).map(|says| ((kind, says), 5 + length)))
}

/// All messages up to that by which the server says that it is ready: each is handed on. An error that it reports is an error here.
fn until_ready(bytes: &[u8], mut each: impl FnMut(u8, &[u8]) -> Result<()>) -> Found<()> {
    let mut at = 0;
    while let Some(((kind, says), length)) = message(&bytes[at..])? {
        at += length;
        match kind {
            b'E' => return Err(format!("PostgreSQL refuses: {}", String::from_utf8_lossy(says).replace('\0', " ")).into()),
            b'R' if says != [0; 4] => return Err("PostgreSQL asks for a password".into()),
            b'Z' => return Ok(Some(((), at))),
            _ => each(kind, says)?,
        }
    }
    Ok(None)
}

/// The rows that come up to `ready`.
pub fn rows(bytes: &[u8]) -> Found<Rows> {
    let mut rows = Rows::default();
    let found = until_ready(bytes, |kind, says| {
        if kind == b'D' {
            rows.0.push(columns(says)?);
        }
        Ok(())
    })?;
    Ok(found.map(|((), length)| (rows, length)))
}

/// The number in the one row that comes up to `ready`.
pub fn number(bytes: &[u8]) -> Found<i64> {
    let mut number = None;
    let found = until_ready(bytes, |kind, says| {
        if kind == b'D' {
            let text = column(says, &mut 2)?.ok_or("PostgreSQL answers nothing")?;
            number = Some(text.parse()?);
        }
        Ok(())
    })?;
    match (found, number) {
        (None, _) => Ok(None),
        (Some(((), length)), Some(number)) => Ok(Some((number, length))),
        (Some(_), None) => Err("PostgreSQL answers no row".into()),
    }
}

/// The columns of a row; a null is an empty text.
fn columns(says: &[u8]) -> Result<Vec<String>> {
    let (&count, _) = says.split_first_chunk().ok_or("PostgreSQL sends half a row")?;
    let mut at = 2;
    (0..i16::from_be_bytes(count)).map(|_| Ok(column(says, &mut at)?.unwrap_or_default().to_string())).collect()
}

/// The column at a place of a row, which is the next one's place then; nothing where it is null.
fn column<'a>(says: &'a [u8], at: &mut usize) -> Result<Option<&'a str>> {
    let (&length, rest) = says.get(*at..).and_then(|rest| rest.split_first_chunk()).ok_or("PostgreSQL sends half a row")?;
    *at += 4;
    let Ok(length) = usize::try_from(i32::from_be_bytes(length)) else { return Ok(None) };
    *at += length;
    Ok(Some(std::str::from_utf8(rest.get(..length).ok_or("PostgreSQL sends half a row")?)?))
}

#[cfg(test)]
mod tests {
    use super::*;

    fn row(columns: &[Option<&str>]) -> Vec<u8> {
        let mut says = (columns.len() as i16).to_be_bytes().to_vec();
        for column in columns {
            says.extend(column.map_or(-1, |text| text.len() as i32).to_be_bytes());
            says.extend(column.unwrap_or_default().bytes());
        }
        let mut out = Vec::new();
        put(Some(b'D'), &says, &mut out);
        out
    }

    /// What a call is answered by: bound, the row, done, ready.
    fn answer(row: &[u8]) -> Vec<u8> {
        [b"2\0\0\0\x04", row, b"C\0\0\0\x0dSELECT 1\0", b"Z\0\0\0\x05I"].concat()
    }

    #[test]
    fn a_call_answers_its_number() {
        let bytes = answer(&row(&[Some("-31")]));
        let more = [&bytes[..], b"2\0"].concat();
        assert_eq!(number(&more).unwrap(), Some((-31, bytes.len())));
        for length in 0..bytes.len() {
            assert_eq!(number(&bytes[..length]).unwrap(), None);
        }
    }

    #[test]
    fn other_answers_are_errors() {
        assert!(number(&answer(&row(&[None]))).is_err());
        assert!(number(&answer(&row(&[Some("x")]))).is_err());
        assert!(number(b"C\0\0\0\x0dSELECT 0\0Z\0\0\0\x05I").is_err());
        assert!(number(b"E\0\0\0\x0cSERROR\0\0").unwrap_err().to_string().contains("ERROR"));
        assert!(rows(b"R\0\0\0\x08\0\0\0\x03").unwrap_err().to_string().contains("password"));
        assert!(rows(b"C\0\0\0\x01").is_err());
    }

    #[test]
    fn rows_of_several_columns() {
        let bytes = [row(&[Some("1"), None]), row(&[Some(""), Some("2")]), b"Z\0\0\0\x05I".to_vec()].concat();
        let wanted = Rows(vec![vec!["1".into(), String::new()], vec![String::new(), "2".into()]]);
        assert_eq!(rows(&bytes).unwrap(), Some((wanted, bytes.len())));
        let mut half = Vec::new();
        put(Some(b'D'), b"\0\x01\0\0\0\x09abc", &mut half);
        assert!(rows(&half).is_err());
    }

    #[test]
    fn what_is_asked_byte_for_byte() {
        let mut out = Vec::new();
        put_call("add", &[5, -12], &mut out);
        let bind = b"B\0\0\0\x1f\0add\0\0\0\0\x02\0\0\0\x015\0\0\0\x03-12\0\0";
        let length = 4 + 1 + 4 + 2 + 2 + (4 + 1) + (4 + 3) + 2;
        assert_eq!(bind[4], 0x1f);
        assert_eq!(out[1..5], i32::to_be_bytes(length));
        assert_eq!(out[5..out.len() - 15], bind[5..]);
        assert_eq!(&out[out.len() - 15..], b"E\0\0\0\x09\0\0\0\0\0S\0\0\0\x04");
        out.clear();
        put_start("me", "postgres", &mut out);
        assert_eq!(out, b"\0\0\0\x23\0\x03\0\0user\0me\0database\0postgres\0\0");
    }
}
