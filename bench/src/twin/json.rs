//! JSON: a reader of texts into values, and the writing of numbers and strings.

/// An integer that doesn't fit, and `-0`, are floats.
#[derive(Clone, Debug, PartialEq)]
pub enum Value {
    Null,
    Bool(bool),
    Integer(i64),
    Float(f64),
    String(String),
    Array(Vec<Value>),
    Object(Vec<(String, Value)>),
}

impl Value {
    pub fn as_integer(&self) -> Option<i64> {
        match self {
            Value::Integer(number) => Some(*number),
            _ => None,
        }
    }

    pub fn as_str(&self) -> Option<&str> {
        match self {
            Value::String(text) => Some(text),
            _ => None,
        }
    }

    pub fn as_array(&self) -> Option<&[Value]> {
        match self {
            Value::Array(items) => Some(items),
            _ => None,
        }
    }

    /// The members with these names, where the object has all of them and no others. Of one name the last counts.
    pub fn members<const N: usize>(&self, names: [&str; N]) -> Option<[&Value; N]> {
        let Value::Object(members) = self else { return None };
        let mut found = [None; N];
        for (name, value) in members {
            let place = names.iter().position(|known| known == name)?;
            found[place] = Some(value);
        }
        let has_all = found.iter().all(Option::is_some);
        has_all.then(|| found.map(|value| value.expect("all were found")))
    }
}

/// How many arrays and objects may stand in one another.
const MAX_DEPTH: usize = 127;

/// The value of a text; nothing else may stand in it.
pub fn parse(text: &str) -> Option<Value> {
    let mut parser = Parser::new(text);
    let value = parser.value(0)?;
    parser.is_over().then_some(value)
}

/// A text, and how far it is read.
pub struct Parser<'a> {
    text: &'a str,
    position: usize,
}

impl<'a> Parser<'a> {
    pub fn new(text: &'a str) -> Parser<'a> {
        Parser { text, position: 0 }
    }

    /// Whether only space is left.
    pub fn is_over(&mut self) -> bool {
        self.skip_space();
        self.position == self.text.len()
    }

    /// Takes the byte that has to come next behind space.
    pub fn expect(&mut self, byte: u8) -> Option<()> {
        self.take(byte).then_some(())
    }

    /// Takes `null`, where it comes next.
    pub fn null(&mut self) -> bool {
        self.skip_space();
        let is_next = self.text.as_bytes()[self.position..].starts_with(b"null");
        if is_next {
            self.position += 4;
        }
        is_next
    }

    /// The items of the list that is next, each read by the function.
    pub fn list<T>(&mut self, mut item: impl FnMut(&mut Self) -> Option<T>) -> Option<Vec<T>> {
        self.expect(b'[')?;
        let mut items = Vec::new();
        if self.take(b']') {
            return Some(items);
        }
        loop {
            items.push(item(self)?);
            if self.take(b']') {
                return Some(items);
            }
            self.expect(b',')?;
        }
    }

    /// The integer that is next. There is none where it doesn't fit, for `-0`, and for a number that may be a fraction.
    pub fn integer(&mut self) -> Option<i64> {
        self.skip_space();
        let is_negative = self.peek() == Some(b'-');
        self.position += usize::from(is_negative);
        let start = self.position;
        let mut size = 0u64;
        while let Some(digit @ b'0'..=b'9') = self.peek() {
            size = size.checked_mul(10)?.checked_add(u64::from(digit - b'0'))?;
            self.position += 1;
        }
        let starts_with_zero = self.text.as_bytes().get(start) == Some(&b'0');
        let is_whole = match self.position - start {
            0 => false,
            1 => !(is_negative && starts_with_zero),
            _ => !starts_with_zero,
        };
        if !is_whole || matches!(self.peek(), Some(b'.' | b'e' | b'E')) {
            return None;
        }
        if is_negative { 0i64.checked_sub_unsigned(size) } else { i64::try_from(size).ok() }
    }

    /// The string that is next, where nothing in it is escaped.
    pub fn plain_string(&mut self) -> Option<&'a str> {
        self.expect(b'"')?;
        let start = self.position;
        while !matches!(self.peek()?, b'"' | b'\\' | 0..=0x1f) {
            self.position += 1;
        }
        let string = &self.text[start..self.position];
        (self.next()? == b'"').then_some(string)
    }

    fn peek(&self) -> Option<u8> {
        self.text.as_bytes().get(self.position).copied()
    }

    fn next(&mut self) -> Option<u8> {
        let byte = self.peek()?;
        self.position += 1;
        Some(byte)
    }

    fn skip_space(&mut self) {
        while let Some(b' ' | b'\t' | b'\n' | b'\r') = self.peek() {
            self.position += 1;
        }
    }

    /// Takes the byte, where it comes next behind space.
    pub fn take(&mut self, byte: u8) -> bool {
        self.skip_space();
        let is_next = self.peek() == Some(byte);
        if is_next {
            self.position += 1;
        }
        is_next
    }

    fn word(&mut self, word: &str, value: Value) -> Option<Value> {
        let rest = &self.text.as_bytes()[self.position..];
        self.position += word.len();
        rest.starts_with(word.as_bytes()).then_some(value)
    }

    fn value(&mut self, depth: usize) -> Option<Value> {
        self.skip_space();
        match self.peek()? {
            b'n' => self.word("null", Value::Null),
            b't' => self.word("true", Value::Bool(true)),
            b'f' => self.word("false", Value::Bool(false)),
            b'"' => self.string().map(Value::String),
            b'[' if depth < MAX_DEPTH => self.array(depth + 1),
            b'{' if depth < MAX_DEPTH => self.object(depth + 1),
            b'-' | b'0'..=b'9' => self.number(),
            _ => None,
        }
    }

    fn array(&mut self, depth: usize) -> Option<Value> {
        self.position += 1;
        let mut items = Vec::new();
        if self.take(b']') {
            return Some(Value::Array(items));
        }
        loop {
            items.push(self.value(depth)?);
            if self.take(b']') {
                return Some(Value::Array(items));
            }
            if !self.take(b',') {
                return None;
            }
        }
    }

    fn object(&mut self, depth: usize) -> Option<Value> {
        self.position += 1;
        let mut members = Vec::new();
        if self.take(b'}') {
            return Some(Value::Object(members));
        }
        loop {
            let name = self.string()?;
            if !self.take(b':') {
                return None;
            }
            members.push((name, self.value(depth)?));
            if self.take(b'}') {
                return Some(Value::Object(members));
            }
            if !self.take(b',') {
                return None;
            }
        }
    }

    fn skip_digits(&mut self) -> Option<()> {
        let start = self.position;
        while let Some(b'0'..=b'9') = self.peek() {
            self.position += 1;
        }
        (self.position > start).then_some(())
    }

    fn number(&mut self) -> Option<Value> {
        let start = self.position;
        let mut is_integer = true;
        if self.peek() == Some(b'-') {
            self.position += 1;
        }
        if self.peek() == Some(b'0') {
            self.position += 1;
        } else {
            self.skip_digits()?;
        }
        if let Some(b'0'..=b'9') = self.peek() {
            return None;
        }
        if self.peek() == Some(b'.') {
            is_integer = false;
            self.position += 1;
            self.skip_digits()?;
        }
        if let Some(b'e' | b'E') = self.peek() {
            is_integer = false;
            self.position += 1;
            if let Some(b'+' | b'-') = self.peek() {
                self.position += 1;
            }
            self.skip_digits()?;
        }
        let digits = &self.text[start..self.position];
        if is_integer && digits != "-0" {
            if let Ok(number) = digits.parse() {
                return Some(Value::Integer(number));
            }
        }
        let number: f64 = digits.parse().ok()?;
        number.is_finite().then_some(Value::Float(number))
    }

    pub fn string(&mut self) -> Option<String> {
        self.expect(b'"')?;
        let mut string = String::new();
        loop {
            let start = self.position;
            while !matches!(self.peek()?, b'"' | b'\\' | 0..=0x1f) {
                self.position += 1;
            }
            string.push_str(&self.text[start..self.position]);
            match self.next()? {
                b'"' => return Some(string),
                b'\\' => string.push(self.escaped()?),
                _ => return None,
            }
        }
    }

    fn escaped(&mut self) -> Option<char> {
        Some(match self.next()? {
            b'"' => '"',
            b'\\' => '\\',
            b'/' => '/',
            b'b' => '\u{8}',
            b'f' => '\u{c}',
            b'n' => '\n',
            b'r' => '\r',
            b't' => '\t',
            b'u' => return self.unicode(),
            _ => return None,
        })
    }

    /// The character of `\uXXXX`, or of two such that are a pair of surrogates.
    fn unicode(&mut self) -> Option<char> {
        let first = self.four_digits()?;
        if !(0xd800..0xdc00).contains(&first) {
            return char::from_u32(first);
        }
        if self.next()? != b'\\' || self.next()? != b'u' {
            return None;
        }
        let second = self.four_digits()?;
        if !(0xdc00..0xe000).contains(&second) {
            return None;
        }
        char::from_u32(0x10000 + ((first - 0xd800) << 10) + (second - 0xdc00))
    }

    fn four_digits(&mut self) -> Option<u32> {
        let mut number = 0;
        for _ in 0..4 {
            number = number * 16 + char::from(self.next()?).to_digit(16)?;
        }
        Some(number)
    }
}

// The writers append to bytes, so that what is all ASCII isn't looked at twice.

/// A short text that is written from its end, so that no digit is moved.
pub struct Tail {
    bytes: [u8; 128],
    start: usize,
}

impl Tail {
    pub fn new() -> Tail {
        Tail { bytes: [0; 128], start: 128 }
    }

    pub fn push(&mut self, byte: u8) {
        self.start -= 1;
        self.bytes[self.start] = byte;
    }

    /// Puts the number before what is there.
    pub fn integer(&mut self, number: i64) {
        let mut rest = number.unsigned_abs();
        loop {
            self.push(b'0' + (rest % 10) as u8);
            rest /= 10;
            if rest == 0 {
                break;
            }
        }
        if number < 0 {
            self.push(b'-');
        }
    }

    /// Puts a list of numbers before what is there.
    pub fn integers(&mut self, numbers: &[i64]) {
        self.push(b']');
        for (place, &number) in numbers.iter().enumerate().rev() {
            self.integer(number);
            self.push(if place > 0 { b',' } else { b'[' });
        }
    }

    pub fn text(&self) -> &[u8] {
        &self.bytes[self.start..]
    }
}

pub fn write_integer(text: &mut Vec<u8>, number: impl Into<i64>) {
    let mut tail = Tail::new();
    tail.integer(number.into());
    text.extend_from_slice(tail.text());
}

pub fn write_string(text: &mut Vec<u8>, string: &str) {
    text.push(b'"');
    for &byte in string.as_bytes() {
        match byte {
            b'"' => text.extend_from_slice(b"\\\""),
            b'\\' => text.extend_from_slice(b"\\\\"),
            0x8 => text.extend_from_slice(b"\\b"),
            0xc => text.extend_from_slice(b"\\f"),
            b'\n' => text.extend_from_slice(b"\\n"),
            b'\r' => text.extend_from_slice(b"\\r"),
            b'\t' => text.extend_from_slice(b"\\t"),
            0..=0x1f => text.extend_from_slice(format!("\\u{byte:04x}").as_bytes()),
            _ => text.push(byte),
        }
    }
    text.push(b'"');
}

/// A list of items with commas between, each written by the function.
pub fn write_list<T>(text: &mut Vec<u8>, items: impl IntoIterator<Item = T>, mut write: impl FnMut(&mut Vec<u8>, T)) {
    text.push(b'[');
    for (number, item) in items.into_iter().enumerate() {
        if number > 0 {
            text.push(b',');
        }
        write(text, item);
    }
    text.push(b']');
}
