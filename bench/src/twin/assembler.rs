//! Procedures as text, and back.

use std::collections::hash_map::Entry;
use std::collections::HashMap;
use std::fmt::{self, Write};

use super::fault::Fault;
use super::instruction::{Code, Instruction, Version, MAX_ARITY, MAX_INSTRUCTIONS, NODE_REGISTERS, VALUE_REGISTERS};
use super::tree::FIELDS;

const MAX_LABEL: usize = 32;

/// One more than an instruction has, so that too many are seen.
const MOST_WORDS: usize = 7;

/// The lines so far, before targets are known.
#[derive(Default)]
struct Sketch<'a> {
    version: Version,
    arity: Option<u8>,
    /// targets are 0
    instructions: Vec<Instruction>,
    labels: HashMap<&'a str, u16>,
    uses: Vec<Use<'a>>,
}

/// A label in the place of an instruction's target.
struct Use<'a> {
    label: &'a str,
    instruction: usize,
    line: usize,
}

/// The code of a text.
pub fn assemble(text: &str) -> Result<Code, Fault> {
    let mut sketch = Sketch::default();
    let mut lines = 0;
    for line in text.split('\n') {
        lines += 1;
        let mut words = [""; MOST_WORDS];
        let count = split(line, &mut words);
        if count > 0 {
            sketch.add(&words[..count], lines)?;
        }
    }
    sketch.finish(lines)
}

/// The words of a line, as many as there is room for: how many they are.
fn split<'a>(line: &'a str, words: &mut [&'a str; MOST_WORDS]) -> usize {
    let line = line.split_once(';').map_or(line, |(before, _)| before);
    let all = line.split([' ', '\t', '\r']).filter(|word| !word.is_empty());
    words.iter_mut().zip(all).map(|(place, word)| *place = word).count()
}

impl<'a> Sketch<'a> {
    fn add(&mut self, words: &[&'a str], line: usize) -> Result<(), Fault> {
        if self.arity.is_none() && self.version == Version::One && matches!(words, ["version", "2"]) {
            self.version = Version::Two;
            return Ok(());
        }
        if self.arity.is_none() {
            self.arity = Some(arity_of(words).ok_or(Fault::at(251, line))?);
            return Ok(());
        }
        match label_line(words) {
            Some(label) => self.add_label(label, line),
            None => self.add_instruction(words, line),
        }
    }

    fn add_label(&mut self, label: &'a str, line: usize) -> Result<(), Fault> {
        match self.labels.entry(label) {
            Entry::Occupied(_) => Err(Fault::at(253, line)),
            Entry::Vacant(entry) => {
                entry.insert(self.instructions.len() as u16);
                Ok(())
            }
        }
    }

    fn add_instruction(&mut self, words: &[&'a str], line: usize) -> Result<(), Fault> {
        let instruction = instruction_of(words).filter(|it| it.is_of(self.version)).ok_or(Fault::at(251, line))?;
        if self.instructions.len() == MAX_INSTRUCTIONS {
            return Err(Fault::plain(254));
        }
        if instruction.target().is_some() {
            self.uses.push(Use { label: words[words.len() - 1], instruction: self.instructions.len(), line });
        }
        self.instructions.push(instruction);
        Ok(())
    }

    fn finish(mut self, lines: usize) -> Result<Code, Fault> {
        let arity = match self.arity {
            Some(arity) if !self.instructions.is_empty() => arity,
            _ => return Err(Fault::at(251, lines)),
        };
        for Use { label, instruction, line } in self.uses {
            let position = *self.labels.get(label).ok_or(Fault::at(252, line))?;
            if let Some(target) = self.instructions[instruction].target_mut() {
                *target = position;
            }
        }
        Ok(Code { version: self.version, arity, instructions: self.instructions })
    }
}

fn arity_of(words: &[&str]) -> Option<u8> {
    match *words {
        ["arity", arity] => number(arity, MAX_ARITY + 1),
        _ => None,
    }
}

/// The label of a label's line.
fn label_line<'a>(words: &[&'a str]) -> Option<&'a str> {
    match *words {
        [word] => word.strip_suffix(':').filter(|label| is_label(label)),
        _ => None,
    }
}

fn is_label(word: &str) -> bool {
    let continues = |byte: u8| byte.is_ascii_alphanumeric() || byte == b'_';
    word.len() <= MAX_LABEL
        && word.bytes().all(continues)
        && word.bytes().next().is_some_and(|byte| !byte.is_ascii_digit())
}

/// The instruction of a line, with 0 in the place of a target.
fn instruction_of(words: &[&str]) -> Option<Instruction> {
    use Instruction::*;
    Some(match *words {
        ["set", x, w] => Set { to: value(x)?, number: signed(w)? },
        ["copy", x, y] => Copy { to: value(x)?, from: value(y)? },
        ["add", x, y, z, "else", l] => Add { to: value(x)?, left: value(y)?, right: value(z)?, target: label(l)? },
        ["sub", x, y, z, "else", l] => Subtract { to: value(x)?, left: value(y)?, right: value(z)?, target: label(l)? },
        ["mul", x, y, z, "else", l] => Multiply { to: value(x)?, left: value(y)?, right: value(z)?, target: label(l)? },
        ["div", x, y, z, "else", l] => Divide { to: value(x)?, left: value(y)?, right: value(z)?, target: label(l)? },
        ["jmp", l] => Jump { target: label(l)? },
        ["jlt", x, y, l] => JumpIfLess { left: value(x)?, right: value(y)?, target: label(l)? },
        ["jeq", x, y, l] => JumpIfEqual { left: value(x)?, right: value(y)?, target: label(l)? },
        ["rep", w] => Repeat { count: number(w, 65_536)? },
        ["repv", x, w] => RepeatBy { turns: value(x)?, count: number(w, 65_536)? },
        ["end"] => End,
        ["first", x, y, "else", l] => First { to: node(x)?, number: value(y)?, target: label(l)? },
        ["child", x, y, z, "else", l] => Child { to: node(x)?, parent: node(y)?, number: value(z)?, target: label(l)? },
        ["move", x, y] => Move { to: node(x)?, from: node(y)? },
        ["rel", x] => Release { node: node(x)? },
        ["get", x, y, z] => Get { to: value(x)?, node: node(y)?, field: number(z, FIELDS)? },
        ["put", x, y, z] => Put { node: node(x)?, field: number(y, FIELDS)?, from: value(z)? },
        ["kids", x, y] => Kids { to: value(x)?, node: node(y)? },
        ["emit", x] => Emit { from: value(x)? },
        ["ret"] => Return,
        _ => return None,
    })
}

fn value(word: &str) -> Option<u8> {
    number(word.strip_prefix('v')?, VALUE_REGISTERS)
}

fn node(word: &str) -> Option<u8> {
    number(word.strip_prefix('n')?, NODE_REGISTERS)
}

fn label(word: &str) -> Option<u16> {
    is_label(word).then_some(0)
}

/// A decimal number without leading zeros, below the limit.
fn number<T: TryFrom<usize>>(word: &str, limit: usize) -> Option<T> {
    let is_plain = word.bytes().all(|byte| byte.is_ascii_digit()) && (word.len() == 1 || !word.starts_with('0'));
    let number: usize = word.parse().ok().filter(|&number| is_plain && number < limit)?;
    number.try_into().ok()
}

fn signed(word: &str) -> Option<i32> {
    let magnitude = match word.strip_prefix('-') {
        Some(digits) => -number(digits, 1 << 32).filter(|&number: &i64| number > 0)?,
        None => number(word, 1 << 32)?,
    };
    magnitude.try_into().ok()
}

/// The canonical text of a code.
pub fn disassemble(code: &Code) -> String {
    let mut is_target = vec![false; code.instructions.len() + 1];
    for target in code.instructions.iter().filter_map(|instruction| instruction.target()) {
        is_target[usize::from(target)] = true;
    }
    let mut text = String::new();
    write_lines(&mut text, code, &is_target).expect("a string takes all that is written");
    text
}

fn write_lines(text: &mut String, code: &Code, is_target: &[bool]) -> fmt::Result {
    if code.version == Version::Two {
        writeln!(text, "version 2")?;
    }
    writeln!(text, "arity {}", code.arity)?;
    for (position, instruction) in code.instructions.iter().enumerate() {
        if is_target[position] {
            writeln!(text, "L{position}:")?;
        }
        writeln!(text, "{instruction}")?;
    }
    let end = code.instructions.len();
    if is_target[end] {
        writeln!(text, "L{end}:")?;
    }
    Ok(())
}

impl fmt::Display for Instruction {
    fn fmt(&self, out: &mut fmt::Formatter) -> fmt::Result {
        use Instruction::*;
        match *self {
            Set { to, number } => write!(out, "set v{to} {number}"),
            Copy { to, from } => write!(out, "copy v{to} v{from}"),
            Add { to, left, right, target } => write!(out, "add v{to} v{left} v{right} else L{target}"),
            Subtract { to, left, right, target } => write!(out, "sub v{to} v{left} v{right} else L{target}"),
            Multiply { to, left, right, target } => write!(out, "mul v{to} v{left} v{right} else L{target}"),
            Divide { to, left, right, target } => write!(out, "div v{to} v{left} v{right} else L{target}"),
            Jump { target } => write!(out, "jmp L{target}"),
            JumpIfLess { left, right, target } => write!(out, "jlt v{left} v{right} L{target}"),
            JumpIfEqual { left, right, target } => write!(out, "jeq v{left} v{right} L{target}"),
            Repeat { count } => write!(out, "rep {count}"),
            RepeatBy { turns, count } => write!(out, "repv v{turns} {count}"),
            End => write!(out, "end"),
            First { to, number, target } => write!(out, "first n{to} v{number} else L{target}"),
            Child { to, parent, number, target } => write!(out, "child n{to} n{parent} v{number} else L{target}"),
            Move { to, from } => write!(out, "move n{to} n{from}"),
            Release { node } => write!(out, "rel n{node}"),
            Get { to, node, field } => write!(out, "get v{to} n{node} {field}"),
            Put { node, field, from } => write!(out, "put n{node} {field} v{from}"),
            Kids { to, node } => write!(out, "kids v{to} n{node}"),
            Emit { from } => write!(out, "emit v{from}"),
            Return => write!(out, "ret"),
        }
    }
}
