//! The twenty-one instructions, and codes as their containers have them.

use super::fault::Fault;
use super::tree::{FIELDS, NARROW_FIELDS};

pub const VALUE_REGISTERS: usize = 16;
pub const NODE_REGISTERS: usize = 8;
pub const MAX_ARITY: usize = 8;
pub const MAX_INSTRUCTIONS: usize = 1_024;

const CELL: usize = 8;

#[derive(Clone, Copy, Debug, PartialEq, Eq)]
pub enum Instruction {
    Set { to: u8, number: i32 },
    Copy { to: u8, from: u8 },
    Add { to: u8, left: u8, right: u8, target: u16 },
    Subtract { to: u8, left: u8, right: u8, target: u16 },
    Multiply { to: u8, left: u8, right: u8, target: u16 },
    Divide { to: u8, left: u8, right: u8, target: u16 },
    Jump { target: u16 },
    JumpIfLess { left: u8, right: u8, target: u16 },
    JumpIfEqual { left: u8, right: u8, target: u16 },
    Repeat { count: u16 },
    RepeatBy { turns: u8, count: u16 },
    End,
    First { to: u8, number: u8, target: u16 },
    Child { to: u8, parent: u8, number: u8, target: u16 },
    Move { to: u8, from: u8 },
    Release { node: u8 },
    Get { to: u8, node: u8, field: u8 },
    Put { node: u8, field: u8, from: u8 },
    Kids { to: u8, node: u8 },
    Emit { from: u8 },
    Return,
}

impl Instruction {
    /// Where control may be sent to.
    pub fn target(mut self) -> Option<u16> {
        self.target_mut().copied()
    }

    pub fn target_mut(&mut self) -> Option<&mut u16> {
        match self {
            Instruction::Add { target, .. }
            | Instruction::Subtract { target, .. }
            | Instruction::Multiply { target, .. }
            | Instruction::Divide { target, .. }
            | Instruction::Jump { target }
            | Instruction::JumpIfLess { target, .. }
            | Instruction::JumpIfEqual { target, .. }
            | Instruction::First { target, .. }
            | Instruction::Child { target, .. } => Some(target),
            _ => None,
        }
    }

    /// The node register that has to hold a node.
    pub fn source(&self) -> Option<u8> {
        match *self {
            Instruction::Child { parent, .. } => Some(parent),
            Instruction::Move { from, .. } => Some(from),
            Instruction::Release { node }
            | Instruction::Get { node, .. }
            | Instruction::Put { node, .. }
            | Instruction::Kids { node, .. } => Some(node),
            _ => None,
        }
    }

    /// The node register that it fills.
    pub fn fills(&self) -> Option<u8> {
        match *self {
            Instruction::First { to, .. } | Instruction::Child { to, .. } | Instruction::Move { to, .. } => Some(to),
            _ => None,
        }
    }

    /// The node register that it empties.
    pub fn empties(&self) -> Option<u8> {
        match *self {
            Instruction::Move { from, .. } => Some(from),
            Instruction::Release { node } => Some(node),
            _ => None,
        }
    }

    /// Whether the version has it.
    pub fn is_of(&self, version: Version) -> bool {
        match *self {
            Instruction::RepeatBy { .. } => version == Version::Two,
            Instruction::Get { field, .. } | Instruction::Put { field, .. } => usize::from(field) < version.fields(),
            _ => true,
        }
    }

    /// Whether control may go on to the next position.
    pub fn goes_on(&self) -> bool {
        !matches!(self, Instruction::Jump { .. } | Instruction::Return)
    }
}

#[derive(Clone, Copy, Debug, Default, PartialEq, Eq)]
pub enum Version {
    #[default]
    One,
    Two,
}

impl Version {
    fn of_magic(bytes: &[u8]) -> Option<Version> {
        match bytes.first_chunk()? {
            b"TLP1" => Some(Version::One),
            b"TLP2" => Some(Version::Two),
            _ => None,
        }
    }

    fn fields(self) -> usize {
        match self {
            Version::One => NARROW_FIELDS,
            Version::Two => FIELDS,
        }
    }
}

#[derive(Clone, Debug, PartialEq, Eq)]
pub struct Code {
    pub version: Version,
    pub arity: u8,
    pub instructions: Vec<Instruction>,
}

/// The code of a container.
pub fn decode(bytes: &[u8]) -> Result<Code, Fault> {
    let version = Version::of_magic(bytes).ok_or(Fault::plain(201))?;
    if bytes.len() < CELL {
        return Err(Fault::plain(202));
    }
    let (head, cells) = bytes.split_at(CELL);
    let arity = head[4];
    if usize::from(arity) > MAX_ARITY || head[5] != 0 {
        return Err(Fault::plain(206));
    }
    let count = u16::from_be_bytes([head[6], head[7]]);
    if count == 0 || usize::from(count) > MAX_INSTRUCTIONS {
        return Err(Fault::plain(205));
    }
    if cells.len() != CELL * usize::from(count) {
        return Err(Fault::plain(202));
    }
    let mut instructions = Vec::with_capacity(usize::from(count));
    for (position, cell) in cells.chunks_exact(CELL).enumerate() {
        instructions.push(instruction_of(cell, version, count).map_err(|number| Fault::at(number, position))?);
    }
    Ok(Code { version, arity, instructions })
}

/// What stands in the place of an operand.
#[derive(Clone, Copy)]
enum Operand {
    Unused,
    Value,
    Node,
    Field,
    Number,
    Count,
    Target,
}

impl Operand {
    fn takes(self, operand: u32, count: u16) -> bool {
        match self {
            Operand::Unused => operand == 0,
            Operand::Value => operand < VALUE_REGISTERS as u32,
            Operand::Node => operand < NODE_REGISTERS as u32,
            Operand::Field => operand < FIELDS as u32,
            Operand::Number => true,
            Operand::Count => operand <= u32::from(u16::MAX),
            Operand::Target => operand <= u32::from(count),
        }
    }
}

/// The operands x, y, z and w of an opcode.
fn operands(opcode: u8) -> Option<[Operand; 4]> {
    use Operand::*;
    Some(match opcode {
        1 => [Value, Unused, Unused, Number],
        2 => [Value, Value, Unused, Unused],
        3..=6 => [Value, Value, Value, Target],
        7 => [Unused, Unused, Unused, Target],
        8 | 9 => [Value, Value, Unused, Target],
        10 => [Unused, Unused, Unused, Count],
        11 | 20 => [Unused, Unused, Unused, Unused],
        12 => [Node, Value, Unused, Target],
        13 => [Node, Node, Value, Target],
        14 => [Node, Node, Unused, Unused],
        15 => [Node, Unused, Unused, Unused],
        16 => [Value, Node, Field, Unused],
        17 => [Node, Field, Value, Unused],
        18 => [Value, Node, Unused, Unused],
        19 => [Value, Unused, Unused, Unused],
        21 => [Value, Unused, Unused, Count],
        _ => return None,
    })
}

/// The instruction of eight bytes in a code of `count` instructions, or the number of what is wrong.
fn instruction_of(cell: &[u8], version: Version, count: u16) -> Result<Instruction, u16> {
    let (opcode, x, y, z) = (cell[0], cell[1], cell[2], cell[3]);
    let w = u32::from_be_bytes([cell[4], cell[5], cell[6], cell[7]]);
    let kinds = operands(opcode).filter(|_| opcode != 21 || version == Version::Two).ok_or(203u16)?;
    let found = [u32::from(x), u32::from(y), u32::from(z), w];
    if !kinds.iter().zip(found).all(|(kind, operand)| kind.takes(operand, count)) {
        return Err(204);
    }
    let target = w as u16;
    let instruction = match opcode {
        1 => Instruction::Set { to: x, number: w as i32 },
        2 => Instruction::Copy { to: x, from: y },
        3 => Instruction::Add { to: x, left: y, right: z, target },
        4 => Instruction::Subtract { to: x, left: y, right: z, target },
        5 => Instruction::Multiply { to: x, left: y, right: z, target },
        6 => Instruction::Divide { to: x, left: y, right: z, target },
        7 => Instruction::Jump { target },
        8 => Instruction::JumpIfLess { left: x, right: y, target },
        9 => Instruction::JumpIfEqual { left: x, right: y, target },
        10 => Instruction::Repeat { count: w as u16 },
        11 => Instruction::End,
        12 => Instruction::First { to: x, number: y, target },
        13 => Instruction::Child { to: x, parent: y, number: z, target },
        14 => Instruction::Move { to: x, from: y },
        15 => Instruction::Release { node: x },
        16 => Instruction::Get { to: x, node: y, field: z },
        17 => Instruction::Put { node: x, field: y, from: z },
        18 => Instruction::Kids { to: x, node: y },
        19 => Instruction::Emit { from: x },
        21 => Instruction::RepeatBy { turns: x, count: w as u16 },
        _ => Instruction::Return,
    };
    if instruction.is_of(version) { Ok(instruction) } else { Err(204) }
}
