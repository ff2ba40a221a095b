//! The verifier: what it accepts can't fail, whatever the arguments and the tree are.

use super::fault::Fault;
use super::instruction::{Code, Instruction};

pub const MAX_DEPTH: usize = 4;

const MAX_STEPS: u64 = 1_000_000;
const MAX_LOCKS: u64 = 4_096;
pub const MAX_EMITS: usize = 32;

/// The most that a call may do.
#[derive(Clone, Copy, Debug, Default, PartialEq, Eq)]
pub struct Bounds {
    pub steps: u64,
    pub locks: u64,
    pub emits: u64,
}

/// The loops around a position: how many, and where the innermost opens (0 without one). Where the loop ends that opens here (0
/// without one).
#[derive(Clone, Copy, Debug, PartialEq, Eq)]
pub struct Around {
    pub depth: u8,
    pub opening: u16,
    pub close: u16,
}

/// A code that was accepted, with its loops and bounds.
#[derive(Clone, Debug, PartialEq)]
pub struct Procedure {
    pub code: Code,
    pub loops: Vec<Around>,
    pub bounds: Bounds,
}

pub fn verify(code: Code) -> Result<Procedure, Fault> {
    let loops = nest(&code.instructions)?;
    check_targets(&code.instructions, &loops)?;
    check_registers(&code.instructions, &loops)?;
    let bounds = bounds(&code.instructions)?;
    Ok(Procedure { code, loops, bounds })
}

/// The loops around each position.
fn nest(instructions: &[Instruction]) -> Result<Vec<Around>, Fault> {
    let mut loops: Vec<Around> = Vec::with_capacity(instructions.len());
    let mut open: Vec<u16> = Vec::with_capacity(MAX_DEPTH);
    for (position, instruction) in instructions.iter().enumerate() {
        let opening = open.last().copied().unwrap_or(0);
        loops.push(Around { depth: open.len() as u8, opening, close: 0 });
        match *instruction {
            Instruction::End => {
                let opening = open.pop().ok_or(Fault::at(302, position))?;
                loops[usize::from(opening)].close = position as u16;
            }
            Instruction::Repeat { count: 0 } | Instruction::RepeatBy { count: 0, .. } => return Err(Fault::at(304, position)),
            Instruction::Repeat { .. } | Instruction::RepeatBy { .. } if open.len() == MAX_DEPTH => {
                return Err(Fault::at(303, position));
            }
            Instruction::Repeat { .. } | Instruction::RepeatBy { .. } => open.push(position as u16),
            _ => {}
        }
    }
    match open.first() {
        Some(&position) => Err(Fault::at(301, position.into())),
        None => Ok(loops),
    }
}

fn check_targets(instructions: &[Instruction], loops: &[Around]) -> Result<(), Fault> {
    for (position, instruction) in instructions.iter().enumerate() {
        let Some(target) = instruction.target() else { continue };
        let target = usize::from(target);
        if target <= position {
            return Err(Fault::at(401, position));
        }
        if target >= instructions.len() {
            return Err(Fault::at(403, position));
        }
        // The innermost loop around the target opens behind the instruction, so it isn't around that.
        if loops[target].depth > 0 && usize::from(loops[target].opening) > position {
            return Err(Fault::at(402, position));
        }
    }
    Ok(())
}

/// What is known at a position: which registers are held, as bits, and whether `first` is open.
#[derive(Clone, Copy, PartialEq)]
struct State {
    held: u8,
    first_open: bool,
}

impl State {
    fn holds(self, register: u8) -> bool {
        self.held & (1 << register) != 0
    }

    fn after(mut self, instruction: &Instruction) -> State {
        if let Some(register) = instruction.fills() {
            self.held |= 1 << register;
        }
        if let Some(register) = instruction.empties() {
            self.held &= !(1 << register);
        }
        self.first_open &= !matches!(instruction, Instruction::First { .. });
        self
    }
}

/// What the ways to a position have brought so far.
#[derive(Clone, Copy)]
enum Arrival {
    Nothing,
    With(State),
    Differing,
}

impl Arrival {
    fn add(&mut self, state: State) {
        *self = match *self {
            Arrival::Nothing => Arrival::With(state),
            Arrival::With(before) if before.held == state.held => {
                Arrival::With(State { held: state.held, first_open: before.first_open && state.first_open })
            }
            _ => Arrival::Differing,
        }
    }
}

fn check_registers(instructions: &[Instruction], loops: &[Around]) -> Result<(), Fault> {
    let count = instructions.len();
    let mut arrivals = vec![Arrival::Nothing; count];
    arrivals[0] = Arrival::With(State { held: 0, first_open: true });
    for (position, instruction) in instructions.iter().enumerate() {
        let state = match arrivals[position] {
            Arrival::Nothing => continue,
            Arrival::Differing => return Err(Fault::at(408, position)),
            Arrival::With(state) => state,
        };
        check_state(position, instruction, state)?;
        if matches!(instruction, Instruction::End) {
            let start = arrivals[usize::from(loops[position].opening) + 1];
            if !matches!(start, Arrival::With(start) if start == state) {
                return Err(Fault::at(409, position));
            }
        }
        if let Some(target) = instruction.target() {
            arrivals[usize::from(target)].add(state);
        }
        if matches!(instruction, Instruction::RepeatBy { .. }) {
            let behind = usize::from(loops[position].close) + 1;
            arrivals.get_mut(behind).ok_or(Fault::at(403, position))?.add(state);
        }
        if instruction.goes_on() {
            let next = arrivals.get_mut(position + 1).ok_or(Fault::at(403, position))?;
            next.add(state.after(instruction));
        }
    }
    Ok(())
}

/// What the instruction by itself asks of the registers.
fn check_state(position: usize, instruction: &Instruction, state: State) -> Result<(), Fault> {
    if matches!(instruction, Instruction::First { .. }) && !state.first_open {
        return Err(Fault::at(404, position));
    }
    if let Some(register) = instruction.source().filter(|&register| !state.holds(register)) {
        return Err(Fault::register(405, position, register));
    }
    if let Some(register) = instruction.fills().filter(|&register| state.holds(register)) {
        return Err(Fault::register(406, position, register));
    }
    if matches!(instruction, Instruction::Return) && state.held != 0 {
        return Err(Fault::register(407, position, state.held.trailing_zeros() as u8));
    }
    Ok(())
}

/// The sums of the weights. A weight is a product of at most four counts of 16 bits.
fn bounds(instructions: &[Instruction]) -> Result<Bounds, Fault> {
    let mut bounds = Bounds::default();
    let mut weight: u64 = 1;
    let mut outer = Vec::with_capacity(MAX_DEPTH);
    for instruction in instructions {
        bounds.steps = bounds.steps.saturating_add(weight);
        match *instruction {
            Instruction::First { .. } | Instruction::Child { .. } => bounds.locks = bounds.locks.saturating_add(weight),
            Instruction::Emit { .. } => bounds.emits = bounds.emits.saturating_add(weight),
            Instruction::Repeat { count } | Instruction::RepeatBy { count, .. } => {
                outer.push(weight);
                weight *= u64::from(count);
            }
            Instruction::End => weight = outer.pop().unwrap_or(1),
            _ => {}
        }
    }
    if bounds.steps > MAX_STEPS {
        return Err(Fault::plain(305));
    }
    if bounds.locks > MAX_LOCKS {
        return Err(Fault::plain(306));
    }
    if bounds.emits > MAX_EMITS as u64 {
        return Err(Fault::plain(307));
    }
    Ok(bounds)
}
