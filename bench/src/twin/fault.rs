//! A fault: its number, and its parts where it has some.

#[derive(Clone, Copy, Debug, PartialEq, Eq)]
pub struct Fault {
    pub number: u16,
    /// the position, line, node, call or event
    pub at: Option<u32>,
    pub register: Option<u8>,
}

impl Fault {
    pub fn plain(number: u16) -> Fault {
        Fault { number, at: None, register: None }
    }

    pub fn at(number: u16, at: usize) -> Fault {
        Fault { number, at: Some(at as u32), register: None }
    }

    pub fn register(number: u16, at: usize, register: u8) -> Fault {
        Fault { number, at: Some(at as u32), register: Some(register) }
    }
}
