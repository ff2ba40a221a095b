//! Many calls on one tree, one step at a time.

use std::collections::HashMap;
use std::sync::Arc;

use super::fault::Fault;
use super::machine::{Action, Call, Keeper};
use super::order::NOBODY;
use super::tree::{Record, Shape, Tree};
use super::verifier::Procedure;

pub const MAX_CALLS: usize = 4_096;
pub const MAX_EVENTS: usize = 1_048_576;

const MAX_OPEN: usize = 64;
const MAX_PROCEDURES: usize = 256;
const MAX_NAME: usize = 32;

/// What the history stores.
#[derive(Clone, Copy, Debug, PartialEq)]
pub enum Event {
    Admit { call: u32 },
    Lock { call: u32, node: u32, record: Record },
    Free { call: u32, node: u32, record: Record },
    Done { call: u32 },
}

impl Event {
    pub fn call(&self) -> u32 {
        match *self {
            Event::Admit { call } | Event::Lock { call, .. } | Event::Free { call, .. } | Event::Done { call } => call,
        }
    }

    pub fn node(&self) -> Option<u32> {
        match *self {
            Event::Lock { node, .. } | Event::Free { node, .. } => Some(node),
            Event::Admit { .. } | Event::Done { .. } => None,
        }
    }
}

/// Procedures under their names.
#[derive(Clone, Debug, Default, PartialEq)]
pub struct Procedures {
    entries: Vec<(String, Arc<Procedure>)>,
    numbers: HashMap<String, usize>,
}

impl Procedures {
    pub fn add(&mut self, name: &str, procedure: Procedure) -> Result<(), Fault> {
        let fits = (1..=MAX_NAME).contains(&name.len());
        if !fits || !name.bytes().all(|b| b.is_ascii_alphanumeric() || b == b'_') {
            return Err(Fault::plain(612));
        }
        if self.numbers.contains_key(name) {
            return Err(Fault::plain(611));
        }
        if self.entries.len() == MAX_PROCEDURES {
            return Err(Fault::plain(613));
        }
        self.numbers.insert(name.to_string(), self.entries.len());
        self.entries.push((name.to_string(), Arc::new(procedure)));
        Ok(())
    }

    pub fn number_of(&self, name: &str) -> Option<usize> {
        self.numbers.get(name).copied()
    }

    pub fn name(&self, number: usize) -> &str {
        &self.entries[number].0
    }

    pub fn get(&self, number: usize) -> &Arc<Procedure> {
        &self.entries[number].1
    }

    pub fn iter(&self) -> impl Iterator<Item = &(String, Arc<Procedure>)> {
        self.entries.iter()
    }
}

enum Progress {
    /// its place among the open calls
    Open(u8),
    Over(Vec<i64>),
}

struct Admitted {
    procedure: usize,
    args: Vec<i64>,
    progress: Progress,
}

struct OpenCall {
    number: u32,
    /// events that it may still have
    places: usize,
    state: Call,
}

/// What a step came to.
#[derive(Clone, Copy, Debug, PartialEq)]
pub enum Stepped {
    Moved(Action),
    Blocked { node: u32, holder: u32 },
    Over,
}

/// A call's state, with what it needs to go on by itself.
pub struct Turn {
    pub procedure: Arc<Procedure>,
    pub shape: Arc<Shape>,
    pub state: Call,
}

pub struct Core {
    opening: Tree,
    procedures: Procedures,
    calls: Vec<Admitted>,
    open: Vec<OpenCall>,
    /// events that the open calls may still have
    reserved: usize,
    nodes: Nodes,
}

/// What calls share: each node's record as it was left last and who holds it, and the history.
struct Nodes {
    records: Vec<Record>,
    holders: Vec<u32>,
    history: Vec<Event>,
}

/// The nodes, as the step of one call uses them.
struct Access<'a> {
    call: u32,
    nodes: &'a mut Nodes,
}

struct Blocked {
    node: u32,
    holder: u32,
}

impl Keeper for Access<'_> {
    type Refusal = Blocked;

    #[inline(always)]
    fn lock(&mut self, node: u32) -> Result<Record, Blocked> {
        let index = node as usize;
        let holder = self.nodes.holders[index];
        if holder != NOBODY {
            return Err(Blocked { node, holder });
        }
        let record = self.nodes.records[index];
        self.nodes.holders[index] = self.call;
        self.nodes.history.push(Event::Lock { call: self.call, node, record });
        Ok(record)
    }

    #[inline(always)]
    fn free(&mut self, node: u32, record: Record) -> Result<(), Blocked> {
        let index = node as usize;
        self.nodes.records[index] = record;
        self.nodes.holders[index] = NOBODY;
        self.nodes.history.push(Event::Free { call: self.call, node, record });
        Ok(())
    }
}

impl Core {
    pub fn new(tree: Tree) -> Core {
        let nodes =
            Nodes { records: tree.records.clone(), holders: vec![NOBODY; tree.records.len()], history: Vec::new() };
        let open = Vec::with_capacity(MAX_OPEN);
        Core { opening: tree, procedures: Procedures::default(), calls: Vec::new(), open, reserved: 0, nodes }
    }

    pub fn add_procedure(&mut self, name: &str, procedure: Procedure) -> Result<(), Fault> {
        self.procedures.add(name, procedure)
    }

    pub fn admit(&mut self, name: &str, args: &[i64]) -> Result<u32, Fault> {
        let procedure = self.procedures.number_of(name).ok_or(Fault::plain(601))?;
        let bounds = self.procedures.get(procedure).bounds;
        let state = Call::start(self.procedures.get(procedure), args).ok_or(Fault::plain(501))?;
        if self.calls.len() == MAX_CALLS {
            return Err(Fault::plain(603));
        }
        if self.open.len() == MAX_OPEN {
            return Err(Fault::plain(604));
        }
        let locks = (bounds.locks as usize).min(self.opening.shape.node_count());
        let places = 2 * locks + 1;
        let history = &mut self.nodes.history;
        if history.len() + self.reserved + places + 1 > MAX_EVENTS {
            return Err(Fault::plain(605));
        }
        let number = self.calls.len() as u32;
        self.reserved += places;
        history.reserve(self.reserved + 1);
        history.push(Event::Admit { call: number });
        let progress = Progress::Open(self.open.len() as u8);
        self.open.push(OpenCall { number, places, state });
        self.calls.push(Admitted { procedure, args: args.to_vec(), progress });
        Ok(number)
    }

    /// A core without calls that opens with the records now and has the same procedures.
    pub fn successor(&self) -> Core {
        let tree = Tree { shape: Arc::clone(&self.opening.shape), records: self.nodes.records.clone() };
        Core { procedures: self.procedures.clone(), ..Core::new(tree) }
    }

    /// Gives back memory that the history doesn't need.
    pub fn cut_history(&mut self) {
        self.nodes.history.shrink_to_fit();
    }

    /// The place of a call among the open ones, where it isn't over.
    fn place_of(&self, number: u32) -> Result<Option<usize>, Fault> {
        match self.calls.get(number as usize).ok_or(Fault::plain(602))?.progress {
            Progress::Open(place) => Ok(Some(usize::from(place))),
            Progress::Over(_) => Ok(None),
        }
    }

    #[inline(always)]
    pub fn step(&mut self, number: u32) -> Result<Stepped, Fault> {
        let Some(place) = self.place_of(number)? else { return Ok(Stepped::Over) };
        let procedure = self.procedures.get(self.calls[number as usize].procedure);
        let mut access = Access { call: number, nodes: &mut self.nodes };
        match self.open[place].state.step(procedure, &self.opening.shape, &mut access) {
            Ok(action) => Ok(self.settled(place, action)),
            Err(Blocked { node, holder }) => Ok(Stepped::Blocked { node, holder }),
        }
    }

    /// What an action of the call at that place changes in the books.
    #[inline(always)]
    fn settled(&mut self, place: usize, action: Action) -> Stepped {
        match action {
            Action::Lock { .. } | Action::Free { .. } => {
                self.open[place].places -= 1;
                self.reserved -= 1;
            }
            Action::End => self.end(place),
            _ => {}
        }
        Stepped::Moved(action)
    }

    /// The call at that place is over.
    fn end(&mut self, place: usize) {
        let ended = self.open.swap_remove(place);
        self.reserved -= ended.places;
        self.nodes.history.push(Event::Done { call: ended.number });
        self.calls[ended.number as usize].progress = Progress::Over(ended.state.reply().values().to_vec());
        if let Some(moved) = self.open.get(place) {
            self.calls[moved.number as usize].progress = Progress::Open(place as u8);
        }
    }

    /// The state of a call that isn't over, and what it goes on with.
    pub fn turn(&self, number: u32) -> Option<Turn> {
        let place = self.place_of(number).ok()??;
        let procedure = Arc::clone(self.procedures.get(self.calls[number as usize].procedure));
        Some(Turn { procedure, shape: Arc::clone(&self.opening.shape), state: self.open[place].state })
    }

    /// Takes a call, which stands at `from`, to where it came by itself, and lets it do its lock, its free or its return. Where it
    /// is blocked nothing changes, and else `to` is its state then.
    pub fn lead(&mut self, number: u32, from: &Call, to: &mut Call) -> Result<Stepped, Fault> {
        let place = self.place_of(number)?.ok_or(Fault::plain(607))?;
        if self.open[place].state != *from {
            return Err(Fault::plain(607));
        }
        let procedure = self.procedures.get(self.calls[number as usize].procedure);
        let mut access = Access { call: number, nodes: &mut self.nodes };
        match to.step(procedure, &self.opening.shape, &mut access) {
            Ok(action) => {
                self.open[place].state = *to;
                Ok(self.settled(place, action))
            }
            Err(Blocked { node, holder }) => Ok(Stepped::Blocked { node, holder }),
        }
    }

    /// Whether some call holds the node.
    pub fn is_held(&self, node: u32) -> bool {
        self.nodes.holders[node as usize] != NOBODY
    }

    pub fn opening(&self) -> &Tree {
        &self.opening
    }

    /// The records that were left last.
    pub fn records(&self) -> &[Record] {
        &self.nodes.records
    }

    pub fn history(&self) -> &[Event] {
        &self.nodes.history
    }

    pub fn procedures(&self) -> &Procedures {
        &self.procedures
    }

    pub fn call_count(&self) -> usize {
        self.calls.len()
    }

    /// The number of the call's procedure, and its arguments.
    pub fn request(&self, call: usize) -> (usize, &[i64]) {
        let call = &self.calls[call];
        (call.procedure, &call.args)
    }

    /// The call's reply, once it is done.
    pub fn reply(&self, call: usize) -> Option<&[i64]> {
        match &self.calls[call].progress {
            Progress::Open(_) => None,
            Progress::Over(reply) => Some(reply),
        }
    }
}
