//! A core whose order is kept up to date.

use super::core::{Core, Stepped};
use super::fault::Fault;
use super::machine::{run_alone, Action, Call, Reply};
use super::order::Placer;
use super::tree::Tree;
use super::verifier::Procedure;

pub struct Running {
    core: Core,
    placer: Placer,
}

impl Running {
    pub fn new(core: Core) -> Running {
        let placer = Placer::new(core.records().len(), 0);
        Running { core, placer }
    }

    pub fn core(&self) -> &Core {
        &self.core
    }

    pub fn order(&self) -> &[u32] {
        self.placer.order()
    }

    pub fn add_procedure(&mut self, name: &str, procedure: Procedure) -> Result<(), Fault> {
        self.core.add_procedure(name, procedure)
    }

    pub fn admit(&mut self, name: &str, args: &[i64]) -> Result<u32, Fault> {
        let call = self.core.admit(name, args)?;
        self.placer.admit();
        Ok(call)
    }

    /// The one that takes over once all calls are done.
    pub fn successor(&self) -> Running {
        Running::new(self.core.successor())
    }

    pub fn cut_history(&mut self) {
        self.core.cut_history();
    }

    #[inline(always)]
    pub fn step(&mut self, call: u32) -> Result<Stepped, Fault> {
        let stepped = self.core.step(call)?;
        self.note(call, &stepped);
        Ok(stepped)
    }

    pub fn lead(&mut self, call: u32, from: &Call, to: &mut Call) -> Result<Stepped, Fault> {
        let stepped = self.core.lead(call, from, to)?;
        self.note(call, &stepped);
        Ok(stepped)
    }

    #[inline(always)]
    fn note(&mut self, call: u32, stepped: &Stepped) {
        match *stepped {
            Stepped::Moved(Action::Lock { node, .. }) => self.placer.lock(call, node, &self.core.opening().shape),
            Stepped::Moved(Action::Free { node, .. }) => self.placer.free(node),
            Stepped::Moved(Action::End) => self.placer.end(call),
            _ => {}
        }
    }
}

/// The calls of the order run alone, one after another, from the opening tree: the tree that they leave, and their replies.
pub fn replay(order: &[u32], core: &Core) -> Option<(Tree, Vec<Reply>)> {
    let mut tree = core.opening().clone();
    let mut run_again = |&call: &u32| {
        let (procedure, args) = core.request(call as usize);
        Some(run_alone(core.procedures().get(procedure), args, &mut tree)?.0)
    };
    let replies = order.iter().map(&mut run_again).collect::<Option<Vec<Reply>>>()?;
    Some((tree, replies))
}
