//! The auditor of trails, who trusts nobody who wrote one.

use super::core::Event;
use super::fault::Fault;
use super::machine::{Call, Keeper};
use super::order::{Placer, NOBODY};
use super::trail::{ToldCall, Trail};
use super::tree::{Record, Shape};
use super::verifier::Procedure;

/// The order of a clean trail's calls, or what is wrong first. One pass along the events: their rules, the calls each
/// along its own events, and the order.
pub fn audit(trail: &Trail) -> Result<Vec<u32>, Fault> {
    let shape = &trail.tree.shape;
    let mut watch = Watch::new(trail);
    for (number, event) in trail.events.iter().enumerate() {
        watch.check(event).map_err(|fault| Fault::at(fault, number))?;
        watch.follow(trail, event);
        watch.note(event);
    }
    if let Some(call) = watch.calls.iter().position(|call| call.stage != Stage::Done) {
        return Err(Fault::at(715, call));
    }
    if let Some((call, fault)) = watch.wrong {
        return Err(Fault::at(fault, call as usize));
    }
    if let Some(node) = (0..shape.node_count()).find(|&node| watch.records[node] != trail.ends[node]) {
        return Err(Fault::at(716, node));
    }
    Ok(watch.placer.into_order())
}

#[derive(Clone, Copy, PartialEq)]
enum Stage {
    Coming,
    Open,
    Done,
}

struct Watched {
    stage: Stage,
    holding: u32,
    /// while it is open and did what it does alone
    turn: Option<Box<Call>>,
}

/// What the events so far have come to.
struct Watch<'a> {
    shape: &'a Shape,
    calls: Vec<Watched>,
    admitted: u32,
    placer: Placer,
    records: Vec<Record>,
    /// the least call that is wrong, and the number of what is wrong with it
    wrong: Option<(u32, u16)>,
}

impl Watch<'_> {
    fn new(trail: &Trail) -> Watch<'_> {
        let coming = || Watched { stage: Stage::Coming, holding: 0, turn: None };
        Watch {
            shape: &trail.tree.shape,
            calls: trail.calls.iter().map(|_| coming()).collect(),
            admitted: 0,
            placer: Placer::new(trail.tree.records.len(), trail.calls.len()),
            records: trail.tree.records.clone(),
            wrong: None,
        }
    }

    /// The number of what is wrong with the next event.
    fn check(&self, event: &Event) -> Result<(), u16> {
        if !self.keeps_rules(event) {
            return Err(711);
        }
        if let Event::Lock { node, record, .. } = *event {
            if self.placer.holder(node) != NOBODY {
                return Err(712);
            }
            if self.records[node as usize] != record {
                return Err(713);
            }
        }
        Ok(())
    }

    fn keeps_rules(&self, event: &Event) -> bool {
        let Watched { stage, holding, .. } = &self.calls[event.call() as usize];
        match *event {
            Event::Admit { call } => call == self.admitted,
            _ if *stage != Stage::Open => false,
            Event::Lock { call, node, .. } => {
                !self.placer.stands(call)
                    || (node != 0
                        && self.placer.holder(self.shape.parent(node)) == call
                        && self.placer.under(node) != call)
            }
            Event::Free { call, node, .. } => self.placer.holder(node) == call,
            Event::Done { .. } => *holding == 0,
        }
    }

    fn note(&mut self, event: &Event) {
        self.placer.note(event, self.shape);
        let call = &mut self.calls[event.call() as usize];
        match *event {
            Event::Admit { .. } => {
                call.stage = Stage::Open;
                self.admitted += 1;
            }
            Event::Lock { .. } => call.holding += 1,
            Event::Free { node, record, .. } => {
                call.holding -= 1;
                self.records[node as usize] = record;
            }
            Event::Done { .. } => call.stage = Stage::Done,
        }
    }

    /// The event's call goes on along it.
    fn follow(&mut self, trail: &Trail, event: &Event) {
        let told = &trail.calls[event.call() as usize];
        let procedure = trail.procedures.get(told.procedure);
        let turn = &mut self.calls[event.call() as usize].turn;
        let went = match *event {
            Event::Admit { .. } => {
                *turn = Call::start(procedure, &told.args).map(Box::new);
                if turn.is_some() { Ok(()) } else { Err(714) }
            }
            Event::Lock { .. } | Event::Free { .. } => match turn {
                Some(turn) => lead(turn, procedure, self.shape, event),
                None => Ok(()),
            },
            Event::Done { .. } => match turn.take() {
                Some(turn) => end(turn, procedure, self.shape, told),
                None => Ok(()),
            },
        };
        if let Err(fault) = went {
            self.calls[event.call() as usize].turn = None;
            if self.wrong.is_none_or(|(least, _)| event.call() < least) {
                self.wrong = Some((event.call(), fault));
            }
        }
    }
}

/// The one lock or free that a call has to do next.
struct Next<'a> {
    event: Option<&'a Event>,
}

/// Why a call stops.
enum Stop {
    /// What it has to do next comes later.
    Later,
    /// It wants something else.
    NotGenuine,
}

impl Keeper for Next<'_> {
    type Refusal = Stop;

    #[inline(always)]
    fn lock(&mut self, wanted: u32) -> Result<Record, Stop> {
        match self.event.take() {
            Some(&Event::Lock { node, record, .. }) if node == wanted => Ok(record),
            Some(_) => Err(Stop::NotGenuine),
            None => Err(Stop::Later),
        }
    }

    #[inline(always)]
    fn free(&mut self, freed: u32, left: Record) -> Result<(), Stop> {
        match self.event.take() {
            Some(&Event::Free { node, record, .. }) if node == freed && record == left => Ok(()),
            Some(_) => Err(Stop::NotGenuine),
            None => Err(Stop::Later),
        }
    }
}

/// Goes along the event, which has to be the call's next lock or free, and on to where it stops then.
fn lead(call: &mut Call, procedure: &Procedure, shape: &Shape, event: &Event) -> Result<(), u16> {
    let mut next = Next { event: Some(event) };
    match call.run(procedure, shape, &mut next) {
        Err(Stop::NotGenuine) => Err(714),
        // It has come to its end before the event.
        Ok(()) if next.event.is_some() => Err(714),
        Ok(()) | Err(Stop::Later) => Ok(()),
    }
}

/// Goes on to the end, and compares the reply.
fn end(mut call: Box<Call>, procedure: &Procedure, shape: &Shape, told: &ToldCall) -> Result<(), u16> {
    if call.run(procedure, shape, &mut Next { event: None }).is_err() {
        return Err(714);
    }
    if told.reply.as_deref() != Some(call.reply().values()) {
        return Err(717);
    }
    Ok(())
}
