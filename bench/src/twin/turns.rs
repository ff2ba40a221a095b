//! What is measured of many calls: they take turns, 64 at a time, or run on threads.

use crate::measured::Measured;

use super::core::{Core, Stepped};
use super::engine::{Engine, Request, Session};
use super::fault::Fault;
use super::machine::Action;
use super::running::{replay as run_again, Running};
use super::trail::{trail_of, write_trail};
use super::tree::Tree;
use super::work::{mix_events, mix_order, mix_records, procedure_of, timed, tree_of};

const GROUP: usize = 64;
const MAX_REQUESTS: usize = 256;

/// Who admits calls and steps them.
trait Steps {
    fn admit_call(&mut self, arg: i64) -> Result<u32, Fault>;

    fn step_call(&mut self, call: u32) -> Result<Stepped, Fault>;
}

impl Steps for Core {
    fn admit_call(&mut self, arg: i64) -> Result<u32, Fault> {
        self.admit("call", &[arg])
    }

    #[inline(always)]
    fn step_call(&mut self, call: u32) -> Result<Stepped, Fault> {
        self.step(call)
    }
}

impl Steps for Running {
    fn admit_call(&mut self, arg: i64) -> Result<u32, Fault> {
        self.admit("call", &[arg])
    }

    #[inline(always)]
    fn step_call(&mut self, call: u32) -> Result<Stepped, Fault> {
        self.step(call)
    }
}

/// Asks each call that isn't over for a step, in rising order, until all are over: how many steps were asked.
fn take_turns(stepper: &mut impl Steps, mut open: Vec<u32>) -> Result<u64, Fault> {
    let mut asked = 0;
    while !open.is_empty() {
        asked += open.len() as u64;
        let mut left = 0;
        for place in 0..open.len() {
            let call = open[place];
            if stepper.step_call(call)? != Stepped::Over {
                open[left] = call;
                left += 1;
            }
        }
        open.truncate(left);
    }
    Ok(asked)
}

/// What the admissions took, and what each group's steps took and how many they were.
#[derive(Default)]
struct Took {
    admitting: u64,
    nanos: Vec<u64>,
    steps: Vec<u64>,
}

/// Calls of one procedure take turns, group after group.
fn run_groups(stepper: &mut impl Steps, args: &[i64]) -> Result<Took, Fault> {
    let mut took = Took::default();
    for group in args.chunks(GROUP) {
        let admit = || group.iter().map(|&arg| stepper.admit_call(arg)).collect::<Result<Vec<u32>, Fault>>();
        let open = timed(&mut took.admitting, admit)?;
        let mut nanos = 0;
        took.steps.push(timed(&mut nanos, || take_turns(stepper, open))?);
        took.nanos.push(nanos);
    }
    Ok(took)
}

fn core_of(code: &[u8], parents: &[u32]) -> Result<Core, Fault> {
    let mut core = Core::new(tree_of(parents.to_vec())?);
    core.add_procedure("call", procedure_of(code)?)?;
    Ok(core)
}

fn interleaved(code: &[u8], parents: &[u32], args: &[i64]) -> Result<(Core, Took), Fault> {
    let mut core = core_of(code, parents)?;
    let took = run_groups(&mut core, args)?;
    Ok((core, took))
}

fn running(code: &[u8], parents: &[u32], args: &[i64]) -> Result<(Running, Took), Fault> {
    let mut running = Running::new(core_of(code, parents)?);
    let took = run_groups(&mut running, args)?;
    Ok((running, took))
}

fn mix_core(measured: &mut Measured, core: &Core) {
    (0..core.call_count()).filter_map(|call| core.reply(call)).for_each(|reply| measured.mix_all(reply));
    mix_records(measured, core.records());
    mix_events(measured, core.history());
}

/// Calls of one procedure take turns. What each group took is told as far as there is room.
pub fn interleave(code: &[u8], parents: &[u32], args: &[i64], nanos: &mut [u64], steps: &mut [u64]) -> Measured {
    let Ok((core, took)) = interleaved(code, parents, args) else { return Measured::REFUSED };
    for (place, told) in nanos.iter_mut().zip(&took.nanos) {
        *place = *told;
    }
    for (place, told) in steps.iter_mut().zip(&took.steps) {
        *place = *told;
    }
    let mut measured =
        Measured { nanos: took.nanos.iter().sum(), count: core.history().len() as u64, sum: 0 };
    mix_core(&mut measured, &core);
    measured
}

/// The same: what the admissions took.
pub fn admit(code: &[u8], parents: &[u32], args: &[i64]) -> Measured {
    let Ok((core, took)) = interleaved(code, parents, args) else { return Measured::REFUSED };
    let mut measured = Measured { nanos: took.admitting, count: core.call_count() as u64, sum: 0 };
    mix_core(&mut measured, &core);
    measured
}

/// The same with the order kept up to date.
pub fn keep(code: &[u8], parents: &[u32], args: &[i64]) -> Measured {
    let Ok((running, took)) = running(code, parents, args) else { return Measured::REFUSED };
    let core = running.core();
    let mut measured =
        Measured { nanos: took.nanos.iter().sum(), count: core.history().len() as u64, sum: 0 };
    mix_order(&mut measured, running.order());
    mix_core(&mut measured, core);
    measured
}

/// The calls' order is run again.
pub fn replay(code: &[u8], parents: &[u32], args: &[i64]) -> Measured {
    let Ok((running, _)) = running(code, parents, args) else { return Measured::REFUSED };
    let mut measured = Measured { count: running.core().call_count() as u64, ..Measured::default() };
    let again = timed(&mut measured.nanos, || run_again(running.order(), running.core()));
    let Some((tree, replies)) = again else { return Measured::REFUSED };
    replies.iter().for_each(|reply| measured.mix_all(reply.values()));
    mix_records(&mut measured, &tree.records);
    measured
}

/// The calls, and then a seal.
pub fn seal(code: &[u8], parents: &[u32], args: &[i64]) -> Measured {
    let Ok((mut running, _)) = running(code, parents, args) else { return Measured::REFUSED };
    let mut measured = Measured { count: 1, ..Measured::default() };
    let next = timed(&mut measured.nanos, || {
        let next = running.successor();
        running.cut_history();
        next
    });
    mix_core(&mut measured, running.core());
    mix_core(&mut measured, next.core());
    measured
}

/// A call that waits for the node of another is asked so many times.
pub fn block(code: &[u8], times: u32) -> Measured {
    blocked(code, times).unwrap_or(Measured::REFUSED)
}

fn blocked(code: &[u8], times: u32) -> Result<Measured, Fault> {
    let mut core = core_of(code, &[0])?;
    let [holder, waiting] = [core.admit_call(0)?, core.admit_call(0)?];
    while !matches!(core.step(holder)?, Stepped::Moved(Action::Lock { .. }) | Stepped::Over) {}
    while !matches!(core.step(waiting)?, Stepped::Blocked { .. } | Stepped::Over) {}
    let mut measured = Measured { count: times.into(), ..Measured::default() };
    let mut nanos = 0;
    timed(&mut nanos, || {
        for _ in 0..times {
            if let Stepped::Blocked { node, holder } = core.step(waiting)? {
                measured.mix(node.into());
                measured.mix(holder.into());
            }
        }
        Ok(())
    })?;
    Ok(Measured { nanos, ..measured })
}

/// The calls, and then the text of their trail.
pub fn tell(code: &[u8], parents: &[u32], args: &[i64]) -> Option<String> {
    let (core, _) = interleaved(code, parents, args).ok()?;
    Some(write_trail(&trail_of(&core)))
}

/// Engines made anew, each of which runs a call for each argument in batches on so many threads. Which of two calls on one node
/// comes first is chance, so the replies are added up.
pub fn engines(code: &[u8], parents: &[u32], args: &[i64], workers: usize, engines: u32) -> Measured {
    let mut measured = Measured::default();
    for _ in 0..engines {
        let Ok(tree) = tree_of(parents.to_vec()) else { return Measured::REFUSED };
        if run_engine(code, tree, args, workers, &mut measured).is_none() {
            return Measured::REFUSED;
        }
    }
    measured
}

fn run_engine(code: &[u8], tree: Tree, args: &[i64], workers: usize, measured: &mut Measured) -> Option<()> {
    let engine = Engine::new(tree);
    engine.register("call", procedure_of(code).ok()?).ok()?;
    let mut session = Session::default();
    engine.with_workers(workers, || -> Option<()> {
        for batch in args.chunks(MAX_REQUESTS) {
            let requests = batch.iter().map(|&arg| Request { name: "call".to_string(), args: vec![arg] }).collect();
            timed(&mut measured.nanos, || engine.batch(&mut session, requests, workers)).ok()?;
        }
        Some(())
    })?;
    let running = engine.close(&session)?;
    let core = running.core();
    measured.count += core.call_count() as u64;
    mix_records(measured, core.records());
    let replies = (0..core.call_count()).filter_map(|call| core.reply(call)).flatten();
    measured.mix(replies.fold(0, |sum: u64, &value| sum.wrapping_add(value as u64)));
    measured.mix(core.history().len() as u64);
    Some(())
}
