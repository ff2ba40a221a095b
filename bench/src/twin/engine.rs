//! Calls on threads: a core and its order stand under one lock. What a call does by itself it does outside, and then the core
//! looks whether it began where the call stands.

use std::sync::{Arc, Condvar, Mutex, MutexGuard, PoisonError};

use super::core::{Core, Stepped, Turn};
use super::crew::Crew;
use super::fault::Fault;
use super::help::Help;
use super::machine::{Action, Call, Outside};
use super::running::Running;
use super::tree::Tree;
use super::verifier::Procedure;

/// What is asked for: a procedure by its name, and the arguments.
pub struct Request {
    pub name: String,
    pub args: Vec<i64>,
}

/// What a call came to.
#[derive(Clone, Debug, PartialEq)]
pub struct Receipt {
    pub call: u32,
    pub args: Vec<i64>,
    pub reply: Vec<i64>,
}

/// What a session asked for and got.
#[derive(Default)]
pub struct Session {
    done: Vec<(String, Receipt)>,
}

pub struct Engine {
    shared: Mutex<Shared>,
    /// Notified after a node was freed, and when another thread's call has ended.
    freed: Condvar,
    crew: Crew,
}

/// A batch under way, which the threads that stay help with.
pub struct Batch {
    /// Which of the engine's batches it is.
    number: usize,
    requests: Vec<Request>,
    pub help: Help,
}

struct Shared {
    running: Running,
    /// How many batches there were before the one under way, and how many requests of that were admitted.
    batches: usize,
    admitted: usize,
    /// How many threads wait for a node.
    waiting: usize,
    /// What the threads that stay have run, the places in the batch and the receipts; how many calls they have under way; and the first fault
    /// of theirs.
    helped: Vec<(usize, Receipt)>,
    under_way: usize,
    fault: Option<Fault>,
}

impl Shared {
    fn receipt(&self, call: u32) -> Receipt {
        let core = self.running.core();
        let (_, args) = core.request(call as usize);
        let reply = core.reply(call as usize).unwrap_or(&[]).to_vec();
        Receipt { call, args: args.to_vec(), reply }
    }
}

/// The places of a worker's requests in the batch, and their receipts.
type Answers = Result<Vec<(usize, Receipt)>, Fault>;

impl Engine {
    pub fn new(tree: Tree) -> Engine {
        let shared = Shared {
            running: Running::new(Core::new(tree)),
            batches: 0,
            admitted: 0,
            waiting: 0,
            helped: Vec::new(),
            under_way: 0,
            fault: None,
        };
        Engine { shared: Mutex::new(shared), freed: Condvar::new(), crew: Crew::default() }
    }

    pub fn register(&self, name: &str, procedure: Procedure) -> Result<(), Fault> {
        self.lock().running.add_procedure(name, procedure)
    }

    /// Does the work while so many threads, of which this is one, run the batches.
    pub fn with_workers<T>(&self, workers: usize, work: impl FnOnce() -> T) -> T {
        self.crew.with_members(self, workers.saturating_sub(1), work)
    }

    /// Runs the requests with up to so many workers, of which this is one, and answers their receipts.
    pub fn batch(&self, session: &mut Session, requests: Vec<Request>, workers: usize) -> Result<Vec<Receipt>, Fault> {
        let others = workers.min(requests.len()).saturating_sub(1);
        let batch = Arc::new(Batch { number: self.begin(), requests, help: Help::new() });
        if others > 0 {
            self.crew.call(&batch, others);
        }
        let own = self.work(&batch);
        if others > 0 {
            batch.help.end();
            self.crew.release();
        }
        let mut answers = self.joined(own)?;
        answers.sort_unstable_by_key(|(place, _)| *place);
        let receipts: Vec<Receipt> = answers.into_iter().map(|(_, receipt)| receipt).collect();
        let named = batch.requests.iter().zip(&receipts).map(|(asked, got)| (asked.name.clone(), got.clone()));
        session.done.extend(named);
        Ok(receipts)
    }

    /// Begins a batch, and answers its number.
    fn begin(&self) -> usize {
        let mut shared = self.lock();
        shared.batches += 1;
        shared.admitted = 0;
        shared.batches
    }

    /// The answers of this worker, and those of the threads that stay, once these have ended their calls.
    fn joined(&self, own: Answers) -> Answers {
        let mut shared = self.lock();
        while shared.under_way > 0 {
            shared.waiting += 1;
            shared = self.freed.wait(shared).unwrap_or_else(PoisonError::into_inner);
            shared.waiting -= 1;
        }
        if let Some(fault) = shared.fault.take() {
            return Err(fault);
        }
        let mut all = own?;
        all.append(&mut shared.helped);
        Ok(all)
    }

    /// The core and its order, where the session's list is what they say.
    pub fn close(self, session: &Session) -> Option<Running> {
        let shared = self.shared.into_inner().unwrap_or_else(PoisonError::into_inner);
        let core = shared.running.core();
        let agrees = |(name, receipt): &(String, Receipt)| {
            let (procedure, _) = core.request(receipt.call as usize);
            core.procedures().name(procedure) == name && shared.receipt(receipt.call) == *receipt
        };
        let all_agree = session.done.len() == core.call_count() && session.done.iter().all(agrees);
        all_agree.then_some(shared.running)
    }

    fn lock(&self) -> MutexGuard<'_, Shared> {
        self.shared.lock().unwrap_or_else(PoisonError::into_inner)
    }

    /// Admits the next request and runs it, as long as there is one.
    fn work(&self, batch: &Batch) -> Answers {
        let mut answers = Vec::with_capacity(batch.requests.len());
        let mut shared = self.lock();
        while let Some(request) = batch.requests.get(shared.admitted) {
            let (answer, held) = self.answer(shared, request, &batch.help)?;
            shared = held;
            answers.push(answer);
        }
        Ok(answers)
    }

    /// Admits the next request and runs it, as long as there is one and help pays. For a thread that stays.
    pub fn assist(&self, batch: &Batch) {
        let mut shared = self.lock();
        loop {
            // Another batch may be under way by now.
            let next = if shared.batches == batch.number { batch.requests.get(shared.admitted) } else { None };
            let Some(request) = next else { return };
            shared.under_way += 1;
            match self.answer(shared, request, &batch.help) {
                Ok((answer, held)) => {
                    shared = held;
                    shared.helped.push(answer);
                }
                Err(fault) => {
                    shared = self.lock();
                    shared.fault = Some(fault);
                }
            }
            shared.under_way -= 1;
            if shared.waiting > 0 {
                drop(shared);
                self.freed.notify_all();
                shared = self.lock();
            }
            if !batch.help.pays() {
                return;
            }
        }
    }

    /// Admits the next request, which is this one, and runs it. Has the lock then.
    fn answer<'a>(
        &'a self,
        mut shared: MutexGuard<'a, Shared>,
        request: &Request,
        help: &Help,
    ) -> Result<((usize, Receipt), MutexGuard<'a, Shared>), Fault> {
        let place = shared.admitted;
        shared.admitted += 1;
        let call = shared.running.admit(&request.name, &request.args)?;
        let turn = shared.running.core().turn(call).ok_or(Fault::plain(602))?;
        drop(shared);
        help.take(&turn.procedure.bounds);
        let shared = self.run(call, turn, help)?;
        let receipt = shared.receipt(call);
        Ok(((place, receipt), shared))
    }

    /// Runs a call to its end, and has the lock then.
    fn run(&self, call: u32, turn: Turn, help: &Help) -> Result<MutexGuard<'_, Shared>, Fault> {
        let Turn { procedure, shape, state: mut from } = turn;
        let mut to = from;
        let mut turns = 0;
        loop {
            // Whether it asks for a node or has come to its return: the core looks where it stands.
            let _ = to.run(&procedure, &shape, &mut Outside);
            turns += 1;
            if let Some(shared) = self.lead(call, &from, &mut to)? {
                help.learn(u64::from(to.steps()) / turns);
                return Ok(shared);
            }
            from = to;
        }
    }

    /// Lets the call do what it stopped at, once nobody is in its way. Has the lock then, where the call is over.
    fn lead(&self, call: u32, from: &Call, to: &mut Call) -> Result<Option<MutexGuard<'_, Shared>>, Fault> {
        let mut shared = self.lock();
        loop {
            match shared.running.lead(call, from, to)? {
                Stepped::Blocked { node, .. } => shared = self.wait_for(shared, node),
                Stepped::Moved(Action::End) | Stepped::Over => return Ok(Some(shared)),
                Stepped::Moved(Action::Free { .. }) if shared.waiting > 0 => {
                    drop(shared);
                    self.freed.notify_all();
                    return Ok(None);
                }
                Stepped::Moved(_) => return Ok(None),
            }
        }
    }

    /// Waits until nobody holds the node.
    fn wait_for<'a>(&'a self, mut shared: MutexGuard<'a, Shared>, node: u32) -> MutexGuard<'a, Shared> {
        while shared.running.core().is_held(node) {
            shared.waiting += 1;
            shared = self.freed.wait(shared).unwrap_or_else(PoisonError::into_inner);
            shared.waiting -= 1;
        }
        shared
    }
}
