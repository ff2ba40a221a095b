//! What is compared.

pub mod postgresql;
pub mod redis;
pub mod sqlite;
pub mod treedb;

use crate::calls::{Call, Record, Work};
use crate::connection::{Connection, Found};
use crate::measuring::Measured;
use crate::ways::Way;
use crate::Result;

/// What one or more calls answered: how many they were, and the sum of their numbers.
#[derive(Clone, Copy, Debug, Default, PartialEq)]
pub struct Answers {
    pub count: usize,
    pub sum: i64,
}

impl Answers {
    pub fn one(number: i64) -> Answers {
        Answers { count: 1, sum: number }
    }

    pub fn add(&mut self, more: Answers) {
        self.count += more.count;
        self.sum += more.sum;
    }
}

/// All sides, treedb first.
pub type Sides = Vec<Box<dyn Side>>;

/// What makes the calls, as it is measured.
pub trait Side {
    /// Its name in a table.
    fn name(&self) -> &'static str;

    /// Its version and its settings.
    fn made(&mut self) -> Result<String>;

    fn serves(&self, _work: Work) -> bool {
        true
    }

    fn ways(&self) -> &'static [Way] {
        &Way::COMMON
    }

    /// Makes all calls from the tree as at the start, and times those that don't come before.
    fn measure(&mut self, work: Work, way: Way, before: &[Call], timed: &[Call]) -> Result<Measured>;

    /// What no ratio says.
    fn note(&self) -> Option<String> {
        None
    }
}

/// A kind of server, as it is asked.
pub trait Server: Sync {
    /// The tree stands as at the start, and there are connections on which calls of this procedure can be asked for.
    fn begin(&mut self, work: Work, connections: usize) -> Result<Vec<Connection>>;

    /// Writes the requests for calls that are asked for at once. Returns how many answers will come.
    fn put(&self, way: Way, calls: &[Call], out: &mut Vec<u8>) -> usize;

    /// An answer at the front of some bytes.
    fn answer(&self, bytes: &[u8]) -> Found<Answers>;

    /// Ends the connections, and returns the records that are left.
    fn end(&mut self, connections: Vec<Connection>) -> Result<Vec<Record>>;
}
