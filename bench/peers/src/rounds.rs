//! Rounds in which all sides make the same calls in turn.

use std::collections::HashMap;

use crate::calls::{calls, Work};
use crate::keeping::Keeping;
use crate::measuring::Measured;
use crate::sides::Sides;
use crate::ways::Way;
use crate::Result;

/// A side, by its place among all, that does a piece of work as it is asked in some way.
#[derive(Clone, Copy, Debug, PartialEq, Eq, Hash)]
pub struct Entry {
    pub side: usize,
    pub work: Work,
    pub way: Way,
}

/// What an entry's rounds took.
#[derive(Default)]
pub struct Times {
    /// calls a second, of each round
    pub rates: Vec<f64>,
    /// what each call took, in nanoseconds, of all rounds, where calls are asked for one by one
    pub calls: Vec<f64>,
}

pub type Results = HashMap<Entry, Times>;

/// So many rounds of these procedures. Where sides come to something else, there are no results.
pub fn rounds(sides: &mut Sides, works: &[Work], keeping: Keeping, rounds: usize) -> Result<Results> {
    let mut results = Results::new();
    for round in 0..rounds {
        eprintln!("peers: round {} of {rounds}", round + 1);
        for &work in works {
            for way in Way::COMMON {
                let entries = entries(sides, work, way);
                compare(sides, &entries, keeping, round, &mut results)?;
            }
        }
    }
    Ok(results)
}

/// All that stands beside one another in one way.
fn entries(sides: &Sides, work: Work, beside: Way) -> Vec<Entry> {
    let mut entries = Vec::new();
    for (nth, side) in sides.iter().enumerate().filter(|(_, side)| side.serves(work)) {
        let ways = side.ways().iter().filter(|way| way.beside() == beside);
        entries.extend(ways.map(|&way| Entry { side: nth, work, way }));
    }
    entries
}

/// All entries make the same calls in turn, each round beginning with another one, and have to come to the same.
fn compare(sides: &mut Sides, entries: &[Entry], keeping: Keeping, round: usize, results: &mut Results) -> Result<()> {
    let mut all = Vec::new();
    for nth in 0..entries.len() {
        let entry = entries[(nth + round) % entries.len()];
        let counts = keeping.counts(entry.work, entry.way);
        let calls = calls(entry.work, counts.before + counts.timed, round as u64);
        let (before, timed) = calls.split_at(counts.before);
        let measured = sides[entry.side].measure(entry.work, entry.way, before, timed);
        let measured = measured.map_err(|error| format!("{}: {error}", name(sides, entry)))?;
        let times = results.entry(entry).or_default();
        times.rates.push(counts.timed as f64 / measured.took.as_secs_f64());
        if entry.way.burst() == 1 {
            times.calls.extend(measured.bursts.iter().map(|burst| burst.as_nanos() as f64));
        }
        all.push((entry, measured));
    }
    match difference(&all) {
        None => Ok(()),
        Some((one, other, what)) => Err(format!("{} and {} differ: {what}", name(sides, one), name(sides, other)).into()),
    }
}

/// An entry's name in a message.
fn name(sides: &Sides, Entry { side, work, way }: Entry) -> String {
    format!("{}, `{}` {}", sides[side].name(), work.name(), way.name())
}

/// Two entries that have left other records, or answered something else. Where calls that run at once answer by the order that they
/// happen to have, only the records are compared.
fn difference(all: &[(Entry, Measured)]) -> Option<(Entry, Entry, String)> {
    let settled: Vec<_> = all.iter().filter(|(entry, _)| entry.way.keeps_order() || !entry.work.answers_by_order()).collect();
    for pair in settled.windows(2) {
        let [(one, first), (other, second)] = pair else { continue };
        if first.answers != second.answers {
            return Some((*one, *other, format!("they answered {:?} and {:?}", first.answers, second.answers)));
        }
    }
    for pair in all.windows(2) {
        let [(one, first), (other, second)] = pair else { continue };
        if first.records != second.records {
            let node = first.records.iter().zip(&second.records).position(|(one, other)| one != other);
            return Some((*one, *other, format!("the records, first at node {node:?}")));
        }
    }
    None
}

#[cfg(test)]
mod tests {
    use std::time::Duration;

    use super::*;
    use crate::sides::Answers;

    fn came_to(side: usize, work: Work, way: Way, sum: i64, amount: i64) -> (Entry, Measured) {
        let answers = Answers { count: 1, sum };
        (
            Entry { side, work, way },
            Measured { took: Duration::ZERO, bursts: Vec::new(), answers, records: vec![[amount, 0, 0, 0]] },
        )
    }

    #[test]
    fn answers_are_compared_where_they_are_settled() {
        let one = || came_to(0, Work::Add, Way::OneByOne, 5, 1);
        assert_eq!(difference(&[one(), came_to(1, Work::Add, Way::OneByOne, 5, 1)]), None);
        assert!(difference(&[one(), came_to(1, Work::Add, Way::OneByOne, 6, 1)]).is_some());
        let eight = |work, sum| came_to(1, work, Way::Eight, sum, 1);
        assert_eq!(difference(&[eight(Work::Add, 5), eight(Work::Add, 6)]), None);
        assert!(difference(&[eight(Work::Sum, 5), eight(Work::Sum, 6)]).is_some());
        let batch = came_to(0, Work::Add, Way::Batch { workers: 2 }, 9, 1);
        assert!(difference(&[one(), batch, came_to(1, Work::Add, Way::Pipelined, 6, 1)]).is_some());
    }

    #[test]
    fn records_are_always_compared() {
        let eight = |amount| came_to(0, Work::Add, Way::Eight, 5, amount);
        assert!(difference(&[eight(1), eight(1), eight(2)]).is_some());
    }
}
