//! Rounds in which several sides do their work in turn, and what their times come to.

use std::time::{Duration, Instant};

use crate::measured::Measured;
use crate::processors;

/// How many rounds a pass has at least. One round before them only warms up.
pub const ROUNDS: usize = 6;

/// How often everything is measured, from the first row to the last. So the rounds of a row stand minutes apart, and what disturbs the
/// machine for a while disturbs few of them.
pub const PASSES: usize = 3;

/// How long the rounds of a pass take at least, if the work is short: then there are more of them.
const PASS: Duration = Duration::from_millis(900);

/// How long a side works in a round at least, if its work is short: then it is done again and again, and the fastest run counts. So the
/// caches are warm, and what disturbs the machine for less than a millisecond is left out on each side.
const ROUND: Duration = Duration::from_millis(12);

/// How many rounds a pass has at least, and how long a side works in each at least.
#[derive(Clone, Copy)]
pub struct Plan {
    pub rounds: usize,
    pub round: Duration,
}

/// What most work needs.
pub const USUAL: Plan = Plan { rounds: ROUNDS, round: ROUND };

/// How many times as long a side's round may take with what isn't timed, as texts that are read first.
const MAKING_READY: u32 = 4;

/// How often a side does its work in a round at most.
const MOST: u128 = 50;

/// A side of a comparison.
pub type Side<'a> = &'a mut dyn FnMut() -> Measured;

/// What a side's rounds took, in nanoseconds, and what came of each.
#[derive(Clone, Debug, Default)]
pub struct Times {
    pub nanos: Vec<f64>,
    pub came_to: Measured,
}

impl Times {
    /// Each round's time by so many units.
    pub fn per(&self, units: f64) -> Vec<f64> {
        self.nanos.iter().map(|nanos| nanos / units).collect()
    }

    /// Another run of the latest round.
    fn add(&mut self, name: &str, measured: Measured) -> Result<(), String> {
        if measured.count == u64::MAX {
            return Err(format!("{name}: refused"));
        }
        if self.nanos.is_empty() {
            self.came_to = measured;
        } else if !self.came_to.is_like(&measured) {
            return Err(format!("{name}: {:?}, and then {measured:?}", self.came_to));
        }
        if let Some(round) = self.nanos.last_mut() {
            *round = round.min(measured.nanos as f64);
        }
        Ok(())
    }
}

/// All sides do their work in turn, each round on another processor and beginning with another side. A side has to come to the same each
/// time.
pub fn in_turn<const N: usize>(name: &str, sides: [Side; N]) -> Result<[Times; N], String> {
    as_planned(name, USUAL, sides)
}

/// The same in rounds as they are planned.
pub fn as_planned<const N: usize>(name: &str, plan: Plan, mut sides: [Side; N]) -> Result<[Times; N], String> {
    all_as_planned(name, plan, &mut sides)?.try_into().map_err(|_| format!("{name}: as many times as sides"))
}

/// The same of any number of sides.
pub fn all_as_planned(name: &str, plan: Plan, sides: &mut [Side]) -> Result<Vec<Times>, String> {
    let count = sides.len();
    let mut times = vec![Times::default(); count];
    let runs = warm_up(name, plan.round, sides, &mut times)?;
    for round in 0..runs.rounds.max(plan.rounds) {
        processors::next_round();
        times.iter_mut().for_each(|side| side.nanos.push(f64::INFINITY));
        for place in (0..count).map(|place| (round + place) % count) {
            for _ in 0..runs.in_a_round[place] {
                times[place].add(name, sides[place]())?;
            }
        }
    }
    Ok(times)
}

/// How often each side does its work in a round, and how many rounds take as long as a pass.
struct Runs {
    in_a_round: Vec<usize>,
    rounds: usize,
}

/// Each side does its work once, which shows how long it takes.
fn warm_up(name: &str, least: Duration, sides: &mut [Side], times: &mut [Times]) -> Result<Runs, String> {
    let mut in_a_round = Vec::new();
    let mut round = Duration::ZERO;
    for (side, times) in sides.iter_mut().zip(times) {
        let start = Instant::now();
        let measured = side();
        let once = start.elapsed();
        times.add(name, measured)?;
        let runs = times_in(least, Duration::from_nanos(measured.nanos)).min(times_in(MAKING_READY * least, once));
        in_a_round.push(runs);
        round += once * runs as u32;
    }
    Ok(Runs { in_a_round, rounds: times_in(PASS, round) })
}

/// How often what takes so long fits into that time: at least once.
fn times_in(time: Duration, once: Duration) -> usize {
    (time.as_nanos() / once.as_nanos().max(1)).clamp(1, MOST) as usize
}

/// Both sides do the same work in turn, and have to come to the same.
pub fn both(name: &str, product: Side, twin: Side) -> Result<[Times; 2], String> {
    let times = in_turn(name, [product, twin])?;
    are_alike(name, &times[0], &times[1])?;
    Ok(times)
}

/// Whether the same came of two sides' work.
pub fn are_alike(name: &str, ours: &Times, theirs: &Times) -> Result<(), String> {
    if ours.came_to.is_like(&theirs.came_to) {
        Ok(())
    } else {
        Err(format!("{name}: {:?} and {:?}", ours.came_to, theirs.came_to))
    }
}

#[cfg(test)]
mod tests {
    use super::*;

    #[test]
    fn sides_that_differ_make_no_table() {
        let one = || Measured { nanos: 1, count: 1, sum: 5 };
        let other = || Measured { nanos: 1, count: 1, sum: 6 };
        assert!(both("alike", &mut one.clone(), &mut one.clone()).is_ok());
        assert!(both("not alike", &mut one.clone(), &mut other.clone()).is_err());
        let mut count = 0;
        let mut unsteady = || {
            count += 1;
            Measured { nanos: 1, count, sum: 0 }
        };
        assert!(in_turn("unsteady", [&mut unsteady]).is_err());
    }

    /// What takes so long that there are as few rounds as can be.
    fn slow(nanos: u64) -> Measured {
        std::thread::sleep(PASS / ROUNDS as u32);
        Measured { nanos, ..Measured::default() }
    }

    #[test]
    fn each_side_begins_in_turn() {
        let order = std::cell::RefCell::new(Vec::new());
        let side = |number| {
            order.borrow_mut().push(number);
            slow(6)
        };
        let times = in_turn("order", [&mut || side(0), &mut || side(1)]).unwrap();
        assert_eq!(order.borrow()[2..8], [0, 1, 1, 0, 0, 1]);
        assert_eq!(times[0].nanos, [6.0; ROUNDS]);
    }

    #[test]
    fn a_plan_is_kept() {
        let [times] = as_planned("rounds", Plan { rounds: ROUNDS + 2, ..USUAL }, [&mut || slow(6)]).unwrap();
        assert_eq!(times.nanos, [6.0; ROUNDS + 2]);
        let mut runs = 0;
        let mut side = || {
            runs += 1;
            Measured { nanos: ROUND.as_nanos() as u64, ..Measured::default() }
        };
        let [times] = as_planned("runs", Plan { round: 3 * ROUND, ..USUAL }, [&mut side]).unwrap();
        assert_eq!(runs - 1, 3 * times.nanos.len());
    }

    #[test]
    fn a_round_is_the_fastest_of_its_runs() {
        let mut runs = 0;
        let mut side = || {
            runs += 1;
            std::thread::sleep(MAKING_READY * ROUND * 2 / 5);
            Measured { nanos: if runs % 2 == 0 { 6 } else { 9 }, ..Measured::default() }
        };
        let [times] = in_turn("runs", [&mut side]).unwrap();
        assert!(times.nanos.len() > ROUNDS && times.nanos.iter().all(|&nanos| nanos == 6.0), "{times:?}");
    }

    #[test]
    fn short_work_is_done_more_often() {
        let (mut short, mut long) = (0, 0);
        let mut quick = || {
            short += 1;
            Measured::default()
        };
        let mut slow = || {
            long += 1;
            slow(0)
        };
        in_turn("short and long", [&mut quick, &mut slow]).unwrap();
        assert_eq!(short - 1, (long - 1) * MOST as usize);
        let fits = [0, 1, 30, 70, 2_000].map(|millis| times_in(Duration::from_millis(100), Duration::from_millis(millis)));
        assert_eq!(fits, [MOST as usize, MOST as usize, 3, 1, 1]);
    }
}
