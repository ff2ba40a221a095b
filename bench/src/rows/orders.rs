//! Orders and audits of trails.

use std::time::Duration;

use super::{grouped, walks, TWIN};
use crate::measured::Measured;
use crate::product;
use crate::rounds::{all_as_planned, are_alike, Plan, Side, Times, USUAL};
use crate::schedules;
use crate::table::{Goal, Part, Row};
use crate::trees::CALLS;
use crate::twin::reader::read_trail;
use crate::twin::trail::Trail;
use crate::twin::work as twin;

/// How many nodes each walk locks, in trails from 131,072 to 1,048,576 events.
const LOCKS: [u16; 4] = [15, 31, 63, 127];

/// How often each of these trails is run in a round.
const RUNS: [u32; LOCKS.len()] = [16, 8, 4, 2];

/// How often the order of a short trail is found in each call of a side, and how often it is audited. The product reads the trail's text
/// before the first run, which then finds the caches cold, and the twin doesn't: among so many runs one counts little.
const SHORT_RUNS: [u32; 2] = [64, 8];

/// The same of a trail whose order takes long to find, and how many nanoseconds are long.
const LONG_RUNS: [u32; 2] = [1, 1];
const LONG: u64 = 1_000_000;

/// So many runs take as long as a round of other work. A longer round has several calls, of which the fastest counts.
const PLAN: Plan = Plan { round: Duration::from_millis(40), ..USUAL };

/// What the twin does that looks at no rule.
const TRUSTING: &str = "the twin assumes a legal history";

/// What is asked of `order_of` and `audit` beside the twin.
const LEAST: Goal = Goal::AtLeast(0.8);

const UNIT: &str = "ns an event";

/// A trail as both sides get it.
struct Told {
    text: String,
    trail: Trail,
}

impl Told {
    fn new(text: String) -> Result<Told, String> {
        let trail = read_trail(&text).map_err(|()| "a trail that the twin can't read")?;
        Ok(Told { text, trail })
    }

    fn events(&self) -> f64 {
        self.trail.events.len() as f64
    }
}

/// The rounds of one trail of so many events, which is run so often in each: the product's, and those of what stands beside it.
struct TrailTimes {
    events: f64,
    runs: u32,
    product: Times,
    others: Vec<Times>,
}

impl TrailTimes {
    fn units(&self) -> f64 {
        self.events * f64::from(self.runs)
    }

    /// The product beside one of the others.
    fn row(&self, work: String, other: usize) -> Row {
        Row::of_times(work, UNIT, [&self.product, &self.others[other]], self.units(), LEAST)
    }

    /// The order beside the twin that checks the rules, and beside the one that doesn't.
    fn order_rows(&self, what: &str) -> [Row; 2] {
        [self.row(format!("`order_of`{what}"), 0), self.row(format!("`order_of`{what}; {TRUSTING}"), 1)]
    }

    fn audit_row(&self, what: &str) -> Row {
        self.row(format!("`audit`{what}"), 0)
    }

    fn size(&self) -> String {
        format!(", {} events", grouped(self.events as u64))
    }

    fn alone(&self, most: f64) -> Row {
        let work = format!("product alone: `audit`{}", self.size());
        Row::alone(work, UNIT, &self.product.per(self.units()), Goal::Within(most))
    }
}

/// What a side does with a trail so often.
type OfTrail = fn(&Told, u32) -> Measured;

/// What the sides do with some trails, each so often, all in the same rounds. The first side is the product.
fn times_of(name: &str, told: &[(&Told, u32)], plan: Plan, sides: &[OfTrail]) -> Result<Vec<TrailTimes>, String> {
    let runs_of = |&(told, runs): &(_, u32)| sides.iter().map(move |side| move || side(told, runs));
    let mut runs: Vec<_> = told.iter().flat_map(runs_of).collect();
    let mut turns: Vec<Side> = runs.iter_mut().map(|run| run as Side).collect();
    let times = all_as_planned(name, plan, &mut turns)?;
    let one_of = |(&(told, runs), times): (&(&Told, u32), &[Times])| {
        let [product, others @ ..] = times else { return Err(format!("{name}: no side")) };
        others.iter().try_for_each(|other| are_alike(name, product, other))?;
        Ok(TrailTimes { events: told.events(), runs, product: product.clone(), others: others.to_vec() })
    };
    told.iter().zip(times.chunks(sides.len())).map(one_of).collect()
}

/// `order_of`, the twin that checks the rules, and the one that doesn't.
fn orders(told: &[(&Told, u32)], plan: Plan) -> Result<Vec<TrailTimes>, String> {
    let sides: [OfTrail; 3] = [
        |told, times| product::order(told.text.as_bytes(), times),
        |told, times| twin::order(&told.trail, times),
        |told, times| twin::trusting_order(&told.trail, times),
    ];
    times_of("order_of", told, plan, &sides)
}

fn audits(told: &[(&Told, u32)], plan: Plan) -> Result<Vec<TrailTimes>, String> {
    let sides: [OfTrail; 2] =
        [|told, times| product::audit(told.text.as_bytes(), times), |told, times| twin::audit(&told.trail, times)];
    times_of("audit", told, plan, &sides)
}

/// What each event more costs the product from one size to a longer one, by rounds.
fn added(shorter: &TrailTimes, longer: &TrailTimes) -> Vec<f64> {
    let nanos = |size: &TrailTimes| size.product.per(size.runs.into());
    nanos(longer).iter().zip(nanos(shorter)).map(|(long, short)| (long - short) / (longer.events - shorter.events)).collect()
}

/// What an event more costs in long trails and in short ones, each from one size to four times that: to twice that, the difference of
/// the times would be noisier.
fn growth(name: &str, sizes: &[TrailTimes]) -> Result<Row, String> {
    let [first, second, third, fourth] = sizes else { return Err("four sizes".to_string()) };
    let work = format!(
        "product alone: `{name}`, what an event more costs from {} to {} events, and from {} to {}",
        grouped(second.events as u64),
        grouped(fourth.events as u64),
        grouped(first.events as u64),
        grouped(third.events as u64)
    );
    Ok(Row::paired(work, "ns an event more", &added(second, fourth), &added(first, third), Goal::AtMost(1.2)))
}

/// All sizes in the same rounds, since what an event more costs is their difference. A short trail runs more often in a round, so that
/// each takes as long.
pub fn sizes() -> Result<Part, String> {
    let told: Vec<Told> = LOCKS.into_iter().map(|locks| Told::new(walks(locks)?)).collect::<Result<_, String>>()?;
    let runs: Vec<(&Told, u32)> = told.iter().zip(RUNS).collect();
    let (orders, audits) = (orders(&runs, USUAL)?, audits(&runs, USUAL)?);
    let mut rows: Vec<Row> = orders.iter().flat_map(|size| size.order_rows(&size.size())).collect();
    rows.extend(audits.iter().map(|size| size.audit_row(&size.size())));
    rows.extend(audits.first().map(|size| size.alone(30.0)));
    rows.extend(audits.last().map(|size| size.alone(30.0)));
    rows.push(growth("order_of", &orders)?);
    rows.push(growth("audit", &audits)?);
    rows.extend(broken()?);
    Ok(Part::new(format!("The order and the audit of {} walks", grouped(CALLS.into())), TWIN, rows))
}

/// The longest trail, and the same with its last event changed.
fn broken() -> Result<Vec<Row>, String> {
    let clean = walks(LOCKS[LOCKS.len() - 1])?;
    let broken = Told::new(schedules::broken(&clean).ok_or("a trail that breaks a rule")?)?;
    let audits = audits(&[(&broken, 1)], USUAL)?;
    Ok(audits.iter().map(|it| it.audit_row(&format!("{} of which the last breaks a rule", it.size()))).collect())
}

/// How often the trail's order is found in each call of a side, and how often it is audited.
fn runs_of(told: &Told) -> [u32; 2] {
    let takes_long = (0..3).all(|_| twin::order(&told.trail, 1).nanos >= LONG);
    if takes_long { LONG_RUNS } else { SHORT_RUNS }
}

/// Trails with deep chains, many calls open at once, and calls in each other's way.
pub fn schedules() -> Result<Part, String> {
    let mut rows = Vec::new();
    for (name, text) in schedules::all().ok_or("schedules")? {
        let told = Told::new(text)?;
        let what = format!(": {name}");
        let [order_runs, audit_runs] = runs_of(&told);
        rows.extend(orders(&[(&told, order_runs)], PLAN)?.iter().flat_map(|it| it.order_rows(&what)));
        rows.extend(audits(&[(&told, audit_runs)], PLAN)?.iter().map(|it| it.audit_row(&what)));
    }
    Ok(Part::new("The order and the audit where first locks are deep and in each other's way, 16,384 events", TWIN, rows))
}
