//! The table of results.

use std::fmt;

use crate::overview::Overview;
use crate::reasons;
use crate::rounds::{self, Times};
use crate::spread::{middle, Spread};

/// How near to its goal a number has to be for there to be no verdict.
const LEVEL: f64 = 0.1;

/// How a row stands to its goal.
#[derive(Clone, Copy, Debug, PartialEq, Eq)]
pub enum Verdict {
    Met,
    Level,
    Short,
}

impl fmt::Display for Verdict {
    fn fmt(&self, out: &mut fmt::Formatter<'_>) -> fmt::Result {
        out.write_str(match self {
            Verdict::Met => "met",
            Verdict::Level => "on par",
            Verdict::Short => "**short**",
        })
    }
}

/// What is asked for.
#[derive(Clone, Copy)]
pub enum Goal {
    /// The product is at least as fast as the other: the other's number by the product's is at least this.
    AtLeast(f64),
    /// The product takes at most so many times what the other takes.
    AtMost(f64),
    /// The product takes at most so much more than the other.
    AtMostMore(f64),
    /// The product's own number is at most this.
    Within(f64),
    /// Nothing: it is only told how many times as fast the product is.
    Speed,
    /// Nothing: it is only told how many times what the other takes the product takes.
    Cost,
}

impl Goal {
    /// The same, where nothing is asked.
    pub fn only_told(self) -> Goal {
        match self {
            Goal::AtLeast(_) | Goal::Speed => Goal::Speed,
            Goal::AtMost(_) | Goal::AtMostMore(_) | Goal::Within(_) | Goal::Cost => Goal::Cost,
        }
    }
}

/// A row: what was done, what the product took for one unit of it in each round, what another side took, and what was asked for.
pub struct Row {
    pub work: String,
    unit: &'static str,
    product: Vec<f64>,
    other: Option<Vec<f64>>,
    goal: Goal,
}

impl Row {
    /// What the rounds of the product and of another side took a unit.
    pub fn paired(work: impl Into<String>, unit: &'static str, product: &[f64], other: &[f64], goal: Goal) -> Row {
        Row { work: work.into(), unit, product: product.to_vec(), other: Some(other.to_vec()), goal }
    }

    /// The same of two sides' times.
    pub fn of_times(work: impl Into<String>, unit: &'static str, times: [&Times; 2], units: f64, goal: Goal) -> Row {
        Row::paired(work, unit, &times[0].per(units), &times[1].per(units), goal)
    }

    /// What the product's rounds took a unit, with nothing beside it.
    pub fn alone(work: impl Into<String>, unit: &'static str, product: &[f64], goal: Goal) -> Row {
        Row { work: work.into(), unit, product: product.to_vec(), other: None, goal }
    }

    /// The rounds of a later pass stand behind those so far. Whether that is the same row.
    fn extend(&mut self, later: Row) -> bool {
        let alike = match (&mut self.other, later.other) {
            (Some(rounds), Some(more)) => {
                rounds.extend(more);
                true
            }
            (None, None) => true,
            _ => false,
        };
        self.product.extend(later.product);
        alike && self.work == later.work
    }

    /// The product's middle round.
    fn ours(&self) -> f64 {
        middle(&self.product)
    }

    /// The other's middle round.
    fn theirs(&self) -> Option<f64> {
        self.other.as_deref().map(middle)
    }

    /// Of each round, what comes of the product's number and the other's.
    fn pairs(&self, of: impl Fn(f64, f64) -> f64) -> Option<Spread> {
        let theirs = self.other.as_ref()?;
        Some(Spread::of(self.product.iter().zip(theirs).map(|(&ours, &theirs)| of(ours, theirs))))
    }

    /// The rounds' ratios: the product's number by the other's, or the other way round, as the goal asks.
    fn ratios(&self) -> Option<Spread> {
        match self.goal {
            Goal::AtLeast(_) | Goal::Speed => self.pairs(|ours, theirs| theirs / ours),
            _ => self.pairs(|ours, theirs| ours / theirs),
        }
    }

    /// How far the goal was reached: 1 is just reached, and more is better.
    fn reached(&self) -> Option<f64> {
        let ratio = || Some(self.ratios()?.middle);
        let more = || Some(self.pairs(|ours, theirs| ours - theirs)?.middle);
        match self.goal {
            Goal::AtLeast(least) => Some(ratio()? / least),
            // A difference below nothing is noise, and says nothing.
            Goal::AtMost(_) if ratio()? <= 0.0 => Some(1.0),
            Goal::AtMost(most) => Some(most / ratio()?),
            Goal::AtMostMore(most) => Some(most / more()?.max(f64::MIN_POSITIVE)),
            Goal::Within(most) => Some(most / self.ours()),
            Goal::Speed | Goal::Cost => None,
        }
    }

    /// None where nothing is asked.
    pub fn verdict(&self) -> Option<Verdict> {
        let reached = self.reached()?;
        Some(if reached >= 1.0 / (1.0 - LEVEL) {
            Verdict::Met
        } else if reached <= 1.0 - LEVEL {
            Verdict::Short
        } else {
            Verdict::Level
        })
    }

    /// The middle ratio, or the product's own number where nothing stands beside it.
    pub fn ratio(&self) -> String {
        match self.ratios() {
            Some(ratios) => format!("{:.2}", ratios.middle),
            None => format!("{:.1} {}", self.ours(), self.unit),
        }
    }

    /// The goal and the verdict.
    pub fn asked(&self) -> String {
        let verdict = self.verdict().map(|verdict| verdict.to_string()).unwrap_or_default();
        format!("{}{verdict}", self.goal)
    }
}

impl fmt::Display for Goal {
    fn fmt(&self, out: &mut fmt::Formatter<'_>) -> fmt::Result {
        match self {
            Goal::AtLeast(least) => write!(out, "at least {least}: "),
            Goal::AtMost(most) | Goal::Within(most) => write!(out, "at most {most}: "),
            Goal::AtMostMore(most) => write!(out, "at most {most} more: "),
            Goal::Speed => write!(out, "times as fast"),
            Goal::Cost => write!(out, "times as much"),
        }
    }
}

impl fmt::Display for Row {
    fn fmt(&self, out: &mut fmt::Formatter<'_>) -> fmt::Result {
        write!(out, "| {} | {} | {:.1} | ", self.work, self.unit, self.ours())?;
        match (self.theirs(), self.ratios()) {
            (Some(theirs), Some(Spread { low, middle, high })) => write!(out, "{theirs:.1} | {middle:.2} | {low:.2} to {high:.2} | ")?,
            _ => write!(out, " |  |  | ")?,
        }
        match (self.goal, &self.other) {
            (Goal::Speed | Goal::Cost, None) => write!(out, " |"),
            _ => write!(out, "{} |", self.asked()),
        }
    }
}

/// A part of the table with a heading and a name for what stands beside the product.
pub struct Part {
    pub heading: String,
    pub beside: &'static str,
    pub rows: Vec<Row>,
    /// What is left out, and why.
    pub note: Option<&'static str>,
}

impl Part {
    pub fn new(heading: impl Into<String>, beside: &'static str, rows: Vec<Row>) -> Part {
        Part { heading: heading.into(), beside, rows, note: None }
    }

    pub fn left_out(heading: impl Into<String>, note: &'static str) -> Part {
        Part { heading: heading.into(), beside: "", rows: Vec::new(), note: Some(note) }
    }

    /// The rows of a later pass are taken into those so far. Whether they are the same rows.
    fn extend(&mut self, later: Part) -> bool {
        let as_many = self.rows.len() == later.rows.len();
        as_many && self.heading == later.heading && self.rows.iter_mut().zip(later.rows).all(|(row, more)| row.extend(more))
    }
}

impl fmt::Display for Part {
    fn fmt(&self, out: &mut fmt::Formatter<'_>) -> fmt::Result {
        writeln!(out, "\n## {}\n", self.heading)?;
        if let Some(note) = self.note {
            writeln!(out, "{note}")?;
        }
        if !self.rows.is_empty() {
            writeln!(out, "| Work | Unit | product | {} | ratio | quartiles | Goal |", self.beside)?;
            writeln!(out, "|---|---|---|---|---|---|---|")?;
        }
        self.rows.iter().try_for_each(|row| writeln!(out, "{row}"))
    }
}

/// Why rows of these parts are short: each reason once, and the rows for which there is none.
struct Why<'a>(&'a [Part]);

impl fmt::Display for Why<'_> {
    fn fmt(&self, out: &mut fmt::Formatter<'_>) -> fmt::Result {
        let rows_of = |part: &'_ Part| part.rows.iter().filter(|row| row.verdict() == Some(Verdict::Short)).map(|row| row.work.clone()).collect::<Vec<_>>();
        let short: Vec<(&str, String)> =
            self.0.iter().flat_map(|part| rows_of(part).into_iter().map(|work| (part.heading.as_str(), work))).collect();
        if short.is_empty() {
            return Ok(());
        }
        writeln!(out, "\n## Why rows are short\n")?;
        let mut told = Vec::new();
        for (heading, work) in short {
            let text = match reasons::of(heading, &work) {
                Some(reason) => reason.text.to_string(),
                None => format!("**{heading}: {work}.** Not found out yet."),
            };
            if !told.contains(&text) {
                writeln!(out, "- {text}")?;
                told.push(text);
            }
        }
        Ok(())
    }
}

/// The parts of all passes, each with the rounds of all.
pub fn together(passes: Vec<Vec<Part>>) -> Result<Vec<Part>, String> {
    let mut passes = passes.into_iter();
    let mut all = passes.next().unwrap_or_default();
    for later in passes {
        let as_many = all.len() == later.len();
        if !as_many || !all.iter_mut().zip(later).all(|(part, more)| part.extend(more)) {
            return Err("two passes have other rows".to_string());
        }
    }
    Ok(all)
}

/// How the table was made.
pub struct Made {
    pub date: String,
    pub product: String,
    pub twin: String,
}

pub struct Table {
    pub made: Made,
    /// What `bench/peers/run` found last.
    pub peers: Option<String>,
    pub parts: Vec<Part>,
}

impl fmt::Display for Table {
    fn fmt(&self, out: &mut fmt::Formatter<'_>) -> fmt::Result {
        let Made { date, product, twin } = &self.made;
        writeln!(out, "# What the proof costs at run time\n")?;
        if let Some(peers) = &self.peers {
            writeln!(out, "## Beside other servers\n\n{peers}\n## Beside a twin that proves nothing\n")?;
        }
        writeln!(
            out,
            "Made by `bench/run` on {date}. The product: {product}. The twin: {twin}.

All is measured {} times, from the first row to the last, each time in at least {} rounds. In a round the sides do the same work in turn on
one processor, the next round on the next one and beginning with another side; short work is done again and again, and the fastest run is
a side's round. Where it takes little time there are more rounds. A number is the median of a side's rounds. A ratio is the median of the
rounds' ratios, each of one round's two numbers, and not the ratio of the two numbers before it: what else a machine does disturbs both
sides of a round. The quartiles of these ratios stand behind it. Where the goal says *at least* or *times as fast*, a ratio is the second
number by the first, which is the product's speed by the other's; else it is the first by the second. Within a tenth of a goal the
verdict is *on par*.",
            rounds::PASSES,
            rounds::ROUNDS
        )?;
        write!(out, "\n{}", Overview(&self.parts))?;
        self.parts.iter().try_for_each(|part| write!(out, "{part}"))?;
        write!(out, "{}", Why(&self.parts))
    }
}

#[cfg(test)]
mod tests {
    use super::*;

    fn verdict(product: f64, other: f64, goal: Goal) -> Option<Verdict> {
        Row::paired("work", "ns", &[product], &[other], goal).verdict()
    }

    #[test]
    fn within_a_tenth_there_is_no_verdict() {
        let cases = [
            (10.0, 10.0, Goal::AtLeast(0.9), Some(Verdict::Met)),
            (10.0, 9.5, Goal::AtLeast(0.9), Some(Verdict::Level)),
            (10.0, 8.0, Goal::AtLeast(0.9), Some(Verdict::Short)),
            (10.0, 10.0, Goal::AtMost(1.1), Some(Verdict::Level)),
            (10.0, 10.0, Goal::AtMost(1.2), Some(Verdict::Met)),
            (15.0, 10.0, Goal::AtMost(1.1), Some(Verdict::Short)),
            (15.0, -10.0, Goal::AtMost(1.1), Some(Verdict::Level)),
            (20.0, 1.0, Goal::Within(30.0), Some(Verdict::Met)),
            (31.0, 1.0, Goal::Within(30.0), Some(Verdict::Level)),
            (15.0, 10.0, Goal::AtMostMore(8.0), Some(Verdict::Met)),
            (15.0, 10.0, Goal::AtMostMore(4.0), Some(Verdict::Short)),
            (9.0, 10.0, Goal::AtMostMore(4.0), Some(Verdict::Met)),
            (1.0, 1.0, Goal::Speed, None),
        ];
        for (product, other, goal, expected) in cases {
            assert_eq!(verdict(product, other, goal), expected, "{product} {other} {goal}");
        }
    }

    #[test]
    fn passes_are_taken_together() {
        let pass = |heading: &str, ours: f64| {
            vec![Part::new(heading, "twin", vec![Row::paired("work", "ns", &[ours], &[6.0], Goal::Speed)])]
        };
        let all = together(vec![pass("part", 1.0), pass("part", 2.0), pass("part", 3.0)]).unwrap();
        assert_eq!(all[0].rows[0].to_string(), "| work | ns | 2.0 | 6.0 | 3.00 | 2.00 to 3.00 | times as fast |");
        assert!(together(vec![pass("part", 1.0), pass("other", 2.0)]).is_err());
    }

    #[test]
    fn a_reason_is_told_once() {
        let row = |work| Row::paired(work, "ns", &[10.0], &[1.0], Goal::AtLeast(0.9));
        let part = |heading: &str| Part::new(heading, "twin", vec![row("a"), row("b")]);
        let why = Why(&[part("A core"), part("Nothing else")]).to_string();
        assert_eq!(why.matches("\n- ").count(), 3, "{why}");
        assert!(why.contains("**Nothing else: b.** Not found out yet."), "{why}");
    }

    #[test]
    fn a_row_is_written() {
        let rounds = [2.0, 4.0, 3.0];
        let row = Row::paired("some work", "ns a step", &rounds, &[3.0, 3.0, 4.5], Goal::AtLeast(0.9));
        assert_eq!(row.to_string(), "| some work | ns a step | 3.0 | 3.0 | 1.50 | 0.75 to 1.50 | at least 0.9: met |");
        let row = Row::alone("some work", "ns a step", &rounds, Goal::Within(2.0));
        assert_eq!(row.to_string(), "| some work | ns a step | 3.0 |  |  |  | at most 2: **short** |");
        let row = Row::paired("some work", "ns a step", &rounds, &[1.5, 2.0, 2.0], Goal::AtMostMore(1.2));
        assert_eq!(row.to_string(), "| some work | ns a step | 3.0 | 2.0 | 1.50 | 1.33 to 1.50 | at most 1.2 more: met |");
    }
}
