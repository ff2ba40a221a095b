//! The tables of results.

use std::fmt::{self, Display, Formatter};

use crate::calls::Work;
use crate::rounds::{Entry, Results, Times};
use crate::spread::{middle, Spread};
use crate::ways::Way;

/// How near to one another two speeds are that are called on par.
const LEVEL: f64 = 0.1;

/// The place of treedb among the sides.
const PRODUCT: usize = 0;

/// How the tables were made.
pub struct Made {
    pub date: String,
    pub machine: String,
    pub product: String,
    pub rounds: usize,
    /// Each side's version and settings.
    pub sides: Vec<String>,
    /// Peers that weren't there.
    pub skipped: Vec<String>,
}

/// The results, and each side's name.
pub struct Tables<'a> {
    pub made: &'a Made,
    pub names: &'a [&'static str],
    pub works: &'a [Work],
    /// The ways in which treedb was asked.
    pub ways: &'static [Way],
    pub results: &'a Results,
    /// What no ratio says.
    pub notes: &'a [String],
}

/// What the files of all sides stand on.
pub struct Disk {
    pub name: String,
    /// what a write with its sync takes, in microseconds
    pub sync: f64,
}

/// The number below which such a share of some numbers lies, or at it.
pub fn percentile(numbers: &[f64], share: f64) -> f64 {
    let mut sorted = numbers.to_vec();
    sorted.sort_by(f64::total_cmp);
    let rank = (share * sorted.len() as f64).ceil() as usize;
    sorted[rank.clamp(1, sorted.len()) - 1]
}

/// Of each round the first side's speed by the second's.
pub fn ratios(ours: &Times, theirs: &Times) -> Spread {
    Spread::of(ours.rates.iter().zip(&theirs.rates).map(|(ours, theirs)| ours / theirs))
}

/// Which of two is faster, and how many times as fast, by the first one's speed by the second's.
pub fn verdict(ratio: f64, theirs: &str) -> String {
    match ratio {
        ratio if ratio > 1.0 + LEVEL => format!("treedb, {} times", short(ratio)),
        ratio if 1.0 / ratio > 1.0 + LEVEL => format!("{theirs}, {} times", short(1.0 / ratio)),
        _ => "on par".to_string(),
    }
}

/// A number with two or three digits that count.
fn short(number: f64) -> String {
    match number {
        number if number < 9.95 => format!("{number:.1}"),
        number => format!("{number:.0}"),
    }
}

/// How many thousands, with two digits that count at least.
fn thousands(number: f64) -> String {
    match number / 1_000.0 {
        few if few < 0.995 => format!("{few:.2}"),
        many => format!("{many:.1}"),
    }
}

/// A row of a table of Markdown.
fn row(out: &mut Formatter<'_>, cells: impl IntoIterator<Item = String>) -> fmt::Result {
    writeln!(out, "| {} |", cells.into_iter().collect::<Vec<_>>().join(" | "))
}

/// The head of a table, and the line under it.
fn head(out: &mut Formatter<'_>, cells: Vec<String>) -> fmt::Result {
    let under = "|---".repeat(cells.len());
    row(out, cells)?;
    writeln!(out, "{under}|")
}

impl Tables<'_> {
    fn times(&self, side: usize, work: Work, way: Way) -> Option<&Times> {
        self.results.get(&Entry { side, work, way })
    }

    /// treedb's speed by another side's.
    fn ratios(&self, side: usize, work: Work, way: Way) -> Option<Spread> {
        Some(ratios(self.times(PRODUCT, work, way)?, self.times(side, work, way.beside())?))
    }

    /// The sides but for treedb, by their places.
    fn others(&self) -> std::ops::Range<usize> {
        PRODUCT + 1..self.names.len()
    }

    fn names(&self, sides: impl Iterator<Item = usize>) -> impl Iterator<Item = String> {
        sides.map(|side| self.names[side].to_string()).collect::<Vec<_>>().into_iter()
    }

    /// Each side with its settings, and those that weren't there.
    fn put_sides(&self, out: &mut Formatter<'_>) -> fmt::Result {
        let Made { sides, skipped, .. } = self.made;
        for (name, made) in self.names.iter().zip(sides) {
            writeln!(out, "- **{name}**: {made}.")?;
        }
        skipped.iter().try_for_each(|peer| writeln!(out, "- {peer} isn't installed, and was left out."))
    }

    fn ratio_cell(&self, side: usize, work: Work, way: Way) -> String {
        let Some(Spread { low, middle, high }) = self.ratios(side, work, way) else { return String::new() };
        let mark = if 1.0 / middle > 1.0 + LEVEL { "**" } else { "" };
        format!("{mark}{middle:.2}{mark} ({low:.2} to {high:.2})")
    }

    fn put_ratios(&self, out: &mut Formatter<'_>) -> fmt::Result {
        head(out, ["Work".to_string()].into_iter().chain(self.names(self.others())).collect())?;
        for &work in self.works {
            for &way in self.ways {
                let cells = self.others().map(|side| self.ratio_cell(side, work, way));
                row(out, [format!("`{}`, {}", work.name(), way.name())].into_iter().chain(cells))?;
            }
        }
        Ok(())
    }

    /// The rates in the median round, each written in some form.
    fn put_rates(&self, out: &mut Formatter<'_>, written: fn(f64) -> String) -> fmt::Result {
        head(out, ["Work".to_string()].into_iter().chain(self.names(0..self.names.len())).collect())?;
        let cell = |side, work, way| match self.times(side, work, way) {
            Some(times) => written(middle(&times.rates)),
            None => String::new(),
        };
        for &work in self.works {
            for &way in self.ways {
                let cells = (0..self.names.len()).map(|side| cell(side, work, way));
                row(out, [format!("`{}`, {}", work.name(), way.name())].into_iter().chain(cells))?;
            }
        }
        Ok(())
    }

    fn put_waits(&self, out: &mut Formatter<'_>) -> fmt::Result {
        head(out, ["Work".to_string()].into_iter().chain(self.names(0..self.names.len())).collect())?;
        let micros = |times: &Times, share| percentile(&times.calls, share) / 1_000.0;
        let cell = |side, work, way| match self.times(side, work, way) {
            Some(times) => format!("{:.0}, {:.0}", micros(times, 0.5), micros(times, 0.99)),
            None => String::new(),
        };
        for &work in self.works {
            for way in [Way::OneByOne, Way::Eight] {
                let cells = (0..self.names.len()).map(|side| cell(side, work, way));
                row(out, [format!("`{}`, {}", work.name(), way.name())].into_iter().chain(cells))?;
            }
        }
        Ok(())
    }

    fn put_verdicts(&self, out: &mut Formatter<'_>) -> fmt::Result {
        let batches = [1, 2, 4].map(|workers| Way::Batch { workers });
        let columns: [(&str, &[Way]); 4] = [
            ("one by one", &[Way::OneByOne]),
            ("pipelined", &[Way::Pipelined]),
            ("best batch, against pipelined", &batches),
            ("eight connections", &[Way::Eight]),
        ];
        let columns: Vec<_> = columns.into_iter().filter(|(_, ways)| ways.iter().any(|way| self.ways.contains(way))).collect();
        let names = columns.iter().map(|(name, _)| name.to_string());
        head(out, ["Work, against".to_string()].into_iter().chain(names).collect())?;
        for &work in self.works {
            for side in self.others() {
                let cells: Vec<String> = columns.iter().map(|(_, ways)| self.verdict_cell(side, work, ways)).collect();
                if cells.iter().any(|cell| !cell.is_empty()) {
                    row(out, [format!("`{}`, {}", work.name(), self.names[side])].into_iter().chain(cells))?;
                }
            }
        }
        Ok(())
    }

    /// Which side is faster, of a piece of work beside another side in some way. Of batches the fastest one is told.
    fn verdict_cell(&self, side: usize, work: Work, ways: &[Way]) -> String {
        let ratios = ways.iter().filter_map(|&way| Some(self.ratios(side, work, way)?.middle));
        let peer = self.names[side].split(' ').next().unwrap_or_default();
        ratios.max_by(f64::total_cmp).map_or(String::new(), |ratio| verdict(ratio, peer))
    }
}

/// The few rows that say which side is faster.
pub struct Summary<'a>(pub &'a Tables<'a>);

impl Display for Summary<'_> {
    fn fmt(&self, out: &mut Formatter<'_>) -> fmt::Result {
        let Summary(tables) = self;
        let Made { date, machine, .. } = tables.made;
        writeln!(
            out,
            "treedb's server compared with those that its users would pick instead, over a socket of {machine}: which is faster, and how many times
as fast; within a tenth it is *on par*. `add` locks one node, `path` five and `sum` nine; `long` computes for 25,000 instructions on two.
Made by `bench/peers/run` on {date}; `bench/peers/results.md` has the versions, the settings and all numbers.\n"
        )?;
        tables.put_verdicts(out)
    }
}

impl Display for Tables<'_> {
    fn fmt(&self, out: &mut Formatter<'_>) -> fmt::Result {
        let Made { date, machine, product, rounds, .. } = self.made;
        writeln!(out, "# Compared with other servers\n\nMade by `bench/peers/run` on {date}, on {machine}, in {rounds} rounds. treedb is {product}.\n")?;
        self.put_sides(out)?;
        writeln!(out, "\n## Which is faster, and how many times as fast\n")?;
        self.put_verdicts(out)?;
        writeln!(
            out,
            "\n## Ratios

treedb's calls a second by the other's: the median of the rounds' ratios, and their quartiles in brackets. Above 1 treedb is faster; where
the other is faster by more than a tenth the number is bold. Against a batch the other's requests are pipelined.\n"
        )?;
        self.put_ratios(out)?;
        writeln!(out, "\n## Calls\n\n1,000 calls a second, in the median round.\n")?;
        self.put_rates(out, thousands)?;
        writeln!(out, "\n## Waiting\n\nHalf of all calls, and 99 of 100, are answered within so many microseconds.\n")?;
        self.put_waits(out)?;
        self.notes.iter().try_for_each(|note| writeln!(out, "\n{note}"))
    }
}

/// The tables of calls that are on a disk before they are answered.
pub struct Durable<'a> {
    pub tables: &'a Tables<'a>,
    pub disk: &'a Disk,
}

impl Display for Durable<'_> {
    fn fmt(&self, out: &mut Formatter<'_>) -> fmt::Result {
        let Durable { tables, disk: Disk { name, sync } } = self;
        let Made { date, machine, product, rounds, .. } = tables.made;
        writeln!(
            out,
            "# Calls that are stored before they are answered, compared with others

Made by `bench/peers/run --durable` on {date}, on {machine}, in {rounds} rounds. treedb is {product}.

All files stand on {name}. There a write of 4,096 bytes after the end of a file took {sync:.0} microseconds with its sync, before the first round.\n"
        )?;
        tables.put_sides(out)?;
        writeln!(out, "\n## Which is faster, and how many times as fast\n")?;
        tables.put_verdicts(out)?;
        writeln!(
            out,
            "\n## Ratios

treedb's calls a second by the other's: the median of the rounds' ratios, and their quartiles in brackets. Above 1 treedb is faster; where
the other is faster by more than a tenth the number is bold. SQLite has neither pipelined requests nor connections.\n"
        )?;
        tables.put_ratios(out)?;
        writeln!(out, "\n## Calls\n\nCalls a second, in the median round.\n")?;
        tables.put_rates(out, |rate| format!("{rate:.0}"))?;
        writeln!(out, "\n## Waiting\n\nHalf of all calls, and 99 of 100, are answered within so many microseconds.\n")?;
        tables.put_waits(out)?;
        tables.notes.iter().try_for_each(|note| writeln!(out, "\n{note}"))
    }
}

#[cfg(test)]
mod tests {
    use super::*;

    fn of_rates(rates: &[f64]) -> Times {
        Times { rates: rates.to_vec(), calls: Vec::new() }
    }

    #[test]
    fn percentiles_are_the_nearest_rank() {
        let numbers: Vec<f64> = (1..=200).rev().map(f64::from).collect();
        assert_eq!([0.5, 0.99, 1.0, 0.0].map(|share| percentile(&numbers, share)), [100.0, 198.0, 200.0, 1.0]);
        assert_eq!(percentile(&[7.0], 0.99), 7.0);
        assert_eq!(percentile(&[1.0, 2.0, 3.0], 0.5), 2.0);
    }

    #[test]
    fn ratios_are_of_one_round() {
        let ours = of_rates(&[10.0, 2.0, 9.0, 8.0, 10.0]);
        let theirs = of_rates(&[5.0, 2.0, 3.0, 2.0, 2.0]);
        assert_eq!(ratios(&ours, &theirs), Spread { low: 2.0, middle: 3.0, high: 4.0 });
    }

    #[test]
    fn verdicts_in_words() {
        let cases = [(1.0, "on par"), (1.09, "on par"), (1.5, "treedb, 1.5 times"), (0.92, "on par"), (0.5, "Redis, 2.0 times")];
        for (ratio, words) in cases {
            assert_eq!(verdict(ratio, "Redis"), words);
        }
        assert_eq!(verdict(17.3, "PostgreSQL"), "treedb, 17 times");
        assert_eq!([38.0, 999.0, 53_280.0].map(thousands), ["0.04", "1.0", "53.3"]);
    }

    #[test]
    fn a_batch_stands_beside_pipelined_requests() {
        let entry = |side, way| Entry { side, work: Work::Add, way };
        let results = Results::from([
            (entry(0, Way::Pipelined), of_rates(&[50.0])),
            (entry(0, Way::Batch { workers: 1 }), of_rates(&[80.0])),
            (entry(0, Way::Batch { workers: 2 }), of_rates(&[200.0])),
            (entry(1, Way::Pipelined), of_rates(&[100.0])),
        ]);
        let made = Made {
            date: "d".into(),
            machine: "m".into(),
            product: "p".into(),
            rounds: 1,
            sides: vec!["one".into(), "other".into()],
            skipped: vec!["PostgreSQL".into()],
        };
        let tables = Tables {
            made: &made,
            names: &["treedb", "Redis function"],
            works: &[Work::Add],
            ways: &Way::ALL,
            results: &results,
            notes: &["A note.".to_string()],
        };
        assert_eq!(tables.ratio_cell(1, Work::Add, Way::Batch { workers: 1 }), "**0.80** (0.80 to 0.80)");
        assert!(Summary(&tables).to_string().contains("| `add`, Redis function |  | Redis, 2.0 times | treedb, 2.0 times |  |"));
        assert!(tables.to_string().contains("PostgreSQL isn't installed"));
    }

    #[test]
    fn a_table_of_stored_calls_has_no_batches() {
        let one_by_one = |rate, nanos| Times { rates: vec![rate], calls: vec![nanos] };
        let entry = |side, way| Entry { side, work: Work::Add, way };
        let results = Results::from([
            (entry(0, Way::OneByOne), one_by_one(300.0, 2_000.0)),
            (entry(0, Way::Eight), one_by_one(900.4, 5_000.0)),
            (entry(1, Way::OneByOne), one_by_one(200.0, 3_000.0)),
        ]);
        let made = Made {
            date: "d".into(),
            machine: "m".into(),
            product: "p".into(),
            rounds: 1,
            sides: vec!["one".into(), "`PRAGMA synchronous=FULL`".into()],
            skipped: vec!["Redis".into()],
        };
        let tables = Tables {
            made: &made,
            names: &["treedb", "SQLite"],
            works: &[Work::Add],
            ways: &Way::COMMON,
            results: &results,
            notes: &[],
        };
        let told = Durable { tables: &tables, disk: &Disk { name: "a disk".into(), sync: 812.4 } }.to_string();
        let wanted = [
            "All files stand on a disk. There a write of 4,096 bytes after the end of a file took 812 microseconds",
            "- **SQLite**: `PRAGMA synchronous=FULL`.\n- Redis isn't installed",
            "| Work, against | one by one | pipelined | eight connections |",
            "| `add`, SQLite | treedb, 1.5 times |  |  |",
            "| `add`, eight connections | 900 |  |",
            "| `add`, one by one | 2, 2 | 3, 3 |",
        ];
        for part in wanted {
            assert!(told.contains(part), "{part}\n{told}");
        }
        assert!(!told.contains("batch"));
    }
}
