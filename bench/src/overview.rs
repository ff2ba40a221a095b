//! The rows that say the most, and how many goals were met.

use std::fmt;

use crate::table::{Part, Row, Verdict};

/// A row of the table, and what it is in plain words.
struct Chosen {
    /// What the part's heading begins with.
    heading: &'static str,
    /// What the row begins with.
    work: &'static str,
    /// What is done, and by which command a user has it.
    words: &'static str,
}

const fn chosen(heading: &'static str, work: &'static str, words: &'static str) -> Chosen {
    Chosen { heading, work, words }
}

const CHOSEN: [Chosen; 10] = [
    chosen("A call alone", "a loop of arithmetic", "one call alone, arithmetic (`alone`)"),
    chosen("Codes of", "`verify`: flat", "verifying a procedure (`verify`, `check`)"),
    chosen("`Running`", "4,096 walks", "walks in a core of one thread, with the order kept (the library alone)"),
    chosen("Engines, 4,096 calls each in batches of 256: two nodes of a subtree of its own, 10,000", "two nodes", "long calls through an engine, one worker (`run`)"),
    chosen("Engines, 4,096 calls each in batches of 256: two nodes of a subtree of its own, 10,000", "product alone: 4", "long calls, four workers beside one (`run`)"),
    chosen("Engines, 4,096 calls each in batches of 256: two nodes of a subtree of its own, 20", "two nodes", "short calls through an engine, one worker (`run`)"),
    chosen("Engines, 4,096 calls each in batches of 256: two nodes of a subtree of its own, 20", "product alone: 4", "short calls, four workers beside one (`run`)"),
    chosen("A procedure a transaction", "the way down to a leaf of 4,096 nodes, five below the root; add to it, and answer: an engine", "a way down to a leaf, through an engine, beside SQLite in memory (`run`)"),
    chosen("The order and the audit of 4,096 walks", "`audit`, 1,048,576 events", "auditing a million events (`audit`)"),
    chosen("A trail's text", "reading the trail", "reading a trail's text, beside `serde_json` (`audit`)"),
];

/// The beginning of a table: its ten rows, and the count of all.
pub struct Overview<'a>(pub &'a [Part]);

impl Overview<'_> {
    fn rows(&self) -> impl Iterator<Item = &Row> {
        self.0.iter().flat_map(|part| &part.rows)
    }

    fn row_of(&self, chosen: &Chosen) -> Option<&Row> {
        let mut parts = self.0.iter().filter(|part| part.heading.starts_with(chosen.heading));
        parts.find_map(|part| part.rows.iter().find(|row| row.work.starts_with(chosen.work)))
    }

    fn count(&self, verdict: Verdict) -> usize {
        self.rows().filter(|row| row.verdict() == Some(verdict)).count()
    }
}

impl fmt::Display for Overview<'_> {
    fn fmt(&self, out: &mut fmt::Formatter<'_>) -> fmt::Result {
        let rows: Vec<_> = CHOSEN.iter().filter_map(|it| Some((it.words, self.row_of(it)?))).collect();
        if rows.is_empty() {
            return Ok(());
        }
        writeln!(out, "| Work | ratio | Goal |\n|---|---|---|")?;
        for (words, row) in rows {
            writeln!(out, "| {words} | {} | {} |", row.ratio(), row.asked())?;
        }
        let [met, level, short] = [Verdict::Met, Verdict::Level, Verdict::Short].map(|verdict| self.count(verdict));
        writeln!(out, "\nOf the {} goals below {met} are met, {level} are on par and {short} are short.", met + level + short)
    }
}

#[cfg(test)]
mod tests {
    use super::*;
    use crate::table::Goal;

    #[test]
    fn the_chosen_rows_come_first() {
        let row = |work: &str, other: f64| Row::paired(work, "ns", &[10.0], &[other], Goal::AtLeast(0.9));
        let parts = [Part::new("A call alone", "twin", vec![row("a loop of arithmetic, 7 steps", 20.0), row("other", 1.0)])];
        let text = Overview(&parts).to_string();
        assert!(text.contains("| one call alone, arithmetic (`alone`) | 2.00 | at least 0.9: met |"), "{text}");
        assert!(text.contains("Of the 2 goals below 1 are met, 0 are on par and 1 are short."), "{text}");
        assert!(Overview(&[]).to_string().is_empty());
    }
}
