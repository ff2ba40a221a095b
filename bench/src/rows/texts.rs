//! The texts of trails.

use super::{walks, TWIN};
use crate::product;
use crate::rounds::{are_alike, in_turn};
use crate::table::{Goal, Part, Row};
use crate::twin::reader::read_trail;
use crate::twin::work as twin;

const UNIT: &str = "ns an event";

pub fn texts() -> Result<Vec<Part>, String> {
    let text = walks(127)?;
    let trail = read_trail(&text).map_err(|()| "a trail that the twin can't read")?;
    let bytes = text.as_bytes();
    let [read, parse, read_by_twin] = in_turn(
        "reading",
        [&mut || product::read(bytes, 1), &mut || product::parse(bytes, 1), &mut || twin::read(bytes, 1)],
    )?;
    let [write, print, written_by_twin] = in_turn(
        "writing",
        [&mut || product::write(bytes, 1), &mut || product::print(bytes, 1), &mut || twin::write(&trail, 1)],
    )?;
    are_alike("reading", &read, &read_by_twin)?;
    for (name, other) in [("the text", &written_by_twin), ("the port's text", &print), ("the port's value", &parse)] {
        are_alike(name, &write, other)?;
    }
    let events = trail.events.len() as f64;
    let row = |work, times, goal| Row::of_times(work, UNIT, times, events, goal);
    Ok(vec![
        Part::new(
            "A trail's text, 1,048,576 events, beside the kit's port of `serde_json` alone",
            "the port",
            vec![
                row("reading the trail, and reading the same text as a `Value` and letting it go", [&read, &parse], Goal::AtMost(1.1)),
                row("writing the trail, and `to_string` of a `Value` that is ready", [&write, &print], Goal::AtMost(1.2)),
            ],
        ),
        Part::new(
            "The same beside the twin, which reads item by item and writes digits as they come",
            TWIN,
            vec![
                row("reading the trail", [&read, &read_by_twin], Goal::Speed),
                row("writing the trail", [&write, &written_by_twin], Goal::Speed),
            ],
        ),
    ])
}
