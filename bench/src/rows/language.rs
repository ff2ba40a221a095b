//! The compiler of the procedure language.

use std::fmt::Write;
use std::{env, fs, process};

use crate::processes::time_of_treedb;
use crate::table::{Goal, Part, Row};

const HEADING: &str = "The procedure language";

/// How many procedures the text has, and how many lines each.
const PROCEDURES: usize = 42;
const LINES: usize = 24;

/// How often it is compiled.
const ROUNDS: usize = 21;

/// A procedure of so many lines: it walks down, with a failure of its own at each sum.
fn procedure(text: &mut String, number: usize) {
    let _ = writeln!(text, "proc walk_{number}(start, amount) {{\n    lock place = node(start);\n    let sum = 0;");
    for line in 0..(LINES - 8) / 2 {
        let _ = writeln!(text, "    place.field_{} += amount * {line} - sum / 3 else {{ emit {line}; }}\n    sum += place.field_{};", line % 8, (line + 1) % 8);
    }
    let _ = writeln!(text, "    descend place to child(amount);\n    emit sum;\n}} else {{\n    emit -1;\n}}");
}

/// A text of some 1,000 lines, behind the names of the fields.
fn text() -> String {
    let mut text: String = (0..8).map(|field| format!("field field_{field} = {field}; ")).collect();
    text.push('\n');
    for number in 0..PROCEDURES {
        procedure(&mut text, number);
    }
    text
}

pub fn compiling() -> Result<Part, String> {
    let text = text();
    let path = env::temp_dir().join(format!("treedb-bench-{}.tdb", process::id()));
    fs::write(&path, &text).map_err(|error| error.to_string())?;
    let times: Option<Vec<f64>> = (0..ROUNDS).map(|_| path.to_str().and_then(|path| time_of_treedb(&["procs", path]))).collect();
    fs::remove_file(&path).map_err(|error| error.to_string())?;
    let Some(times) = times else {
        return Ok(Part::left_out(HEADING, "Left out: the program isn't built."));
    };
    let work = format!("compiling {} lines, {PROCEDURES} procedures, with the program's start", text.lines().count());
    Ok(Part::new(HEADING, "", vec![Row::alone(work, "ms", &times, Goal::Within(50.0))]))
}
