//! What the work runs on.

use std::fs::{self, File};
use std::io::Write;
use std::path::Path;
use std::thread;
use std::time::Instant;

use crate::spread::middle;
use crate::Result;

/// How many writes are synced, and the bytes of each.
const SYNCS: usize = 64;
const WRITTEN: usize = 4_096;

/// How many processors there are, and what they call themselves.
pub fn name() -> String {
    let told = fs::read_to_string("/proc/cpuinfo").unwrap_or_default();
    let count = thread::available_parallelism().map_or(1, usize::from);
    format!("{count} processors, {}", model(&told).unwrap_or("of an unknown kind"))
}

/// What a write of 4,096 bytes behind the end of a file in this folder takes, with its sync, in microseconds.
pub fn sync(folder: &Path) -> Result<f64> {
    let name = folder.join("sync");
    let mut file = File::create(&name)?;
    let mut took = Vec::with_capacity(SYNCS);
    for _ in 0..SYNCS {
        let start = Instant::now();
        file.write_all(&[1; WRITTEN])?;
        file.sync_data()?;
        took.push(start.elapsed().as_secs_f64() * 1e6);
    }
    fs::remove_file(name)?;
    Ok(middle(&took))
}

/// The model that the system's list of processors says.
fn model(told: &str) -> Option<&str> {
    let line = told.lines().find(|line| line.starts_with("model name"))?;
    Some(line.split_once(':')?.1.trim())
}

#[cfg(test)]
mod tests {
    use super::*;

    #[test]
    fn the_model_of_a_list() {
        assert_eq!(model("processor\t: 0\nmodel name\t: Fast (R) 3\nstepping\t: 7\n"), Some("Fast (R) 3"));
        assert_eq!(model("processor\t: 0\n"), None);
    }
}
