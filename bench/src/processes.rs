//! What runs in processes of its own: engines, and a program whose memory is looked at.

use std::path::Path;
use std::process::{Command, ExitCode};
use std::time::Instant;
use std::{env, io};

use crate::measured::Measured;
use crate::processors;
use crate::trees::{chains, heads, CALLS};
use crate::twin::turns;

/// The word that starts the twin's engines, with the same words behind it as the product's program has.
pub const ENGINES: &str = "engines";

/// The word that starts a program, and tells how much memory it took.
pub const MEMORY: &str = "memory";

const PRODUCT_ENGINES: &str = concat!(env!("CARGO_MANIFEST_DIR"), "/../crates/tl_bench_threads/out/tl_bench_threads");

/// The program `treedb`.
pub const TREEDB: &str = concat!(env!("CARGO_MANIFEST_DIR"), "/../crates/tl_cli/out/tl_cli");

/// Engines made anew, each of which runs 4,096 calls in batches of 256. The product's program takes 0 workers too: then a core with
/// its order is driven by one thread, one call after another.
#[derive(Clone, Copy)]
pub struct Engines<'a> {
    pub container: &'a Path,
    pub workers: usize,
    pub nodes: u32,
    pub chain: u32,
    pub engines: u32,
}

impl Engines<'_> {
    pub fn of_product(&self) -> Measured {
        self.told_by(Command::new(PRODUCT_ENGINES))
    }

    pub fn of_twin(&self) -> Measured {
        let Ok(program) = env::current_exe() else { return Measured::REFUSED };
        let mut command = Command::new(program);
        command.arg(ENGINES);
        self.told_by(command)
    }

    fn told_by(&self, mut command: Command) -> Measured {
        let numbers = [self.workers, self.nodes as usize, self.chain as usize, self.engines as usize];
        command.arg(self.container).args(numbers.map(|number| number.to_string()));
        processors::keep_to(self.workers.max(1));
        let told = numbers_of(command);
        processors::keep_to(1);
        match told.as_deref() {
            Some(&[nanos, count, sum]) => Measured { nanos, count, sum },
            _ => Measured::REFUSED,
        }
    }
}

/// The numbers that a program prints.
fn numbers_of(mut command: Command) -> Option<Vec<u64>> {
    let done = command.output().ok().filter(|done| done.status.success())?;
    let text = String::from_utf8(done.stdout).ok()?;
    text.split_whitespace().map(|word| word.parse().ok()).collect()
}

/// The twin's engines, in this process, as the words say.
pub fn run_engines(words: &[String]) -> Option<ExitCode> {
    let [container, workers, nodes, chain, engines] = words else { return None };
    let code = std::fs::read(container).ok()?;
    let (nodes, chain) = (nodes.parse().ok()?, chain.parse().ok()?);
    let (parents, args) = (chains(nodes, chain), heads(CALLS, nodes, chain));
    let measured = turns::engines(&code, &parents, &args, workers.parse().ok()?, engines.parse().ok()?);
    println!("{} {} {}", measured.nanos, measured.count, measured.sum);
    Some(ExitCode::SUCCESS)
}

#[repr(C)]
struct Usage {
    user_and_system: [i64; 4],
    /// the most memory at once, in kilobytes
    most: i64,
    others: [i64; 13],
}

extern "C" {
    fn wait4(process: i32, status: *mut i32, options: i32, usage: *mut Usage) -> i32;
}

/// The most bytes that a run of `treedb` with these words has in use at once. A small process starts it, since the system counts
/// the memory of whoever starts one.
pub fn memory_of_treedb(words: &[&str]) -> Option<u64> {
    let mut command = Command::new(env::current_exe().ok()?);
    command.args([MEMORY, TREEDB]).args(words);
    match numbers_of(command).as_deref() {
        Some(&[bytes]) => Some(bytes),
        _ => None,
    }
}

/// How many milliseconds a run of `treedb` with these words takes, from its start to its end.
pub fn time_of_treedb(words: &[&str]) -> Option<f64> {
    let begun = Instant::now();
    let done = Command::new(TREEDB).args(words).output().ok()?;
    let taken = begun.elapsed().as_secs_f64() * 1_000.0;
    done.status.success().then_some(taken)
}

/// Runs a program, and prints the most bytes that it had in use at once.
pub fn run_for_memory(words: &[String]) -> Option<ExitCode> {
    let (program, words) = words.split_first()?;
    let child = Command::new(program).args(words).env_remove("GLIBC_TUNABLES").stdout(io::stderr()).spawn().ok()?;
    let (mut status, mut usage) = (0, Usage { user_and_system: [0; 4], most: 0, others: [0; 13] });
    let ended = unsafe { wait4(i32::try_from(child.id()).ok()?, &mut status, 0, &mut usage) };
    if ended < 0 || status != 0 {
        return None;
    }
    println!("{}", usage.most * 1_024);
    Some(ExitCode::SUCCESS)
}
