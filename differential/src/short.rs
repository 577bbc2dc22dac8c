//! A short run of everything, always the same: one line for each part.

use crate::{calls, claims, compare::Run, edges, exhaustive, random, vectors};
use std::{fs, path::Path};

/// The file that crate vectors replays.
const VECTORS: &str = concat!(env!("CARGO_MANIFEST_DIR"), "/../crates/vectors/data/vectors.bin");

/// The parts that are runs: every so many items of the domains, and the first of the drawn ones.
pub fn runs() -> Vec<Run> {
    let domains = exhaustive::runs().into_iter().zip([31, 199, 37]).map(|(run, step)| run.every(step));
    let drawn = [edges::run().every(7), random::run(1, 8_000), claims::run(1, 1_500)];
    let calls = calls::runs(1, 10_000).into_iter().map(|run| match run.name {
        "small-windows" => run.every(7),
        "small-steps" => run.every(97),
        _ => run,
    });
    domains.chain(drawn).chain(calls).collect()
}

/// Runs every part; true if all are as they must be.
pub fn run(threads: usize) -> bool {
    let mut good = true;
    for run in runs() {
        good &= part(&run, threads);
    }
    let (records, written) = vectors::made();
    good &= line("vectors", || vectors_as_written(&written));
    good & line("older vectors", || replayed(&vectors::older(records)))
}

/// The file is what `vectors` writes, and the port answers as it says.
fn vectors_as_written(written: &[u8]) -> Result<String, String> {
    let file = fs::read(Path::new(VECTORS)).map_err(|error| error.to_string())?;
    if file != written {
        return Err("the file is not what `vectors` writes".into());
    }
    replayed(&file)
}

/// The port answers as a list says.
fn replayed(file: &[u8]) -> Result<String, String> {
    match vectors::replay_bytes(file)? {
        (passed, 0) => Ok(format!("{passed} records, none twice")),
        (_, failed) => Err(format!("{failed} records differ")),
    }
}

fn part(run: &Run, threads: usize) -> bool {
    let tally = run.over(threads);
    let missing = run.missing(&tally);
    let good = line(run.name, || match tally.differences {
        0 if missing.is_empty() => Ok(format!("{} accepted, {} refused", tally.accepted(), tally.refusals())),
        0 => Err(missing.join(", ")),
        n => Err(format!("{n} differences")),
    });
    tally.print_differences(run.seed, &format!("differential/run short only={}:", run.name));
    good
}

fn line(name: &str, outcome: impl FnOnce() -> Result<String, String>) -> bool {
    match outcome() {
        Ok(text) => println!("ok {name} ({text})"),
        Err(text) => {
            println!("FAIL {name}: {text}");
            return false;
        }
    }
    true
}
