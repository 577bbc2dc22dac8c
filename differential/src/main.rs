//! Compares the port with the Rust's own text. See `differential/run`.

mod bench;
mod calls;
mod case;
mod claims;
mod command;
mod compare;
mod draw;
mod edges;
mod exhaustive;
mod expect;
mod faces;
mod long_plans;
mod model;
mod port;
mod random;
mod record;
mod reference;
mod rewinding;
mod short;
mod shrink;
mod tally;
mod vector_questions;
mod vectors;
mod walks;

use compare::Run;
use std::process::ExitCode;
use tally::Tally;

fn main() -> ExitCode {
    let words: Vec<String> = std::env::args().skip(1).collect();
    let words: Vec<&str> = words.iter().map(String::as_str).collect();
    let threads = std::env::var("NIMSKERF_THREADS").ok().and_then(|n| n.parse().ok()).unwrap_or(2);
    let good = match words.as_slice() {
        [mode @ .., only] if only.starts_with("only=") => one_item(&runs(mode), only),
        ["short"] => short::run(threads),
        ["bench"] => bench::run(),
        ["bench", "lists"] => {
            bench::lists();
            true
        }
        ["vectors", out] => vectors::write(out),
        ["replay-vectors", file] => vectors::replay(file),
        ["long-plans", seed, count] => {
            long_plans::run(number(seed), number(count));
            true
        }
        ["ask", words @ ..] => compare::ask(&command::parse(words).unwrap_or_else(|fault| stop(&fault))),
        mode => {
            if *mode == ["exhaustive"] {
                exhaustive::describe();
            }
            all_items(&runs(mode), threads, mode)
        }
    };
    if good { ExitCode::SUCCESS } else { ExitCode::FAILURE }
}

/// The runs of a mode.
fn runs(mode: &[&str]) -> Vec<Run> {
    match *mode {
        ["exhaustive"] => exhaustive::runs().into_iter().chain([edges::run()]).collect(),
        ["exhaustive", name] => {
            let mut runs = runs(&["exhaustive"]);
            runs.retain(|run| run.name == name);
            if runs.is_empty() { stop(&format!("exhaustive has no run `{name}`")) } else { runs }
        }
        ["random", seed, count] => vec![random::run(number(seed), number(count))],
        ["calls"] => calls::runs(1, 200_000),
        ["calls", seed, count] => calls::runs(number(seed), number(count)),
        ["claims"] => vec![claims::run(1, 50_000)],
        ["claims", seed, count] => vec![claims::run(number(seed), number(count))],
        ["short"] => short::runs(),
        _ => stop("unknown mode; see the head of differential/run"),
    }
}

/// Runs everything, with the sums of what was accepted and refused.
fn all_items(runs: &[Run], threads: usize, mode: &[&str]) -> bool {
    let again = format!("differential/run {}", mode.join(" "));
    let (mut total, mut missing) = (Tally::default(), 0);
    for run in runs {
        let (tally, lacking) = run.report(threads, &again);
        total += tally;
        missing += lacking.len();
    }
    println!(
        "in all         {} accepted, {} refused, {} differences",
        total.accepted(),
        total.refusals(),
        total.differences
    );
    total.differences == 0 && missing == 0
}

/// Runs one item, `only=RUN:ITEM`.
fn one_item(runs: &[Run], only: &str) -> bool {
    let (name, item) = only["only=".len()..].rsplit_once(':').unwrap_or_else(|| stop("only=RUN:ITEM is meant"));
    let Some(run) = runs.iter().find(|run| run.name == name) else {
        stop(&format!("this mode has no run `{name}`"));
    };
    let item = number(item);
    if item >= run.end {
        stop(&format!("the last item is {}", run.end - 1));
    }
    let tally = run.only(item);
    println!("{tally}");
    tally.print_differences(run.seed, "item ");
    tally.differences == 0
}

fn number(word: &str) -> u64 {
    word.parse().unwrap_or_else(|_| stop(&format!("`{word}` is no number")))
}

fn stop(message: &str) -> ! {
    eprintln!("{message}");
    std::process::exit(2)
}
