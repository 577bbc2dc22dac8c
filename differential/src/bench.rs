//! Times the port and the reference on the same questions, in one run.

use crate::{
    case::{Case, ENDING, EXPANSIONS, KEY, ORIGIN, SWAP, Tables, limits},
    compare::Sides,
    draw::Random,
    faces::raw_limits,
    reference::{Prepared, Reference},
};
use nimskerf::{HEADS_LENT, Lists, NODE_NUMBERS, OPEN_NUMBERS, raw};
use std::{hint::black_box, sync::Arc};

#[repr(C)]
struct Timespec {
    seconds: i64,
    nanoseconds: i64,
}

unsafe extern "C" {
    fn clock_gettime(clock: i32, time: *mut Timespec) -> i32;
}

const CLOCK_THREAD_CPUTIME_ID: i32 = 3;

/// Processor time of this thread in nanoseconds.
fn now() -> u64 {
    let mut time = Timespec { seconds: 0, nanoseconds: 0 };
    // SAFETY: `time` is a timespec of this target.
    let failed = unsafe { clock_gettime(CLOCK_THREAD_CPUTIME_ID, &mut time) };
    assert_eq!(failed, 0, "the clock can be read");
    time.seconds as u64 * 1_000_000_000 + time.nanoseconds as u64
}

/// Nanoseconds of one call, over a batch of calls.
fn time(batch: u32, mut call: impl FnMut()) -> f64 {
    let begun = now();
    for _ in 0..batch {
        call();
    }
    (now() - begun) as f64 / f64::from(batch)
}

/// How many calls fill a batch of about 100 microseconds.
fn batch_of(mut call: impl FnMut()) -> u32 {
    call();
    let once = time(4, call).max(50.0);
    (100_000.0 / once).clamp(1.0, 2_000.0) as u32
}

/// The least of each of two calls, taken in turn until both have had enough time.
fn least_of(mut one: impl FnMut(), mut two: impl FnMut()) -> (f64, f64) {
    const ENOUGH: u64 = 1_500_000_000;
    const REPEATS: usize = 400;
    let (batch_one, batch_two) = (batch_of(&mut one), batch_of(&mut two));
    let (mut least_one, mut least_two) = (f64::INFINITY, f64::INFINITY);
    let begun = now();
    for repeat in 0..REPEATS {
        least_one = least_one.min(time(batch_one, &mut one));
        least_two = least_two.min(time(batch_two, &mut two));
        if repeat >= 10 && now() - begun > ENOUGH {
            break;
        }
    }
    (least_one, least_two)
}

/// The lists lent to the port, as long as the crate `nimskerf` lends them, kept between calls.
struct Work {
    steps: Vec<u16>,
    nodes: Vec<u64>,
    heads: Vec<u64>,
    open: Vec<u64>,
}

impl Work {
    fn new(entries: usize, steps: usize) -> Self {
        Self {
            steps: vec![0; steps],
            nodes: vec![0; entries * NODE_NUMBERS],
            heads: vec![0; entries * HEADS_LENT],
            open: vec![0; entries * OPEN_NUMBERS],
        }
    }

    /// Asks by the proved function.
    fn ask(&mut self, question: &Case) {
        let lists =
            Lists { steps: &mut self.steps, nodes: &mut self.nodes, heads: &mut self.heads, open: &mut self.open };
        let Case { start, goal, limits, tables, .. } = black_box(question);
        black_box(raw::plan(start, goal, &raw_limits(limits), &tables.kinds, &tables.prices, lists));
    }
}

/// The price lists of the bench.
struct PriceLists {
    desk: Arc<Tables>,
    dear_swaps: Arc<Tables>,
    dear_keys: Arc<Tables>,
    flat: Arc<Tables>,
    by_place: Arc<Tables>,
}

impl PriceLists {
    fn new() -> Self {
        let desk = Tables::desk();
        let prices = desk.prices.clone();
        let at = |pair: usize| (prices[2 * pair], prices[2 * pair + 1]);
        let shared = |price: &dyn Fn(usize) -> (u32, u32)| Arc::new(Tables::desk_with(price));
        Self {
            dear_swaps: shared(&|pair| if (SWAP..KEY).contains(&pair) { (8, 1) } else { at(pair) }),
            dear_keys: shared(&|pair| if pair >= KEY { (15, 7) } else { at(pair) }),
            flat: shared(&|_| (1, 1)),
            by_place: shared(&|pair| (2 + (pair * 7 % 5) as u32, 1 + (pair % 3) as u32)),
            desk: Arc::new(desk),
        }
    }
}

type Row = (&'static str, [usize; 6], &'static [u8], &'static [u8]);

/// Questions with the desk's tables.
const DESK: &[Row] = &[
    ("a", [16, 17, 21, 0, 1000, 1000], &[0, 1, 2], &[0]),
    ("b", [16, 17, 21, 1000, 1000, 1000], &[0, 1, 2, 3, 4], &[3, 4, 0, 1, 2]),
    ("c", [16, 17, 21, 1000, 1000, 1000], &[0, 1, 33], &[33, 1, 1, 0, 32]),
    ("d", [16, 17, 21, 1000, 1000, 1000], &[0, 1, 2, 3], &[5, 2, 0, 33, 5]),
    ("f", [16, 17, 12, 65536, 65536, 65536], &[12, 13, 4, 13, 4, 12, 12, 13, 12], &[12, 13, 4, 13]),
    ("g", [15, 17, 6, 65536, 65536, 65536], &[3, 5, 5], &[3, 1, 0, 2, 3, 3]),
    (
        "h",
        [3, 17, 15, 65536, 65536, 65536],
        &[31, 30, 31, 30, 31, 31, 31, 31, 30, 31, 30],
        &[31, 31, 30, 31, 30, 31, 31, 31, 31, 30, 31, 31, 30, 30, 31],
    ),
    ("j", [4, 17, 12, 65536, 65536, 65536], &[48, 40, 18, 40, 55, 3, 3, 24], &[48, 40, 18, 40, 55, 3, 3]),
    (
        "k",
        [15, 17, 17, 65536, 65536, 65536],
        &[22, 20, 14, 7, 7, 7, 14, 14, 20, 58],
        &[22, 20, 14, 14, 7, 7, 7, 14, 58, 20],
    ),
    // As a candidate gets.
    ("m", [16, 17, 21, 1000, 1000, 1000], &[0], &[0, 0]),
    ("n", [16, 17, 21, 1000, 1000, 1000], &[0, 1], &[1, 0]),
    ("o", [16, 17, 21, 1000, 1000, 1000], &[], &[32, 33]),
    ("p", [16, 17, 21, 1000, 1000, 1000], &[0, 1, 2], &[2, 1, 0]),
    ("q", [16, 17, 21, 1000, 1000, 1000], &[4, 3, 2, 1, 0], &[0, 2]),
    ("r", [2, 4, 5, 1000, 1000, 1000], &[0, 1, 2], &[1, 2, 0, 1]),
    ("s", [16, 17, 21, 200, 1000, 1000], &[0, 1, 2, 3, 4, 5, 6, 7], &[7, 0, 0, 33, 3, 2, 40]),
    ("t", [16, 17, 21, 1000, 1000, 1000], &[9, 8, 7, 6, 5, 4, 3, 2, 1, 0, 11, 12, 13, 14, 15, 16, 17], &[17, 9, 8]),
];

/// Questions with other price lists.
const DEAR_SWAPS: &[Row] = &[
    ("u", [16, 17, 21, 1000, 1000, 1000], &[0, 1, 2, 3], &[3, 2, 1, 0]),
    ("v", [16, 17, 10, 20000, 60000, 60000], &[0, 1, 2, 33, 34], &[34, 0, 2, 33, 1]),
];
const DEAR_KEYS: &[Row] = &[
    ("w", [16, 17, 21, 1000, 1000, 1000], &[0, 1, 2], &[1, 1, 5, 0]),
    ("x", [3, 5, 9, 20000, 60000, 60000], &[0, 1, 2, 3, 4], &[4, 4, 2, 0, 0]),
];
const FLAT: &[Row] = &[("y", [16, 17, 21, 1000, 1000, 1000], &[0, 1, 2, 3, 4, 5], &[5, 0, 4, 1, 3, 2])];
const BY_PLACE: &[Row] = &[
    ("z", [16, 17, 21, 1000, 1000, 1000], &[0, 1, 33, 2], &[2, 32, 0, 33, 1]),
    ("zz", [8, 10, 10, 20000, 60000, 60000], &[0, 1, 2, 3, 33], &[1, 33, 0, 40, 2, 0]),
];

fn questions(lists: &PriceLists) -> Vec<(&'static str, &'static str, Case)> {
    let groups: [(&str, &Arc<Tables>, &[Row]); 5] = [
        ("desk", &lists.desk, DESK),
        ("dear swaps", &lists.dear_swaps, DEAR_SWAPS),
        ("dear keys", &lists.dear_keys, DEAR_KEYS),
        ("all 1/1", &lists.flat, FLAT),
        ("by place", &lists.by_place, BY_PLACE),
    ];
    groups
        .into_iter()
        .flat_map(|(prices, tables, rows)| {
            rows.iter().map(move |&(name, numbers, start, goal)| {
                (name, prices, Case::plan(limits(numbers), start, goal, tables))
            })
        })
        .collect()
}

/// Prints microseconds of both sides; true if the answers are the same.
pub fn run() -> bool {
    let lists = PriceLists::new();
    println!("least of alternating batches, thread processor time; ratio = port / reference");
    println!(
        "{:<4} {:<11} {:>10} {:>6} {:>7} {:>11} {:>13} {:>7}",
        "", "prices", "expansions", "ending", "origin", "port us", "reference us", "ratio"
    );
    let mut sides = Sides::default();
    let mut logs = Vec::new();
    let mut above = Vec::new();
    for (name, prices, question) in questions(&lists) {
        sides.compare(&question, &mut Random::new(3, 0));
        let mut reference = Reference::default();
        let answer = reference.plan(&question);
        let prepared = Prepared::new(&question);
        let mut work = Work::new(question.states() + 50, question.lent.steps);
        let (port, rust) = least_of(
            || work.ask(&question),
            || {
                black_box(reference.plan_plain(black_box(&prepared)));
            },
        );
        let ratio = port / rust;
        logs.push(ratio.ln());
        if ratio > 0.8 {
            above.push(name);
        }
        println!(
            "{name:<4} {prices:<11} {:>10} {:>6} {:>7} {:>11.2} {:>13.2} {ratio:>7.3}",
            answer.fields[EXPANSIONS],
            answer.fields[ENDING],
            answer.fields[ORIGIN],
            port / 1000.0,
            rust / 1000.0
        );
    }
    let mean = (logs.iter().sum::<f64>() / logs.len() as f64).exp();
    println!("geometric mean of {} ratios: {mean:.3}; above 0.8: {above:?}", logs.len());
    println!("answers that differ: {}", sides.tally.differences);
    sides.tally.print_differences(3, "differential/run bench, question ");
    sides.tally.differences == 0
}

/// Prints microseconds of small questions with work lists of 1,050 and of 65,586 entries.
pub fn lists() {
    let lists = PriceLists::new();
    println!("microseconds of the port with work lists of 1,050 and of 65,586 entries");
    println!("{:<4} {:>11} {:>11} {:>7}", "", "1,050", "65,586", "ratio");
    for (name, _, question) in questions(&lists).into_iter().filter(|(.., question)| question.states() <= 1000) {
        let (mut small, mut large) = (Work::new(1_050, 1_000), Work::new(65_586, 1_000));
        let (one, two) = least_of(|| small.ask(&question), || large.ask(&question));
        println!("{name:<4} {:>11.3} {:>11.3} {:>7.3}", one / 1000.0, two / 1000.0, two / one);
    }
}
