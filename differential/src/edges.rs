//! Combinations of edge values: each as it is, accepted, and every second one with faults, refused.

use crate::{
    case::{Call, Case, Limits, STACK_LEN, SWAP, Tables, limits},
    compare::{Need, Run},
};
use std::sync::Arc;

const DUP_MAX: [usize; 4] = [0, 1, 15, 16];
const SWAP_MAX: [usize; 5] = [0, 1, 2, 16, 17];
const MAX_LEN: [usize; 6] = [0, 1, 2, 17, 20, 21];
const ALLOWANCES: [[usize; 3]; 7] =
    [[0, 0, 0], [1, 0, 1], [1, 1, 0], [5, 900, 1000], [128, 60, 80], [65_536, 30, 200], [3, 65_536, 65_536]];

/// Tables at the edges of what 4 accepts.
fn tables() -> Vec<Arc<Tables>> {
    let desk = Tables::desk();
    let kinds = |first: u8, all: u8, last: u8| [vec![first], vec![all; 62], vec![last]].concat();
    let of = |kinds: Vec<u8>, prices: Vec<u32>| Arc::new(Tables { kinds, prices });
    vec![
        of(desk.kinds.clone(), desk.prices.clone()),
        of(kinds(2, 0, 1), vec![30_000; 196]),
        of(kinds(1, 1, 2), vec![0; 196]),
        of(kinds(0, 0, 0), (0..196).map(|place| if place % 2 == 0 { 0 } else { 30_000 }).collect()),
        of(kinds(1, 1, 1), (0..196).map(|place| if place % 3 == 0 { 30_000 } else { 1 }).collect()),
    ]
}

/// Starts and goals at the edges of a greatest length.
fn windows(most: usize) -> Vec<(Vec<u8>, Vec<u8>)> {
    let rising: Vec<u8> = (0..most as u8).collect();
    let falling: Vec<u8> = (0..most as u8).map(|key| 63 - key).collect();
    let turned: Vec<u8> = rising.iter().rev().copied().collect();
    let short = &rising[..most.saturating_sub(1)];
    let mut pairs = vec![
        (rising.clone(), turned),
        (rising.clone(), short.to_vec()),
        (short.to_vec(), rising.clone()),
        (rising.clone(), falling.clone()),
        (vec![], falling),
        (vec![63; most], vec![63; most.min(1)]),
        (vec![0; most.min(1)], vec![0; most]),
    ];
    pairs.sort();
    pairs.dedup();
    pairs
}

/// What is wrong with a case: each has one thing one past its edge.
const FAULTS: [fn(&mut Case); 22] = [
    |case| case.limits.dup_max = 17,
    |case| case.limits.swap_max = 18,
    |case| case.limits.max_len = 22,
    |case| case.limits.max_expansions = 65_537,
    |case| case.limits.states_without = 65_537,
    |case| case.limits.states_with = 65_537,
    |case| Arc::make_mut(&mut case.tables).kinds.truncate(63),
    |case| Arc::make_mut(&mut case.tables).kinds.push(0),
    |case| Arc::make_mut(&mut case.tables).kinds[62] = 3,
    |case| Arc::make_mut(&mut case.tables).kinds[31..33].fill(2),
    |case| Arc::make_mut(&mut case.tables).prices.truncate(195),
    |case| Arc::make_mut(&mut case.tables).prices.push(0),
    |case| Arc::make_mut(&mut case.tables).prices[2 * SWAP] = 30_001,
    |case| case.start.push(64),
    |case| case.goal.insert(0, 255),
    |case| case.limits.beneath = STACK_LEN + 1 - case.start.len(),
    |case| case.limits.beneath = usize::MAX,
    |case| case.start.resize(case.limits.swap_max.min(case.limits.window()).min(21) + 1, 7),
    |case| case.goal.resize(case.limits.swap_max.min(case.limits.window()).min(21) + 1, 7),
    |case| case.lent.steps = case.lent.steps.saturating_sub(1),
    |case| case.lent.nodes = case.lent.nodes.saturating_sub(1),
    |case| [case.lent.heads, case.lent.open] = [case.lent.heads, case.lent.open].map(|length| length.saturating_sub(1)),
];

/// Counts of items beneath: none, as many as do not narrow the window, one more, and room for one key and for none.
fn beneath(max_len: usize) -> Vec<usize> {
    let mut counts = vec![0, STACK_LEN - max_len, (STACK_LEN - max_len + 1).min(STACK_LEN), STACK_LEN - 1, STACK_LEN];
    counts.sort_unstable();
    counts.dedup();
    counts
}

/// Every combination of edge values that pass.
fn combinations() -> Vec<(Limits, Vec<u8>, Vec<u8>)> {
    let mut all = Vec::new();
    for dup_max in DUP_MAX {
        for swap_max in SWAP_MAX {
            for max_len in MAX_LEN {
                for beneath in beneath(max_len) {
                    for [expansions, without, with] in ALLOWANCES {
                        let limits = limits([dup_max, swap_max, max_len, expansions, without, with]);
                        let limits = Limits { beneath, ..limits };
                        let pairs = windows(swap_max.min(limits.window()));
                        all.extend(pairs.into_iter().map(|(start, goal)| (limits, start, goal)));
                    }
                }
            }
        }
    }
    all
}

/// Edges without stacks that are too tall, or whose items beneath change no plan, show nothing of them.
const NEEDS: &[Need] = &[Need::Answer(Call::Plan, 12), Need::Narrowed(Call::Plan), Need::Moved(Call::Plan)];

/// An item is a combination with each of the tables; lists are the least.
pub fn run() -> Run {
    let (tables, combinations) = (tables(), combinations());
    let run = Run::new("edges", 2, combinations.len() as u64, move |sides, mut random| {
        let index = sides.index as usize;
        let (limits, ref start, ref goal) = combinations[index];
        for (i, tables) in tables.iter().enumerate() {
            let mut case = Case::plan(limits, start, goal, tables);
            sides.compare(&case, &mut random);
            let turn = index + i;
            if turn % 2 == 1 {
                continue;
            }
            // One fault, or two of which the lower number is given.
            FAULTS[random.below(FAULTS.len())](&mut case);
            if turn.is_multiple_of(4) {
                FAULTS[random.below(FAULTS.len())](&mut case);
            }
            sides.compare(&case, &mut random);
        }
    });
    run.needing(NEEDS)
}
