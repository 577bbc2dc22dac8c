//! Replay, marking and stepping back against the model; packing, star-swap and delete-tail against the Rust.

use crate::{
    case::{Answer, Call, Case, Tables},
    compare::{Need, Run, Sides},
    draw::{self, Random},
    exhaustive::windows,
    model, walks,
};
use std::sync::Arc;

/// Exercises without stacks that are too tall, or whose items beneath change nothing, show nothing of them.
const NEEDS: &[Need] = &[
    Need::Answer(Call::Replay, 12),
    Need::Answer(Call::Mark, 12),
    Need::Narrowed(Call::Replay),
    Need::Narrowed(Call::Mark),
    Need::Moved(Call::Replay),
    Need::Moved(Call::Mark),
];

pub fn runs(seed: u64, count: u64) -> Vec<Run> {
    let exercises = Run::new("exercises", seed, count, |sides, mut random| exercise(&mut random, sides));
    let mut runs = vec![
        exercises.needing(NEEDS),
        small_windows(),
        Run::new("windows", seed, count, |sides, mut random| {
            pack(&mut random, sides);
            builders(&mut random, sides);
        }),
    ];
    runs.extend(walks::runs(seed, count));
    runs
}

/// One replay and one marking of the same steps, most of them allowed.
fn exercise(random: &mut Random, sides: &mut Sides) {
    let mut case = Case::new(Call::Replay, &Arc::new(draw::tables(random)));
    case.limits = draw::deep_limits(random);
    (case.start, case.goal) = draw::windows(random, case.limits.window());
    let count = random.below(40);
    case.steps = draw::steps(random, &case, count);
    if random.once_in(12) {
        for _ in 0..1 + random.below(2) {
            draw::spoil(random, &mut case);
        }
    }
    if random.once_in(24) {
        case.limits.beneath = draw::any_beneath(random, case.start.len());
    }
    if random.once_in(400) {
        // Dup and Pop in turn: as long a replay as there is, and one step more.
        case.steps = vec![0; 65_536 + random.below(2)];
        case.steps.iter_mut().step_by(2).for_each(|step| *step = 256);
    }
    case.lent.steps = if random.once_in(10) { random.below(21) } else { 21 + random.below(5) };
    case.lent.popped = draw::popped_room(random, case.steps.len());
    let replayed = sides.compare_deep(&case, random);
    marking(random, sides, case, replayed);
}

/// The marking of a replay's steps.
fn marking(random: &mut Random, sides: &mut Sides, mut case: Case, replayed: Answer) {
    // Against the window reached, so that costs count, or against the drawn goal.
    if !random.once_in(4) && !replayed.window.is_empty() {
        case.goal = replayed.window;
    }
    let (gas, bytes) = if replayed.refusal == 0 && case.tables.prices.len() == 196 {
        model::cost(&case.steps, &case.tables.prices)
    } else {
        (0, 0)
    };
    case.call = Call::Mark;
    case.lent = case.least();
    case.ceiling = match random.below(5) {
        0 => [gas, bytes.wrapping_sub(1)],
        1 => [gas.wrapping_sub(1), bytes.wrapping_add(5)],
        2 => [gas.wrapping_add(1), 0],
        3 => [random.next() as u32, random.next() as u32],
        _ => [gas, bytes],
    };
    sides.compare_deep(&case, random);
}

fn pack(random: &mut Random, sides: &mut Sides) {
    let mut case = Case::new(Call::Pack, &Arc::new(Tables::desk()));
    case.start = (0..random.below(25)).map(|_| random.below(64) as u8).collect();
    if random.once_in(8) && !case.start.is_empty() {
        let at = random.below(case.start.len());
        case.start[at] = random.pick(&[64, 65, 128, 255]);
    }
    sides.compare(&case, random);
}

/// A star-swap and a delete-tail; three in four have a goal that the builder may have.
fn builders(random: &mut Random, sides: &mut Sides) {
    for call in [Call::StarSwap, Call::DeleteTail] {
        let mut case = Case::new(call, &Arc::new(Tables::desk()));
        let wide = random.once_in(2);
        case.limits.swap_max = if wide { 17 } else { random.below(19) };
        let most = if random.once_in(8) { 21 } else { 17 };
        (case.start, case.goal) = draw::windows(random, most);
        if !random.once_in(4) {
            fit(random, &mut case);
        }
        case.lent.steps = if random.once_in(40) { random.below(128) } else { 128 + random.below(3) };
        if random.once_in(4) {
            // A builder passes over them.
            case.limits.beneath = draw::any_beneath(random, case.start.len());
        }
        if random.once_in(40) {
            case.start.resize(random.below(25), 7);
        }
        if random.once_in(40) {
            let window = if random.once_in(2) { &mut case.start } else { &mut case.goal };
            window.push(random.pick(&[64, 200]));
        }
        sides.compare(&case, random);
    }
}

/// Gives a builder's case a goal in reach.
fn fit(random: &mut Random, case: &mut Case) {
    let reach = case.limits.swap_max.min(case.start.len());
    if case.call == Call::StarSwap {
        case.goal = case.start.clone();
        draw::shuffle(random, &mut case.goal[..reach]);
    } else {
        case.start.truncate(reach);
        case.goal = case.start[..random.below(reach.max(1))].to_vec();
    }
}

/// All windows of three keys up to length 5 with all goals that are a rearrangement or a shorter prefix, at reaches around
/// their length; all pairs of windows up to length 2 at every small reach; all keys of one and two places.
fn small_windows() -> Run {
    let (starts, tables) = (windows(&[3, 1, 2], 5), Arc::new(Tables::desk()));
    let count = starts.len() as u64;
    Run::new("small-windows", 4, count + 256, move |sides, mut random| {
        let index = sides.index;
        let mut ask = |call: Call, start: &[u8], goal: &[u8], swap_max: usize| {
            let mut case = Case::new(call, &tables);
            (case.start, case.goal) = (start.to_vec(), goal.to_vec());
            case.limits.swap_max = swap_max;
            case.lent = case.least();
            sides.compare(&case, &mut random);
        };
        let Some(start) = starts.get(index as usize) else {
            let key = (index - count) as u8;
            ask(Call::Pack, &[key], &[], 0);
            (0..=255).for_each(|other| ask(Call::Pack, &[key, other], &[], 0));
            return;
        };
        for goal in &starts {
            let both_small = start.len() <= 2 && goal.len() <= 2;
            let least = if both_small { 0 } else { start.len().saturating_sub(1) };
            for swap_max in least..=start.len() + 1 {
                if both_small || same_keys(start, goal) {
                    ask(Call::StarSwap, start, goal, swap_max);
                }
                if both_small || (goal.len() < start.len() && start.starts_with(goal)) {
                    ask(Call::DeleteTail, start, goal, swap_max);
                }
            }
        }
    })
}

fn same_keys(one: &[u8], two: &[u8]) -> bool {
    let sorted = |window: &[u8]| {
        let mut keys = window.to_vec();
        keys.sort_unstable();
        keys
    };
    one.len() == two.len() && sorted(one) == sorted(two)
}
