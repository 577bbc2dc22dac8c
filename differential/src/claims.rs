//! Demand 3 on pairs of answers, each compared with the Rust; replay and marking of each plan.

use crate::{
    case::{Answer, CEILING, Call, Case, ENDING, FOUND, HIGHEST, HIGHEST_REPLAYED, PLAN_COST},
    compare::{Need, Run, Sides},
    draw::{self, Random},
    port,
};
use std::sync::Arc;

/// The larger allowance: the same, a little more, or anything above.
fn raised(random: &mut Random, allowance: usize) -> usize {
    let more = match random.below(4) {
        0 => 0,
        1 => random.below(3),
        2 => random.below(300),
        _ => {
            let most = if random.once_in(20) { 65_537 } else { 3_000 };
            random.below(most)
        }
    };
    (allowance + more).min(65_536)
}

/// A run whose items beneath change no plan, no replay and no marking shows nothing of them.
const NEEDS: &[Need] = &[Need::Moved(Call::Plan), Need::Narrowed(Call::Replay), Need::Narrowed(Call::Mark)];

pub fn run(seed: u64, pairs: u64) -> Run {
    let run = Run::new("claims", seed, pairs, |sides, mut random| {
        // Other questions than those of `random` with the same seed.
        random.next();
        let tables = Arc::new(draw::tables(&mut random));
        let mut first = draw::deep_question(&mut random, &tables);
        // As many items beneath.
        let mut second = first.clone();
        for allowance in
            [&mut second.limits.max_expansions, &mut second.limits.states_without, &mut second.limits.states_with]
        {
            *allowance = raised(&mut random, *allowance);
        }
        let mut ask = |case: &mut Case, sides: &mut Sides| {
            case.lent = port::lengths(case, &mut random);
            let answer = sides.compare(case, &mut random).answer;
            let mut broken = if answer.refusal == 0 { Vec::new() } else { vec!["an accepted question is refused"] };
            broken.extend(sound(case, &answer, sides, &mut random));
            (answer, broken)
        };
        let (one, mut broken) = ask(&mut first, sides);
        let (two, also_broken) = ask(&mut second, sides);
        broken.extend(also_broken);
        broken.extend(claim(&one, &two));
        if !broken.is_empty() {
            sides.tally.differ(sides.index, &[&first, &second], || broken.join("; "));
        }
    });
    run.needing(NEEDS)
}

/// Demand 3: what may not happen between two answers of raised allowances.
fn claim(one: &Answer, two: &Answer) -> Vec<&'static str> {
    let found = |answer: &Answer| answer.fields[FOUND] == 1;
    let mut broken = Vec::new();
    if found(one) && !found(two) {
        broken.push("a plan is lost");
    }
    if found(one) && two.cost(CEILING) > one.cost(CEILING) {
        broken.push("the ceiling rises");
    }
    if matches!(one.fields[ENDING], 0 | 2 | 3) && one != two {
        broken.push("an answer that ended by itself changes");
    }
    broken
}

/// What holds of each answer: its plan replays with the highest window that it says, costs what it says, and passes its
/// own ceiling.
fn sound(case: &Case, answer: &Answer, sides: &mut Sides, random: &mut Random) -> Vec<&'static str> {
    let mut broken = Vec::new();
    if answer.refusal != 0 || answer.fields[FOUND] == 0 {
        return broken;
    }
    let (cost, ceiling) = (answer.cost(PLAN_COST), answer.cost(CEILING));
    if cost > ceiling {
        broken.push("the plan costs more than its ceiling");
    }
    let mut of_plan = Case { call: Call::Replay, steps: answer.plan.clone(), ..case.clone() };
    of_plan.lent = of_plan.least();
    let replayed = sides.compare(&of_plan, random).answer;
    if replayed.refusal != 0 || replayed.window != case.goal {
        broken.push("the plan does not replay to the goal");
    }
    let highest = answer.fields[HIGHEST];
    if replayed.fields[HIGHEST_REPLAYED] != highest {
        broken.push("the plan's highest window is not that of its replay");
    }
    of_plan.call = Call::Mark;
    of_plan.lent = of_plan.least();
    let mut mark = |(gas, bytes): (u64, u64)| {
        of_plan.ceiling = [gas, bytes].map(|part| part.min(u32::MAX.into()) as u32);
        let marked = sides.compare(&of_plan, random).answer;
        (marked.refusal, marked.fields[1], marked.fields[HIGHEST_REPLAYED])
    };
    if mark(ceiling) != (0, 0, highest) || mark(cost) != (0, 0, highest) {
        broken.push("the plan does not pass its ceiling or its cost, or not with its highest window");
    }
    let below = match cost {
        (0, 0) => return broken,
        (gas, 0) => (gas - 1, u32::MAX.into()),
        (gas, bytes) => (gas, bytes - 1),
    };
    if mark(below) != (0, 2, highest) {
        broken.push("the plan passes a ceiling below its cost, or is not too dear with its highest window");
    }
    broken
}
