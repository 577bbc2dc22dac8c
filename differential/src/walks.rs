//! Stepping back: replays walked back from what the port wrote, wrong ones, and all questions of a small domain.

use crate::{
    case::{Call, Case, Lengths, Limits, STACK_LEN, Tables},
    compare::{Need, Run, Sides},
    draw::{self, Random},
    exhaustive::windows,
    rewinding,
};
use std::sync::Arc;

/// A run in which no walk has a start, or every one has, shows nothing; neither does one without stacks that are too tall
/// or whose items beneath change nothing.
const NEEDS: &[Need] = &[
    Need::Answer(Call::Rewind, 0),
    Need::Answer(Call::Rewind, 11),
    Need::Answer(Call::Rewind, 12),
    Need::Narrowed(Call::Rewind),
    Need::Moved(Call::Rewind),
];

pub fn runs(seed: u64, count: u64) -> Vec<Run> {
    let walks = Run::new("walks", seed, count, |sides, mut random| walk(&mut random, sides));
    vec![walks.needing(NEEDS), small_steps().needing(NEEDS)]
}

/// A replay, the walk back from its end, one with other items beneath alone, and two walks with something changed.
fn walk(random: &mut Random, sides: &mut Sides) {
    // Other steps than those of `exercises` with the same seed.
    random.next();
    let there = replayed(random);
    let Some((there, back)) = walked_there(random, there, sides) else {
        return;
    };
    let answer = sides.compare_deep(&back, random);
    if answer.refusal != 0 || answer.window != there.start {
        sides.tally.differ(sides.index, &[&there, &back], || "the walk back does not give the start".into());
    }
    if back.limits.beneath != 0 || random.once_in(4) {
        let mut deeper = back.clone();
        deeper.limits.beneath = draw::any_beneath(random, deeper.start.len());
        sides.compare_deep(&deeper, random);
    }
    for _ in 0..2 {
        let mut wrong = back.clone();
        for _ in 0..1 + random.below(2) {
            change(random, &mut wrong);
        }
        sides.compare_deep(&wrong, random);
    }
}

/// A replay of drawn steps, now and then of as many as there may be.
fn replayed(random: &mut Random) -> Case {
    let mut case = Case::new(Call::Replay, &Arc::new(draw::tables(random)));
    case.limits = draw::deep_limits(random);
    (case.start, _) = draw::windows(random, case.limits.window());
    let count = if random.once_in(400) { 65_536 } else { random.below(40) };
    case.steps = draw::steps(random, &case, count);
    case.lent = Lengths { steps: 21 + random.below(5), ..case.least() };
    case.lent.popped = draw::popped_room(random, count);
    case
}

/// An accepted replay and the walk back from what the port wrote. Where the replay is refused, it is asked again with
/// enough places and without the steps from the one on that is not allowed.
fn walked_there(random: &mut Random, mut there: Case, sides: &mut Sides) -> Option<(Case, Case)> {
    for _ in 0..3 {
        let answer = sides.compare(&there, random).answer;
        if answer.refusal == 0 {
            let lent = Lengths { steps: 21 + random.below(5), ..Lengths::default() };
            let back = Case { call: Call::Rewind, start: answer.window, popped: answer.popped, lent, ..there.clone() };
            return Some((there, back));
        }
        if answer.refusal == 8 {
            there.steps.truncate(answer.fields[0] as usize);
        }
        there.lent = there.least();
    }
    None
}

/// Changes one thing of a walk back; some changes leave it with a start, the same or another.
pub fn change(random: &mut Random, case: &mut Case) {
    let (steps, popped) = (case.steps.len(), case.popped.len());
    let key = random.below(64) as u8;
    match random.below(20) {
        0 | 1 => change_keys(random, &mut case.start, key),
        2 | 3 => change_keys(random, &mut case.popped, key),
        4 => draw::set(random, &mut case.start, &[64, 65, 255]),
        5 => draw::set(random, &mut case.popped, &[64, 65, 255]),
        // Behind the last Pop's.
        6 => case.popped.push(random.pick(&[0, 63, 64, 255])),
        7 => case.steps.insert(random.below(steps + 1), draw::code(random)),
        8 => case.steps.insert(random.below(steps + 1), 0),
        9 if steps > 0 => {
            case.steps.remove(random.below(steps));
        }
        10 if steps > 0 => case.steps[random.below(steps)] = draw::code(random),
        11 if steps > 1 => case.steps.swap(random.below(steps), random.below(steps)),
        // A Pop more at the end, and a key more among the popped.
        12 => {
            case.steps.push(0);
            case.popped.insert(random.below(popped + 1), key);
        }
        13 => case.limits.dup_max = random.below(case.limits.dup_max.min(16) + 1),
        14 => case.limits.swap_max = random.below(case.limits.swap_max.min(17) + 1),
        15 | 16 => case.limits.max_len = case.limits.max_len.saturating_sub(1 + random.below(2)),
        17 => change_kind(random, case),
        18 => case.lent.steps = random.below(21),
        _ if random.once_in(40) => case.steps.resize(65_537, 0),
        _ => draw::spoil(random, case),
    }
}

/// Changes, adds or removes a key, or exchanges two.
fn change_keys(random: &mut Random, keys: &mut Vec<u8>, key: u8) {
    let count = keys.len();
    match random.below(4) {
        0 if count > 0 => keys[random.below(count)] = key,
        1 if count > 0 => {
            keys.remove(random.below(count));
        }
        2 if count > 1 => keys.swap(random.below(count), random.below(count)),
        _ => keys.insert(random.below(count + 1), key),
    }
}

/// Makes a value an immediate or the other way, if it can a key that the steps push or load.
fn change_kind(random: &mut Random, case: &mut Case) {
    let made: Vec<usize> = case.steps.iter().filter(|&&code| code >= 768).map(|&code| code as usize % 64).collect();
    let key = if made.is_empty() { random.below(64) } else { random.pick(&made) };
    if let Some(kind) = Arc::make_mut(&mut case.tables).kinds.get_mut(key) {
        *kind = u8::from(*kind == 0);
    }
}

/// The step codes of the small domain: Pop, Dups, Swaps, pushes and loads of both keys, and codes of no step.
const CODES: [u16; 14] = [0, 256, 257, 258, 512, 513, 514, 515, 768, 769, 1024, 1025, 1, 1280];

/// All steps up to three, ends up to `max_len` and popped keys up to three, over a value and an immediate, at small
/// reaches, and with room for no more than three keys above the items beneath: against both models. An item is a set of
/// rules and steps.
fn small_steps() -> Run {
    let (rules, steps) = (small_rules(), step_lists(3));
    let (keys, starts) = (windows(&[0, 1], 3), windows(&[0, 1, 2], 3));
    let mut tables = Tables::desk();
    tables.kinds = [vec![0, 1], vec![0; 62]].concat();
    let (tables, count) = (Arc::new(tables), rules.len() * steps.len());
    Run::new("small-steps", 9, count as u64, move |sides, mut random| {
        let index = sides.index as usize;
        let mut case = Case::new(Call::Rewind, &tables);
        case.limits = rules[index / steps.len()];
        case.steps.clone_from(&steps[index % steps.len()]);
        case.lent = case.least();
        let tried = rewinding::tried(&case, &starts);
        for end in keys.iter().filter(|end| end.len() <= case.limits.max_len) {
            for popped in &keys {
                (case.start, case.popped) = (end.clone(), popped.clone());
                small_walk(&case, tried.as_ref(), sides, &mut random);
            }
        }
    })
}

/// Both models and both sides on one walk.
fn small_walk(case: &Case, tried: Option<&rewinding::Starts>, sides: &mut Sides, random: &mut Random) {
    let both = (case.start.clone(), case.popped.clone());
    let found = tried.map(|starts| starts.get(&both).cloned());
    if found != Some(rewinding::start_before(case).ok()) {
        sides.tally.differ(sides.index, &[case], || format!("all starts tried: {found:?}"));
    }
    sides.compare(case, random);
}

fn small_rules() -> Vec<Limits> {
    let mut rules = Vec::new();
    for dup_max in 0..4 {
        for swap_max in [0, 2, 3] {
            rules.extend((0..4).map(|max_len| Limits { dup_max, swap_max, max_len, ..Limits::default() }));
        }
    }
    for [dup_max, swap_max] in [[1, 2], [3, 3]] {
        for max_len in [2, 3, 21] {
            let deep = (STACK_LEN - 3)..=STACK_LEN;
            rules.extend(deep.map(|beneath| Limits { dup_max, swap_max, max_len, beneath, ..Limits::default() }));
        }
    }
    rules
}

/// All lists of the codes up to a length.
fn step_lists(longest: usize) -> Vec<Vec<u16>> {
    let (mut all, mut from) = (vec![vec![]], 0);
    for _ in 0..longest {
        let to = all.len();
        for at in from..to {
            for code in CODES {
                let longer = [&all[at][..], &[code]].concat();
                all.push(longer);
            }
        }
        from = to;
    }
    all
}
