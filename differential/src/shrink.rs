//! Makes a case that differs smaller, step by step, while it still differs.

use crate::{
    case::{Case, Lengths, Limits, STACK_LEN, Tables, limits},
    command::MOST_LENT,
    compare::{Sides, differs_alone},
};
use std::sync::Arc;

/// The smallest case found, how it differs and how many were tried.
pub struct Shrunk {
    pub case: Case,
    pub text: String,
    pub tries: usize,
}

/// After so many tries the smallest so far is given.
const TRIES: usize = 20_000;

/// The smallest case found by greedy steps, none if the case does not differ when it is asked alone.
pub fn shrink(case: &Case) -> Option<Shrunk> {
    let mut sides = Sides::default();
    let text = differs_alone(case, &mut sides)?;
    let mut least = Shrunk { case: case.clone(), text, tries: 0 };
    while let Some((case, text)) = smaller(&least.case, &mut least.tries, &mut sides) {
        (least.case, least.text) = (case, text);
    }
    Some(least)
}

/// The first smaller case that differs too.
fn smaller(case: &Case, tries: &mut usize, sides: &mut Sides) -> Option<(Case, String)> {
    let size = size(case);
    for candidate in candidates(case) {
        if self::size(&candidate) >= size || candidate.lent.numbers().iter().any(|&length| length > MOST_LENT) {
            continue;
        }
        *tries += 1;
        if *tries > TRIES {
            return None;
        }
        if let Some(text) = differs_alone(&candidate, sides) {
            return Some((candidate, text));
        }
    }
    None
}

/// What is made smaller, first things first: keys and steps, tables, numbers.
fn size(case: &Case) -> [u128; 6] {
    let desk = Tables::desk();
    let sum = |numbers: &[usize]| numbers.iter().map(|&n| n as u128).sum::<u128>();
    let runs = |prices: &[u32]| prices.windows(3).filter(|three| three[0] != three[2]).count() as u128;
    let prices = &case.tables.prices;
    let prices_size = if *prices == desk.prices { 0 } else { 1 + runs(prices) };
    let kinds_size = case.tables.kinds.iter().zip(&desk.kinds).filter(|(kind, other)| kind != other).count();
    let price_sum = prices.iter().map(|&price| u128::from(price)).sum::<u128>();
    let keys: u128 = case.start.iter().chain(&case.goal).chain(&case.popped).map(|&key| u128::from(key)).sum();
    [
        (case.start.len() + case.goal.len() + case.steps.len() + case.popped.len()) as u128,
        prices_size + kinds_size as u128 + case.tables.kinds.len().abs_diff(64) as u128,
        if prices_size == 0 { 0 } else { price_sum },
        sum(&case.limits.numbers()) + case.limits.beneath as u128,
        sum(&case.lent.numbers()),
        keys + case.steps.iter().map(|&code| u128::from(code)).sum::<u128>()
            + case.ceiling.map(u128::from).iter().sum::<u128>(),
    ]
}

/// Smaller cases of every kind; some may be no smaller.
fn candidates(case: &Case) -> Vec<Case> {
    let mut all = Vec::new();
    let mut add = |change: &dyn Fn(&mut Case)| {
        let mut other = case.clone();
        let fitting = other.lent == other.least();
        change(&mut other);
        // Lists that were the least stay so.
        if fitting {
            other.lent = other.least();
        }
        all.push(other);
    };
    add(&|c| c.lent = c.least());
    add(&|c| c.tables = Arc::new(Tables::desk()));
    add(&|c| Arc::make_mut(&mut c.tables).prices = Tables::desk().prices);
    add(&|c| Arc::make_mut(&mut c.tables).kinds = Tables::desk().kinds);
    // Low allowances first: then the other tries are quick.
    numbers(case, &mut add);
    keys(case, &mut add);
    steps(case, &mut add);
    tables(case, &mut add);
    all
}

type Add<'a> = dyn FnMut(&dyn Fn(&mut Case)) + 'a;

/// Windows without a key, or with a lower one in all places.
fn keys(case: &Case, add: &mut Add<'_>) {
    let (start, goal) = (case.start.len(), case.goal.len());
    for i in 0..start.max(goal) {
        // From the bottom and from the top, of both windows and of one.
        for (a, b) in [(Some(i), Some(i)), (Some(i), None), (None, Some(i))] {
            add(&|c| {
                a.filter(|&a| a < c.start.len()).map(|a| c.start.remove(a));
                b.filter(|&b| b < c.goal.len()).map(|b| c.goal.remove(b));
            });
        }
        add(&|c| {
            if i < start && i < goal {
                c.start.remove(start - 1 - i);
                c.goal.remove(goal - 1 - i);
            }
        });
    }
    // The lowest key beneath the window.
    add(&|c| {
        let had_key = c.start.pop().is_some();
        c.goal.pop();
        c.limits.beneath = c.limits.beneath.saturating_add(usize::from(had_key));
    });
    for at in 0..case.popped.len().min(64) {
        add(&|c| {
            c.popped.remove(at);
        });
    }
    let all = case.start.iter().chain(&case.goal).chain(&case.popped);
    let present: std::collections::BTreeSet<u8> = all.copied().collect();
    for key in present {
        for lower in (0..key.min(3)).chain([key / 2, key.saturating_sub(1)]) {
            add(&|c| {
                let windows = c.start.iter_mut().chain(&mut c.goal).chain(&mut c.popped);
                windows.filter(|other| **other == key).for_each(|other| *other = lower);
            });
        }
    }
}

/// Fewer steps, and lower codes.
fn steps(case: &Case, add: &mut Add<'_>) {
    let count = case.steps.len();
    let mut part = count;
    while part > 0 {
        for from in (0..count).step_by(part).take(64) {
            let to = count.min(from + part);
            add(&|c| drop(c.steps.drain(from..to)));
            // With the places lent for what they pop, or with the keys popped.
            add(&|c| {
                c.lent.popped = c.lent.popped.saturating_sub(to - from);
                c.steps.drain(from..to);
            });
            add(&|c| drop_with_popped(c, from, to));
        }
        part /= 2;
    }
    for at in 0..count.min(64) {
        add(&|c| c.steps[at] = 0);
        add(&|c| c.steps[at] = c.steps[at].saturating_sub(1));
    }
}

/// Drops steps, and of a stepping back the keys that they pop.
fn drop_with_popped(case: &mut Case, from: usize, to: usize) {
    let pops = |steps: &[u16]| steps.iter().filter(|&&code| code == 0).count();
    let first = pops(&case.steps[..from]).min(case.popped.len());
    let last = pops(&case.steps[..to]).min(case.popped.len());
    case.popped.drain(first..last);
    case.steps.drain(from..to);
}

/// Lower limits, lengths and ceiling.
fn numbers(case: &Case, add: &mut Add<'_>) {
    for at in 0..6 {
        let old = case.limits.numbers()[at];
        for lower in lower(old) {
            add(&|c| {
                let mut numbers = c.limits.numbers();
                numbers[at] = lower;
                c.limits = Limits { beneath: c.limits.beneath, ..limits(numbers) };
            });
        }
    }
    // None, then around 1,024.
    let near = STACK_LEN - 24..STACK_LEN + 3;
    for fewer in lower(case.limits.beneath).into_iter().chain(near).filter(|&fewer| fewer < case.limits.beneath) {
        add(&|c| c.limits.beneath = fewer);
    }
    for at in 0..5 {
        for lower in lower(case.lent.numbers()[at]) {
            add(&|c| {
                let mut numbers = c.lent.numbers();
                numbers[at] = lower;
                c.lent = Lengths::of(numbers);
            });
        }
    }
    for at in 0..2 {
        for lower in lower(case.ceiling[at] as usize) {
            add(&|c| c.ceiling[at] = lower as u32);
        }
    }
}

fn lower(number: usize) -> [usize; 6] {
    [0, 1, 17, number / 2, number - number / 8, number.saturating_sub(1)].map(|lower| lower.min(number))
}

/// Simpler kinds and prices: one class of steps or one pair at a time.
fn tables(case: &Case, add: &mut Add<'_>) {
    let desk = Tables::desk();
    let (kinds, prices) = (case.tables.kinds.len(), case.tables.prices.len());
    for at in 0..kinds.min(64) {
        add(&|c| Arc::make_mut(&mut c.tables).kinds[at] = desk.kinds[at]);
    }
    let mut parts = vec![(0, prices), (0, 2), (2, 34), (34, 68), (68, prices)];
    parts.extend((0..prices / 2).map(|pair| (2 * pair, 2 * pair + 2)));
    for (from, to) in parts.into_iter().filter(|&(from, to)| from < to && to <= prices) {
        for price in [0, 1] {
            add(&|c| Arc::make_mut(&mut c.tables).prices[from..to].fill(price));
        }
        // As the pair before.
        add(&|c| {
            if from >= 2 {
                let prices = &mut Arc::make_mut(&mut c.tables).prices;
                for at in from..to {
                    prices[at] = prices[at - 2];
                }
            }
        });
        add(&|c| Arc::make_mut(&mut c.tables).prices[from..to].iter_mut().for_each(|price| *price /= 2));
    }
}
