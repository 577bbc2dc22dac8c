//! Looks for plans of more than 128 steps.
//!
//! Where Pop, one Dup and one Swap are cheap and all else is dear, a window is rearranged by shifting it up and down
//! until the right item is at the right depth: hundreds of cheap steps in the place of one dear step.

use crate::{
    case::{Case, DUP, ENDING, EXPANSIONS, KEY, ORIGIN, POP, SWAP, Tables, limits},
    draw::Random,
    reference::Reference,
};
use std::sync::Arc;

/// Prices by which Pop, Dup `place` and Swap `depth` cost `cheap`, a key costs `key` gas and all else 30,000 gas.
pub fn shifting_prices(place: usize, depth: usize, cheap: (u32, u32), key: u32) -> Tables {
    let mut tables = Tables::desk_with(|pair| match pair {
        POP => cheap,
        pair if pair == DUP + place || pair == SWAP + depth => cheap,
        pair if pair >= KEY => (key, 0),
        _ => (30_000, 0),
    });
    tables.kinds = vec![0; 64];
    tables
}

/// Asks `count` questions with such prices and prints each plan that is longer than all before it.
pub fn run(seed: u64, count: u64) {
    let mut reference = Reference::default();
    let (mut longest, mut over) = (0, 0);
    for index in 0..count {
        let mut random = Random::new(seed, index);
        let (place, depth) = (1 + random.below(4), 5 + random.below(5));
        let cheap = random.pick(&[(0, 1), (0, 0)]);
        let max_len = depth + 3 + random.below(3);
        let keys = 3 + random.below(3);
        let mut window = || -> Vec<u8> { (0..1 + random.below(max_len)).map(|_| random.below(keys) as u8).collect() };
        let (start, goal) = (window(), window());
        let tables = Arc::new(shifting_prices(place, depth, cheap, 10));
        let limits = limits([place + 1, max_len, max_len, 65_536, 65_536, 65_536]);
        let answer = reference.plan(&Case::plan(limits, &start, &goal, &tables));
        over += u64::from(answer.plan.len() > 128);
        if answer.plan.len() > longest {
            longest = answer.plan.len();
            let [expansions, ending, origin] = [EXPANSIONS, ENDING, ORIGIN].map(|at| answer.fields[at]);
            println!(
                "{longest} steps, {expansions} expansions, ending {ending}, origin {origin}: {start:?} to {goal:?}, \
                 {limits:?}; Pop, Dup {place} and Swap {depth} {}/{}, keys 10/0, all else 30,000/0",
                cheap.0, cheap.1
            );
        }
    }
    println!("longest {longest} steps; {over} of {count} plans over 128 steps");
}
