//! All questions of small domains.

use crate::{
    case::{Call, Case, DUP, KEY, Limits, POP, SWAP, Tables, limits},
    compare::{Need, Run},
    port,
};
use std::sync::Arc;

/// Every start and goal over the keys, at all of these numbers and tables, as far as no number refuses them; with items
/// beneath, those too that are refused as 12 or 6.
struct Domain {
    name: &'static str,
    keys: &'static [u8],
    longest: usize,
    dup_max: &'static [usize],
    swap_max: &'static [usize],
    max_len: &'static [usize],
    beneath: &'static [usize],
    allowances: &'static [[usize; 3]],
    kinds: Vec<Named<Vec<u8>>>,
    prices: Vec<Named<Vec<u32>>>,
}

type Named<T> = (&'static str, T);

/// Refusals by stack and by window, and plans that the items beneath change.
const NEEDS: &[Need] =
    &[Need::Answer(Call::Plan, 6), Need::Answer(Call::Plan, 12), Need::Narrowed(Call::Plan), Need::Moved(Call::Plan)];

pub fn runs() -> Vec<Run> {
    vec![small().run(1), tall().run(3), deep().run(5).needing(NEEDS)]
}

/// Prints what the domains are.
pub fn describe() {
    small().describe();
    tall().describe();
    deep().describe();
}

/// Four keys of all kinds, windows up to 3, with the desk's kinds.
fn small() -> Domain {
    let desk = Tables::desk();
    Domain {
        name: "small",
        keys: &[0, 1, 32, 33],
        longest: 3,
        dup_max: &[0, 1, 2, 3, 16],
        swap_max: &[0, 1, 2, 3, 17],
        max_len: &[2, 3, 4],
        beneath: &[0],
        allowances: &[
            [0, 20, 20],
            [1, 20, 20],
            [2, 20, 20],
            [5, 1, 1],
            [40, 0, 9],
            [40, 9, 0],
            [40, 30, 30],
            [300, 500, 500],
        ],
        kinds: vec![("the desk's", desk.kinds)],
        prices: vec![
            ("the desk's", desk.prices),
            ("all zero", vec![0; 196]),
            ("dear swaps", classes((2, 1), (3, 1), (20, 1), (6, 3))),
            ("bytes only", classes((0, 1), (0, 3), (0, 2), (0, 4))),
            ("by place", by_place()),
        ],
    }
}

/// Three keys, windows up to 4 that may grow to 6, with several kinds.
fn tall() -> Domain {
    let kinds = |first: [u8; 3]| [first.to_vec(), vec![0; 29], vec![1; 32]].concat();
    Domain {
        name: "tall",
        keys: &[0, 1, 2],
        longest: 4,
        dup_max: &[0, 2, 16],
        swap_max: &[4, 17],
        max_len: &[4, 5, 6],
        beneath: &[0],
        allowances: &[[8, 60, 40], [400, 600, 600]],
        kinds: vec![
            ("three values", vec![0; 64]),
            ("a value, two immediates", kinds([0, 1, 1])),
            ("three immediates, no zero", kinds([1, 1, 1])),
            ("the zero, two immediates", kinds([2, 1, 1])),
            ("a value, the zero, an immediate", kinds([0, 2, 1])),
        ],
        prices: vec![
            ("the desk's", Tables::desk().prices),
            ("cheap keys", classes((2, 1), (3, 1), (3, 1), (2, 2))),
            ("by place", by_place()),
        ],
    }
}

/// Three keys of all kinds, windows up to 4, with room for 0 to 4 keys above the items beneath. The port must answer each
/// that fits as it does with the narrower window as `max_len` and nothing beneath.
fn deep() -> Domain {
    let desk = Tables::desk();
    Domain {
        name: "deep",
        keys: &[0, 32, 33],
        longest: 4,
        dup_max: &[0, 16],
        swap_max: &[3, 17],
        max_len: &[3, 21],
        beneath: &[1_020, 1_021, 1_022, 1_023, 1_024],
        allowances: &[[0, 20, 20], [6, 60, 40], [300, 500, 500]],
        kinds: vec![("the desk's", desk.kinds)],
        prices: vec![("the desk's", desk.prices), ("dear swaps", classes((2, 1), (3, 1), (20, 1), (6, 3)))],
    }
}

/// Prices of Pop, Dups, Swaps and keys.
fn classes(pop: (u32, u32), dup: (u32, u32), swap: (u32, u32), key: (u32, u32)) -> Vec<u32> {
    let price = move |pair| match pair {
        POP => pop,
        DUP..SWAP => dup,
        SWAP..KEY => swap,
        _ => key,
    };
    Tables::desk_with(price).prices
}

fn by_place() -> Vec<u32> {
    Tables::desk_with(|pair| ((pair * 7 % 5) as u32, (pair * 3 % 4) as u32)).prices
}

/// All windows over the keys up to a length, short ones first.
pub fn windows(keys: &[u8], longest: usize) -> Vec<Vec<u8>> {
    let mut all = vec![vec![]];
    let mut last = all.clone();
    for _ in 0..longest {
        last =
            last.iter().flat_map(|window| keys.iter().map(|&key| [&window[..], &[key]].concat())).collect::<Vec<_>>();
        all.extend(last.iter().cloned());
    }
    all
}

impl Domain {
    fn describe(&self) {
        let names = |list: &[&'static str]| list.join("; ");
        let (keys, longest) = (self.keys, self.longest);
        let most = if self.beneath == [0] { ", swap_max and max_len" } else { "" };
        println!("{}: all windows over keys {keys:?} up to {longest}{most}", self.name);
        println!("  dup_max {:?}, swap_max {:?}, max_len {:?}", self.dup_max, self.swap_max, self.max_len);
        println!("  items beneath {:?}", self.beneath);
        println!("  max_expansions, states without, states with {:?}", self.allowances);
        println!("  kinds: {}", names(&self.kinds.iter().map(|(name, _)| *name).collect::<Vec<_>>()));
        println!("  prices: {}", names(&self.prices.iter().map(|(name, _)| *name).collect::<Vec<_>>()));
    }

    /// Every combination of tables and numbers.
    fn frames(&self) -> Vec<(Arc<Tables>, Limits)> {
        let (mut frames, limits) = (Vec::new(), self.limits());
        for (_, prices) in &self.prices {
            for (_, kinds) in &self.kinds {
                let tables = Arc::new(Tables { kinds: kinds.clone(), prices: prices.clone() });
                frames.extend(limits.iter().map(|&limits| (Arc::clone(&tables), limits)));
            }
        }
        frames
    }

    /// Every combination of numbers.
    fn limits(&self) -> Vec<Limits> {
        let mut all = Vec::new();
        for &dup_max in self.dup_max {
            for &swap_max in self.swap_max {
                for &max_len in self.max_len {
                    for &beneath in self.beneath {
                        for &[expansions, without, with] in self.allowances {
                            let numbers = [dup_max, swap_max, max_len, expansions, without, with];
                            all.push(Limits { beneath, ..limits(numbers) });
                        }
                    }
                }
            }
        }
        all
    }

    /// An item is a frame and a start, with all goals.
    fn run(&self, seed: u64) -> Run {
        let (frames, windows) = (self.frames(), windows(self.keys, self.longest));
        let starts = windows.len() as u64;
        Run::new(self.name, seed, frames.len() as u64 * starts, move |sides, mut random| {
            let index = sides.index;
            let (tables, limits) = &frames[(index / starts) as usize];
            let start = &windows[(index % starts) as usize];
            let most = limits.swap_max.min(limits.max_len);
            let is_asked = |window: &[u8]| limits.beneath != 0 || window.len() <= most;
            if !is_asked(start) {
                return;
            }
            for goal in windows.iter().filter(|goal| is_asked(goal)) {
                let mut case = Case::plan(*limits, start, goal, tables);
                case.lent = port::lengths(&case, &mut random);
                sides.compare_deep(&case, &mut random);
            }
        })
    }
}
